// Segments as bytes, and what they say: a list that is typed, hexadecimal digits that are pasted, or a capture.
import { FAULT } from "./module.mjs";
import { line_of_hex } from "./captures.mjs";

// Digits alone, of a header at least.
const DIGITS = /^(?:[0-9a-fA-F]{2}){20,}$/;

// The list, with addresses where a line is digits alone.
function with_addresses(text) {
    return text.split("\n").map(line => DIGITS.test(line) ? line_of_hex(line, "10.0.0.1", "10.0.0.2") : line).join("\n");
}

const MENDED = "  (its checksum was left to a device, and is made right)";

export function listing({ list, told, shown }, core_of, on_typing) {
    // With a word at the lines, by their numbers, whose checksum is made right.
    function show(mended = []) {
        if (list.value.trim() === "") {
            told.textContent = shown.textContent = "";
            return;
        }
        const { answer, text, line } = core_of().list(with_addresses(list.value));
        const is_mended = new Set(mended);
        shown.textContent = mended.length === 0 ? text : text.split("\n").map((one, place) => is_mended.has(place + 1) ? `${one}${MENDED}` : one).join("\n");
        told.textContent = answer === FAULT ? `Line ${line} isn't of this form: two IPv4 addresses and an even number of ` +
            "hexadecimal digits, with one space between; or digits alone, 40 or more." : "";
    }

    list.addEventListener("input", () => {
        on_typing();
        show();
    });
    return {
        // The segments of a capture, or the first of them where it has many.
        show_capture({ name, lines, mended, count, left_out, fault }) {
            list.value = lines.map(line => `${line}\n`).join("");
            show(mended);
            told.textContent = [
                `${name}: ${count} segments${left_out === 0 ? "" : `, ${left_out} packets without a whole IPv4 TCP segment left out`}.`,
                fault === null ? "" : `The file is ${fault}.`,
                mended.length === 0 ? "" : `${mended.length} of the list's checksums ${mended.length === 1 ? "was" : "were"} left to a device, and made right.`,
                lines.length === count ? "" : `The list has the first ${lines.length}.`,
            ].filter(words => words !== "").join(" ");
        },
    };
}
