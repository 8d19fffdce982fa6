// What is wrong with a line of a script that has no form, by the first word that no form has at its place
// (docs/FORMATS.md, The script).

const NUMBER = /^(0|[1-9]\d*)$/;

function number(least, most) {
    return word => !NUMBER.test(word) ? "isn't a decimal number without sign and leading zeros"
        : BigInt(word) < BigInt(least) || BigInt(word) > BigInt(most) ? `isn't from ${least} to ${most}` : null;
}

function one_of(...words) {
    return word => words.includes(word) ? null : `isn't ${words.slice(0, -1).join(", ")} or ${words.at(-1)}`;
}

function hex(word) {
    const odd = /[^0-9a-fA-F]/.exec(word);
    return word === "-" ? null
        : odd ? `has ${odd[0]}, which isn't a hexadecimal digit`
            : word.length % 2 === 1 ? "has an odd number of digits" : null;
}

const side = one_of("A", "B"), capacity = number(0, 4294967295), segment = number(0, 4294967295);

const KEYS = {
    isn: number(0, 4294967295), mss: number(0, 65535), send: capacity, recv: capacity,
    shift: word => word === "none" ? null : number(0, 255)(word), sack: one_of("on", "off"),
    limit: number(0, "9223372036854775807"), runs: number(1, 4096),
};

// The words behind the first, in order: a name for the reader, and the test.
const EVENTS = {
    connect: [["SIDE", side]], listen: [["SIDE", side]], close: [["SIDE", side]], abort: [["SIDE", side]],
    send: [["SIDE", side], ["HEX", hex]], receive: [["SIDE", side], ["N", number(0, 1048576)]], emit: [["SIDE", side]],
    timer: [["SIDE", side], ["retransmit, reorder or timewait", one_of("retransmit", "reorder", "timewait")]],
    deliver: [["SIDE", side], ["K", segment]],
    damage: [["SIDE", side], ["K", segment], ["PLACE", number(0, 4294967295)], ["XOR", number(0, 255)]],
};

function places_in(words) {
    if (words[0] !== "config") {
        return EVENTS[words[0]] ?? null;
    }
    if (words[1] === "life") {
        return [["life", one_of("life", "life")], ["N", number(2, 2147483648)]];
    }
    const key = one_of(...Object.keys(KEYS));
    return [["SIDE", side], ["a key", key], ["its value", KEYS[words[2]] ?? (() => null)]];
}

// One sentence on the first word that is wrong, or null where none is found.
export function word_fault(line) {
    const words = line.split(" ");
    if (words[0] === "repeat") {
        const wrong = words.length < 2 ? null : number(1, 1048576)(words[1]);
        const rest = words.slice(2).join(" ");
        return words.length < 3 ? "a word is missing behind “repeat”: N EVENT"
            : wrong ? `“${words[1]}” ${wrong}`
                : words[2] in EVENTS ? word_fault(rest) : `“${words[2]}” is no event that can be repeated`;
    }
    const form = places_in(words);
    if (form === null) {
        return `no line begins with “${words[0].slice(0, 24)}”`;
    }
    for (const [place, [name, test]] of form.entries()) {
        const word = words[place + 1];
        if (word === undefined) {
            return `a word is missing behind “${line}”: ${name}`;
        }
        const wrong = test(word);
        if (wrong !== null) {
            return `“${word.slice(0, 24)}” ${wrong}`;
        }
    }
    return words.length > form.length + 1 ? `“${words[form.length + 1].slice(0, 24)}” is a word too many` : null;
}
