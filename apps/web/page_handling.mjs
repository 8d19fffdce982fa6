// Tests how the page is handled: keys, clicks, editing, faults, links, narrow and dark windows.
import fs from "node:fs";
import { at, wanted } from "./cases.mjs";

const FIRST = fs.readFileSync(at("crates/tcpkit/data/first-run.script"), "utf8");
const SEEDS = [3, 77];
const FIRST_REPORT = fs.readFileSync(at("crates/tcpkit/stdout"), "utf8");

async function keys(tab, tools, expect) {
    await tools.edit(FIRST);
    await tools.go(0);
    const steps = FIRST_REPORT.split("\n").length - 3;
    const place = async () => Number((await tools.shown()).place.split(" ")[0]);
    const presses = [["ArrowDown", 1], ["ArrowDown", 2], ["ArrowRight", 3], ["ArrowUp", 2], ["ArrowLeft", 1],
        ["PageDown", 11], ["PageUp", 1], ["End", steps], ["ArrowDown", steps], ["Home", 0], ["ArrowUp", 0]];
    await tools.run(() => document.getElementById("ladder").focus());
    for (const [key, wanted_place] of presses) {
        await tab.key(key);
        expect(`in the ladder, ${key}`, await place(), wanted_place);
    }
    const ways = () => tools.run(
        () => [document.getElementById("back").disabled, document.getElementById("next").disabled]);
    expect("no way back", await ways(), [true, false]);
    await tools.go(steps);
    expect("no way on", await ways(), [false, true]);
    await tools.go(0);
    await tools.run(() => document.activeElement.blur());
    await tab.key("ArrowRight");
    expect("ArrowRight in the page", await place(), 1);
    await tools.run(() => document.getElementById("step").focus());
    await tab.key("ArrowRight");
    expect("ArrowRight at the slider", await place(), 2);
    await tools.run(() => document.getElementById("script").focus());
    await tab.key("ArrowRight");
    expect("ArrowRight in the script", await place(), 2);
    await tools.run(() => document.getElementById("next").click());
    expect("the button Next", await place(), 3);
    await tools.run(() => document.getElementById("back").click());
    expect("the button Back", await place(), 2);
}

// What a click on an arrow shows is what the report says of its segment, as the listing has it.
async function clicks(tab, tools, expect) {
    await tools.edit(FIRST);
    await tools.go(0);
    await tools.run(() => { document.getElementById("ladder").scrollTop = 0; });
    for (const [number, text] of [["2", "616263"], ["1", "-"]]) {
        const line = FIRST_REPORT.split("\n").find(one => one.includes(` emit A ${number} `));
        const [, flags, seq, ack, window] = /flags (\S+) seq (\d+) ack (\d+) window (\d+)/.exec(line);
        const [x, y] = await tools.run(which => {
            const shaft = document.querySelector(`#picture .arrow[data-side="A"][data-number="${which}"] .shaft`);
            const point = shaft.getPointAtLength(shaft.getTotalLength() * 0.25), matrix = shaft.getScreenCTM();
            return [point.x * matrix.a + matrix.e, point.y * matrix.d + matrix.f];
        }, number);
        await tab.click(x, y);
        const { listing, told, letters } = await tools.shown();
        expect(`a click on segment ${number}`, listing,
            `1 > 2 seq ${seq} ack ${ack} reserved 0 flags ${flags} window ${window} urgent 0 options - pad 0 ` +
            `text ${text}`);
        expect(`whose segment ${number} is`,
            told.startsWith(`A's segment ${number}, emitted at event ${line.split(" ")[0]}`), true);
        expect(`the letters of segment ${number}`, letters.includes("abc"), text !== "-");
    }
    await tools.run(() => document.getElementById("segment-next").click());
    expect("the segment after", (await tools.shown()).told.startsWith("A's segment 2, "), true);
    const row = await tools.run(() => {
        const box = document.getElementById("canvas").getBoundingClientRect();
        return [box.left + 4, box.top, box.height];
    });
    await tab.click(row[0], row[1] + row[2] * 4.5 / 21);
    expect("a click on a row", (await tools.shown()).place, "5 of 20");
}

// A script whose last line is typed gives the stored report.
async function editing(tab, tools, expect) {
    const lines = FIRST.split("\n");
    await tools.run(() => { document.getElementById("report").open = true; });
    await tools.edit(lines.slice(0, -2).join("\n") + "\n");
    const before = (await tools.shown()).report.split("\n").slice(0, -3);
    expect("before the last line", before, FIRST_REPORT.split("\n").slice(0, -4));
    await tools.run(() => {
        const field = document.getElementById("script");
        field.focus();
        field.setSelectionRange(field.value.length, field.value.length);
    });
    for (const letter of lines.at(-2)) {
        await tab.type(letter);
    }
    expect("with the last line", (await tools.shown()).report, FIRST_REPORT);
}

async function faults(tab, tools, expect) {
    const visible = () => tools.run(() => {
        const callout = document.getElementById("callout"), mark = document.querySelector("#marks .bad");
        return callout.hidden || !mark ? null
            : { below: callout.getBoundingClientRect().top - mark.getBoundingClientRect().top,
                text: callout.textContent };
    });
    for (const [script, line, cause, cure] of [
        ["listen B\nconect A\nemit A\n", 2, "no line begins with “conect”", "Lines of a script"],
        ["listen B\n\nemit A 1\n", 3, "“1” is a word too many", "emit SIDE"],
        ["listen B\nsend A 616\n", 2, "“616” has an odd number of digits", "send SIDE HEX"],
        ["listen B\nsend A 6x\n", 2, "“6x” has x, which isn't a hexadecimal digit", "send SIDE HEX"],
        ["listen C\n", 1, "“C” isn't A or B", "listen SIDE"],
        ["receive A\n", 1, "a word is missing behind “receive A”: N", "receive SIDE N"],
        ["receive A 1048577\n", 1, "“1048577” isn't from 0 to 1048576", "receive SIDE N"],
        ["deliver A 01\n", 1, "“01” isn't a decimal number", "deliver SIDE K"],
        ["timer A retransmitted\n", 1, "“retransmitted” isn't retransmit, reorder or timewait", "timer SIDE retransmit"],
        ["config A mtu 9\n", 1, "“mtu” isn't isn, mss", "config SIDE isn N"],
        ["tcpkit 2\nrepeat 0 emit A\n", 2, "“0” isn't from 1 to 1048576", "repeat N EVENT"],
        ["tcpkit 2\nrepeat 2 repeat 2 emit A\n", 2, "“repeat” is no event", "repeat N EVENT"],
        ["listen  B\n", 1, "doubled space", "one space"],
        ["listen B\nconfig A mss 64\n", 2, "after the first event", "before the first event"],
        ["listen B\n# \u00e4\n", 2, "above 7f", "ASCII"],
        ["repeat 2 emit A\n", 1, "version 2", "tcpkit 2"],
        ["tcpkit 2\nconfig A runs 2\n", 2, "version 3", "tcpkit 3"],
        ["tcpkit 3\nconfig A runs 4097\n", 2, "“4097” isn't from 1 to 4096", "config SIDE runs N"],
        ["config A mss 100\nconfig A mss 63\nlisten B\n", 2, "the mss isn't from 64 to 1460", "mss of side A"],
        ["config B send 9\nconfig B recv 0\n", 2, "a capacity isn't from 1 to 1048576", "side B"],
        ["config B shift 15\n", 1, "the shift isn't from 0 to 14", "side B"],
        ["tcpkit 2\nconfig B limit 4611686018427387905\n", 2, "the limit isn't from 1", "side B"],
    ]) {
        await tools.edit(script);
        await tab.until(() => !document.getElementById("callout").hidden);
        const found = await visible();
        expect(`a fault's line in ${JSON.stringify(script)}`, found?.text.startsWith(`Line ${line}: `), true);
        expect(`cause and cure in ${JSON.stringify(script)}`,
            [found?.text.includes(cause), found?.text.includes(cure)], [true, true]);
        expect(`its place in ${JSON.stringify(script)}`, Math.round(1000 * found?.below) / 1000, 20);
        expect("nothing to save then", await tools.run(() => document.getElementById("save").disabled), true);
    }
    await tools.edit(FIRST);
    expect("no fault any more", [await visible(), (await tools.shown()).is_fault], [null, false]);
}

// What is said of a fault doesn't cover its line, also where there is little room.
async function covered(tab, tools, expect) {
    await tab.size(360, 1200);
    for (const line of [0, 3, 7, 11, 19]) {
        await tools.edit(FIRST.split("\n").map((one, number) => number === line ? `${one} 0 0 0` : one).join("\n"));
        await tab.until(() => !document.getElementById("callout").hidden);
        await tools.run(top => { document.getElementById("script").scrollTop = top; }, line > 10 ? 200 : 0);
        await tab.until(() => document.querySelector("#marks .bad") !== null);
        expect(`a fault at line ${line} isn't covered`, await tools.run(() => {
            const callout = document.getElementById("callout").getBoundingClientRect();
            const mark = document.querySelector("#marks .bad").getBoundingClientRect();
            const box = document.getElementById("script").getBoundingClientRect();
            return [callout.bottom <= mark.top || callout.top >= mark.bottom - 1, callout.top >= box.top,
                callout.bottom <= box.bottom];
        }), [true, true, true]);
    }
    await tab.size(1600, 6000);
}

async function links(tab, tools, expect, address) {
    const script = "# a < b & \"c\" +/=\nlisten B\nconnect A\nemit A\n" + "send A 2a2a\n".repeat(50);
    await tools.edit(script);
    await tools.go(7);
    await tools.run(() => document.getElementById("link").click());
    await tab.until(() => document.getElementById("said").textContent.startsWith("The link"));
    const link = await tools.run(() => location.href);
    expect("the link names the page", link.startsWith(`${address}#script=`), true);
    expect("the link is short", link.length < address.length + 200, true);
    await tab.leave();
    await tab.open(link);
    expect("the link's script", await tools.run(() => document.getElementById("script").value), script);
    expect("the link's event", (await tools.shown()).place, "7 of 53");
    // A link whose script has a fault: there is no run yet, and nothing to step through.
    await tools.edit("listen\n");
    await tools.run(() => document.getElementById("link").click());
    await tab.until(before => location.href !== before, link);
    const faulty = await tools.run(() => location.href);
    await tab.leave();
    await tab.open(faulty);
    await tab.until(() => !document.getElementById("callout").hidden);
    await tab.key("ArrowRight");
    expect("a link to a fault", await tools.run(() => [
        document.getElementById("callout").textContent.startsWith("Line 1: "), document.getElementById("next").disabled,
        document.getElementById("picture").childElementCount,
    ]), [true, true, 0]);
    await tools.edit(script);
    expect("mended", (await tools.shown()).place, "7 of 53");
    await tools.run(() => { location.hash = "#script=%%%"; });
    await tab.until(() => document.getElementById("said").textContent.includes("no script"));
    expect("a link without a script leaves the script", await tools.run(() => document.getElementById("script").value),
        script);
}

// A ladder whose rows are all full: emissions that are lost, one behind the other, from both sides.
const DENSE = "listen B\nconnect A\nemit A\ndeliver A 0\nemit B\ndeliver B 0\nemit A\ndeliver A 1\n" +
    "send A 616263\nemit A\nsend A 616263\nemit A\nsend A 61\nsend B 62\nemit A\nemit B\nemit B\n" +
    "timer A retransmit\nemit A\nemit A\ntimer B retransmit\nemit B\ndeliver A 2\ndeliver A 3\nemit B\n";

// Pairs of words in the ladder that lie over one another, by what letters take of a line: so much of their size above the line on
// which they are, and so much below.
const colliding = () => {
    const parts = [...document.querySelectorAll("#picture text")].map(part => {
        const { left, right } = part.getBoundingClientRect(), y = Number(part.getAttribute("y"));
        const size = parseFloat(getComputedStyle(part).fontSize);
        return { words: part.textContent, left, right, top: y - 0.76 * size, bottom: y + 0.22 * size };
    });
    return parts.flatMap((one, at) => parts.slice(at + 1).filter(two =>
        Math.min(one.right, two.right) - Math.max(one.left, two.left) > 1 && Math.min(one.bottom, two.bottom) > Math.max(one.top, two.top))
        .map(two => `${one.words} over ${two.words}`));
};

// Nothing sticks out of a window, and no words of the ladder; none lie over others.
async function widths(tab, tools, expect, height) {
    for (const width of [360, 500, 900, 1600]) {
        await tab.size(width, height);
        const count = await tools.run(() => document.getElementById("example").options.length);
        for (let example = 0; example < count - 1; example += 1) {
            await tools.run(choose_example, example);
            const out = await tools.run(() => {
                const most = document.documentElement.clientWidth;
                const box = document.getElementById("picture").getBoundingClientRect();
                const texts = [...document.querySelectorAll("#picture text")].map(text => text.getBoundingClientRect());
                const boxes = [...document.querySelectorAll("section, button, select, #ladder, .editor, article")];
                return {
                    page: document.documentElement.scrollWidth - most,
                    boxes: boxes.filter(part => part.getBoundingClientRect().right > Math.min(
                        most, (part.parentElement.closest("section, main") ?? document.body).getBoundingClientRect().right) + 0.5).length,
                    words: texts.filter(text => text.left < box.left - 0.5 || text.right > box.right + 0.5).length,
                    shown: texts.length > 10,
                };
            });
            expect(`example ${example} at ${width}`, out, { page: 0, boxes: 0, words: 0, shown: true });
            expect(`words of example ${example} at ${width}`, await tools.run(colliding), []);
        }
        for (const [name, text] of [["full rows", DENSE], ...SEEDS.map(seed => [`seed ${seed}`, seed])]) {
            await tools.edit(typeof text === "string" ? text : await tools.run(seed => globalThis.lossy_text(seed), text));
            expect(`words of ${name} at ${width}`, await tools.run(colliding), []);
        }
    }
    await tab.size(1600, height);
}

function choose_example(number) {
    const field = document.getElementById("example");
    field.value = String(number);
    field.dispatchEvent(new Event("change"));
}

// The examples have what their titles say, by their reports.
async function examples(tools, expect) {
    await tools.run(() => { document.getElementById("report").open = true; });
    for (const [number, title, has, crosses] of [
        [0, "Handshake and close", [/end A CLOSED orderly/, /end B CLOSED orderly/], 0],
        [1, "A loss mended by blocks", [/ sack \d+-\d+$/m, /end B ESTABLISHED not-ended accepted 0 delivered 19/], 1],
        [2, "A shut window and its probe", [/ window 0 /, / text 1 /, /end B .* delivered 8 /], 1],
        [3, "A reset", [/flags RST/, /end A CLOSED reset/], 1],
        [4, "Both closing at once", [/CLOSING/, /end A CLOSED orderly/, /end B CLOSED orderly/], 0],
        [5, "Numbers that wrap", [/ seq 429496729\d /, / seq 4 /, /end B .* delivered 9 /], 0],
    ]) {
        await tools.run(choose_example, number);
        const { report, is_fault } = await tools.shown(), drawn = await tools.drawn(), asked = wanted(report);
        expect(`${title}: its title`,
            await tools.run(() => document.getElementById("example").selectedOptions[0].text), title);
        expect(`${title}: its report`, [is_fault, ...has.map(form => form.test(report))],
            [false, ...has.map(() => true)]);
        expect(`${title}: its picture`, [drawn.arrows, drawn.crosses, drawn.blocks],
            [asked.arrows, crosses, asked.blocks]);
        expect(`${title}: its crosses`, asked.crosses, crosses);
    }
}

// How far two colours are apart (WCAG 2.1, 1.4.3): 4.5 is asked for.
async function themes(tab, tools, expect) {
    await tools.edit(FIRST);
    await tools.go(10);
    for (const theme of ["light", "dark"]) {
        await tab.prefer("prefers-color-scheme", theme);
        const apart = await tools.run(() => {
            const luminance = colour => {
                const parts = colour.match(/[\d.]+/g).slice(0, 3).map(part => part / 255).map(
                    part => part <= 0.03928 ? part / 12.92 : ((part + 0.055) / 1.055) ** 2.4);
                return 0.2126 * parts[0] + 0.7152 * parts[1] + 0.0722 * parts[2];
            };
            const ground = getComputedStyle(document.documentElement).backgroundColor;
            const from = colour => {
                const [low, high] = [luminance(colour), luminance(ground)].sort((one, two) => one - two);
                return (high + 0.05) / (low + 0.05);
            };
            const style = (part, name) => getComputedStyle(document.querySelector(part))[name];
            const colours = [style("body", "color"), style("footer p", "color"), style("#picture text", "fill"),
                style("#heads .phase", "fill"), style(".shaft", "stroke"), style("#gutter span", "color"), style(".zone", "color"),
                style(".timer", "color")];
            const lines = [style(".life", "stroke"), style("#ladder", "borderTopColor"), style("button", "borderTopColor"),
                style(".zone", "borderBottomColor"), style(".timer", "borderTopColor")];
            return { is_dark: luminance(ground) < 0.1, least: Math.min(...colours.map(from)),
                lines: Math.min(...lines.map(from)) };
        });
        expect(`${theme}: ground`, apart.is_dark, theme === "dark");
        expect(`${theme}: colours`, apart.least >= 4.5, true);
        expect(`${theme}: lines`, apart.lines >= 3, true);
    }
    await tab.prefer("prefers-color-scheme", "light");
    await forced(tab, tools, expect);
}

// With colours that the user's system forces the bars keep their patterns.
async function forced(tab, tools, expect) {
    await tab.prefer("forced-colors", "active");
    const found = await tools.run(() => ["flight", "waiting", "marked"].map(kind => {
        const { backgroundColor, backgroundImage } = getComputedStyle(document.querySelector(`.patterns .${kind}`));
        return backgroundImage !== "none" || backgroundColor !== getComputedStyle(document.body).backgroundColor;
    }));
    expect("forced colours keep the patterns", found, [true, true, true]);
    await tab.prefer("forced-colors");
}

// In one column the ladder comes first, for the eye and for the Tab key; and once the window is turned, or grows to several columns,
// the current row is in sight.
async function phone(tab, tools, expect) {
    await tools.edit(FIRST + "receive B 1\n".repeat(60));
    await tab.size(360, 740);
    await tools.go(70);
    const order = () => tools.run(() => {
        const [ladder, script] = ["ladder-part", "script-part"].map(id => document.getElementById(id));
        return [ladder.getBoundingClientRect().top < script.getBoundingClientRect().top,
            (ladder.compareDocumentPosition(script) & Node.DOCUMENT_POSITION_FOLLOWING) !== 0];
    });
    const is_in_sight = () => tools.run(() => {
        const band = document.querySelector("#picture .band").getBoundingClientRect();
        const box = document.getElementById("ladder").getBoundingClientRect();
        return band.top >= box.top && band.bottom <= box.bottom + 1;
    });
    expect("the ladder is first", await order(), [true, true]);
    for (const [width, height, is_first] of [[740, 360, true], [1024, 768, false], [360, 740, true]]) {
        await tab.size(width, height);
        await tab.until(most => Math.abs(document.getElementById("picture").getAttribute("width") - document.getElementById("ladder").clientWidth) < 2
            && innerWidth === most, width);
        expect(`the row is in sight at ${width}`, await is_in_sight(), true);
        expect(`the ladder's place at ${width}`, (await order())[1], is_first);
    }
    await tab.size(1600, 6000);
}

// Each control has a name, and is reached by Tab, with a frame around it.
async function access(tab, tools, expect) {
    expect("controls without a name", await tools.run(() => {
        const name = part => part.getAttribute("aria-label")
            ?? (part.tagName === "BUTTON" ? part : part.labels[0])?.textContent.trim();
        const parts = [...document.querySelectorAll("button, select, input, textarea")];
        return parts.filter(part => !name(part)).map(part => part.id);
    }), []);
    expect("live regions", await tools.run(() => [...document.querySelectorAll("[aria-live], [role=status]")].map(
        part => part.id)), ["live"]);
    await tools.run(() => document.activeElement.blur());
    await tools.go(3);
    expect("what is said", await tools.run(() => document.getElementById("live").textContent.startsWith("A emits")), true);
    await tools.run(() => { document.activeElement.blur(); window.scrollTo(0, 0); });
    const reached = new Set();
    for (let turn = 0; turn < 60; turn += 1) {
        await tab.key("Tab");
        const found = await tools.run(() => {
            const part = document.activeElement, style = getComputedStyle(part);
            return [part.id || part.tagName, style.outlineStyle !== "none" && parseFloat(style.outlineWidth) >= 2];
        });
        if (found[0] !== "BODY" && !reached.has(found[0])) {
            reached.add(found[0]);
            expect(`focus on ${found[0]}`, found[1], true);
        }
    }
    const asked = ["open-capture", "example", "script", "open", "save-script", "link", "save", "save-capture", "capture-at", "back", "step", "next", "play", "ladder",
        "text", "finish", "lossy"];
    expect("reached by Tab", asked.filter(name => !reached.has(name)), []);
    const foot = await tools.run(() => document.querySelector("footer").textContent);
    expect("the foot", ["JavaScript", "engine", "compiler"].map(word => foot.includes(word)), [true, true, true]);
}

export async function handling(tab, tools, expect, address) {
    const height = 6000;
    await keys(tab, tools, expect);
    await clicks(tab, tools, expect);
    await editing(tab, tools, expect);
    await faults(tab, tools, expect);
    await covered(tab, tools, expect);
    await examples(tools, expect);
    await widths(tab, tools, expect, height);
    // Firefox's protocol sets no preferences, and its Tab key leaves the page where there is no window.
    if (tab.prefer) {
        await themes(tab, tools, expect);
        await access(tab, tools, expect);
    }
    await phone(tab, tools, expect);
    await links(tab, tools, expect, address);
    if (!tab.requests) {
        return;
    }
    const others = tab.requests.filter(name => !name.startsWith("blob:") && name.split("#")[0] !== address);
    expect("nothing else is loaded", [others, tab.requests.includes(address)], [[], true]);
    const fetched = await tools.run(() => fetch("data:text/plain,a").then(() => "loaded", () => "refused"));
    expect("nothing can be", fetched, "refused");
}
