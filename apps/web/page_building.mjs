// Tests what builds a script by buttons, what brings a text back, and files.
import { spawnSync } from "node:child_process";
import fs from "node:fs";
import path from "node:path";
import { at } from "./cases.mjs";

const FIRST = fs.readFileSync(at("crates/tcpkit/data/first-run.script"), "utf8");
const OWN = "# my own\nlisten B\n";
const SEEDS = [1, 2, 3, 4, 5, 77, 1234, 99999];

const press = label => {
    const found = [...document.querySelectorAll("button")].filter(
        part => (part.getAttribute("aria-label") ?? part.textContent) === label);
    if (found.length !== 1 || found[0].disabled) {
        throw new Error(`${found.length} buttons ${label}`);
    }
    found[0].click();
};

const script = tools => tools.run(() => document.getElementById("script").value);

// The counts of the report's last lines.
function ends_of(report) {
    return Object.fromEntries(report.trim().split("\n").slice(-2).map(line => {
        const [, side, phase, , ...words] = line.split(" ");
        return [side, { phase, ...Object.fromEntries(words.flatMap(
            (word, number) => number % 2 === 0 ? [[word, words[number + 1]]] : [])) }];
    }));
}

// Each button adds its line, in order, and each line can be undone.
async function buttons(tools, expect) {
    await tools.edit("# by hand\n");
    const asked = [["listen at B", "listen B"], ["connect at A", "connect A"], ["emit at A", "emit A"],
        ["deliver A's segment 0", "deliver A 0"], ["emit at B", "emit B"], ["lose B's segment 0", "# lost: B 0"],
        ["retransmit timer at B", "timer B retransmit"], ["emit at B", "emit B"],
        ["damage B's segment 1", "damage B 1 7 1"], ["send A the text beside", "send A 68656c6c6f"],
        ["receive at A", "receive A 1048576"], ["reorder timer at A", "timer A reorder"],
        ["time-wait timer at A", "timer A timewait"], ["close at A", "close A"], ["abort at A", "abort A"]];
    const lines = ["# by hand"];
    for (const [label, line] of asked) {
        await tools.run(press, label);
        lines.push(line);
        expect(`the button ${label}`, await script(tools), `${lines.join("\n")}\n`);
    }
    const events = lines.filter(line => !line.startsWith("#")).length;
    expect("the last event is shown", (await tools.shown()).place, `${events} of ${events}`);
    expect("a segment that is said to be lost isn't on the way", await tools.run(
        () => document.getElementById("wire").textContent.includes("B 0")), false);
    while (lines.length > 1) {
        await tools.run(press, "Undo");
        lines.pop();
        expect(`undone to ${lines.length} lines`, await script(tools), `${lines.join("\n")}\n`);
    }
    await tools.run(press, "Redo");
    expect("done again", await script(tools), "# by hand\nlisten B\n");
}

// A segment that is shown can arrive again, be damaged, and be lost before it arrived.
async function segment_buttons(tools, expect) {
    const base = "listen B\nconnect A\nemit A\n", states = () => tools.run(() => ["arrive", "damage", "lose"].map(
        id => document.getElementById(id)).map(part => [part.textContent, part.disabled]));
    await tools.edit(base);
    await tools.go(0);
    expect("no segment", await states(), [["Deliver", true], ["Damage", true], ["Lose", true]]);
    await tools.go(3);
    expect("on the way", await states(), [["Deliver", false], ["Damage", false], ["Lose", false]]);
    await tools.run(press, "Deliver");
    expect("delivered", await script(tools), `${base}deliver A 0\n`);
    expect("arrived", await states(), [["Deliver again", false], ["Damage", false], ["Lose", true]]);
    await tools.run(press, "Deliver again");
    expect("delivered again", await script(tools), `${base}deliver A 0\ndeliver A 0\n`);
}

// Run to the end, everything that was accepted is delivered and acknowledged, also of lossy scripts.
async function to_the_end(tools, expect) {
    await tools.run(() => { document.getElementById("report").open = true; });
    const scripts = [["first run", FIRST], ["nothing sent yet", "listen B\nconnect A\nsend A 6162\nsend B 63\n"],
        ["closed", `${FIRST}close A\nclose B\n`]];
    for (const [name, text] of scripts) {
        await tools.edit(text);
        await tools.run(press, "Run to the end");
        const { report, is_fault } = await tools.shown(), { A, B } = ends_of(report);
        expect(`${name}: what was there stays`, (await script(tools)).startsWith(text), true);
        expect(`${name}: delivered`, [is_fault, B.delivered, A.delivered], [false, A.accepted, B.accepted]);
        expect(`${name}: acknowledged`, [A.released, B.released], [A.accepted, B.accepted]);
        if (name === "closed") {
            expect("closed: both", [A.phase, B.phase], ["CLOSED", "CLOSED"]);
        }
    }
    let lost = 0;
    for (const seed of SEEDS) {
        const text = await tools.run(number => globalThis.lossy_text(number), seed);
        expect(`seed ${seed}: the same again`, await tools.run(number => globalThis.lossy_text(number), seed), text);
        await tools.edit(text);
        const { report, is_fault } = await tools.shown(), { A, B } = ends_of(report);
        expect(`seed ${seed}: delivered`, [is_fault, B.delivered, A.delivered, A.phase, B.phase],
            [false, A.accepted, B.accepted, "CLOSED", "CLOSED"]);
        expect(`seed ${seed}: something is sent`, Number(A.accepted) > 0, true);
        lost += /^# lost/m.test(text) ? 1 : 0;
    }
    expect("most lose something", lost > SEEDS.length / 2, true);
    await tools.run(press, "A random lossy script");
    expect("the button's script", /^# A lossy way, with the seed \d+\n/.test(await script(tools)), true);
}

// Nobody's work is lost: an example is an edit, and the page asks before it goes.
async function kept(tab, tools, expect) {
    const asks = () => tools.run(() => {
        const event = new Event("beforeunload", { cancelable: true });
        dispatchEvent(event);
        return event.defaultPrevented;
    });
    const choose = number => tools.run(which => {
        const field = document.getElementById("example");
        field.value = String(which);
        field.dispatchEvent(new Event("change"));
    }, number);
    await choose(0);
    expect("an example is nobody's work", await asks(), false);
    await tools.edit(OWN);
    expect("one's own is asked for", await asks(), true);
    await choose(1);
    expect("what is said of an example", (await tools.shown()).said, "Undo brings your script back.");
    await tools.run(press, "Undo");
    expect("an example can be undone", await script(tools), OWN);
    await tools.run(() => document.getElementById("script").focus());
    await tab.key("z", true);
    expect("Ctrl+Z undoes", await script(tools) === OWN, false);
    await tools.edit(OWN);
    const saved = await tools.saved_script();
    expect("the saved script", saved, OWN);
    expect("what is saved isn't asked for", await asks(), false);
}

async function opened(tab, tools, expect) {
    const file = path.join(tab.folder, "one.script");
    fs.writeFileSync(file, FIRST);
    await tab.choose_file("#file", file);
    await tab.until(() => document.getElementById("said").textContent === "one.script is open.");
    expect("the file's script", await script(tools), FIRST);
}

// A list of segments is written out as the program lists it; so is a capture of the same segments.
async function listed(tab, tools, expect) {
    const list = fs.readFileSync(at("crates/tcpkit/data/segments.list"), "utf8");
    const wanted = / {4}(2 1 > 2 [^]*? {4}total 3 malformed 1\n)/.exec(fs.readFileSync(at("docs/FORMATS.md"), "utf8"))[1]
        .replaceAll(/^ {4}/gm, "");
    const type = text => tools.run(value => {
        document.getElementById("listing-part").open = true;
        document.getElementById("segments").value = value;
        document.getElementById("segments").dispatchEvent(new Event("input"));
        return [document.getElementById("segments-listing").textContent, document.getElementById("segments-told").textContent];
    }, text);
    expect("a list", await type(list), [wanted, ""]);
    expect("a bad line", (await type("10.0.0.1 10.0.0.2 616\n"))[1].startsWith("Line 1 isn't of this form"), true);
    const segments = list.split("\n").filter(line => /^\d/.test(line)).map(line => line.split(" ")[2]);
    // The same segments as digits alone: each as it is, as an IPv4 packet, and as a frame.
    const digits = segments.flatMap(hex => [hex, ip_packet(6, hex), [...number_of(0, 12), 8, 0, ...ip_packet(6, hex)]]).map(
        one => typeof one === "string" ? one : Buffer.from(one).toString("hex"));
    const lines = wanted.split("\n").slice(0, -2).map(line => line.slice(line.indexOf(" ")));
    expect("digits alone", (await type(digits.join("\n")))[0], `${lines.flatMap(line => [line, line, line]).map(
        (line, place) => `${place + 1}${line}\n`).join("")}total 9 malformed 3\n`);
    for (const link of [1, 101]) {
        const file = path.join(tab.folder, `link-${link}.pcap`);
        fs.writeFileSync(file, capture(link, segments));
        await tab.choose_file("#capture", file);
        await tab.until(name => document.getElementById("said").textContent.startsWith(`${name} is open.`) &&
            document.getElementById("reading").hidden, `link-${link}.pcap`);
        const [shown, told] = await tools.run(() => ["segments-listing", "segments-told"].map(
            id => document.getElementById(id).textContent));
        // The capture has no line for the comment.
        expect(`a capture of link ${link}`, shown, wanted.replace(/^(\d+) /gm, (line, number) => `${number - 1} `)
            .replace(/^total.*$/m, "total 3 malformed 1"));
        expect(`what is left out of link ${link}`, told, `link-${link}.pcap: 3 segments, 1 packets without a whole IPv4 ` +
            "TCP segment left out.");
    }
}

function number_of(value, size) {
    return Array.from({ length: size }, (_, at) => (value >>> (8 * at)) & 255);
}

// An IPv4 packet with these digits behind its header.
function ip_packet(protocol, hex) {
    const text = Buffer.from(hex, "hex"), total = 20 + text.length;
    return [0x45, 0, total >> 8, total & 255, 0, 0, 0, 0, 64, protocol, 0, 0, 10, 0, 0, 1, 10, 0, 0, 2, ...text];
}

// A pcap file with these segments from 10.0.0.1 to 10.0.0.2, and a packet of UDP.
function capture(link, segments) {
    const bytes = [...number_of(0xa1b2c3d4, 4), 2, 0, 4, 0, ...number_of(0, 8), ...number_of(65535, 4), ...number_of(link, 4)];
    for (const [protocol, hex] of [...segments.map(one => [6, one]), [17, "0001000200080000"]]) {
        const packet = [...(link === 1 ? [...number_of(0, 12), 8, 0] : []), ...ip_packet(protocol, hex)];
        bytes.push(...number_of(0, 8), ...number_of(packet.length, 4), ...number_of(packet.length, 4), ...packet);
    }
    return Buffer.from(bytes);
}

function command(...words) {
    const { status, stdout, stderr } = spawnSync("/usr/bin/python3", [at("apps/capture/capture.py"), ...words], { encoding: "utf8" });
    if (status !== 0) {
        throw new Error(`capture.py ${words.join(" ")}: ${stderr}`);
    }
    return stdout;
}

// What capture.py lists of a capture, by the report of its script: what a side has emitted and what has arrived there, changed where
// the report says so.
function seen_at(side, report, emitted) {
    const lines = [];
    for (const line of report.split("\n").slice(0, -3)) {
        const words = line.replace(/ repeat \d+/, "").split(" "), [, kind, from, number] = words, turns = Number(/ repeat (\d+) /.exec(line)?.[1] ?? 1);
        if (kind === "emit" && from === side && number !== "none") {
            const first = turns > 1 ? emitted[from].used : Number(number), done = / done (\d+)/.exec(line)?.[1] ?? 1;
            lines.push(...emitted[from].lines.slice(first, first + Number(done)));
        } else if ((kind === "deliver" || kind === "damage") && from !== side && !/ refused [1-9]/.test(line)) {
            for (let turn = 0; turn < turns; turn += 1) {
                const [source, target, hex] = emitted[from].lines[Number(number) + turn].split(" "), bytes = Buffer.from(hex, "hex");
                if (kind === "damage") {
                    bytes[Number(words[4])] ^= Number(words[5]);
                }
                lines.push(`${source} ${target} ${bytes.toString("hex")}`);
            }
        }
        if (kind === "emit") {
            emitted[from].used += number === "none" ? 0 : turns;
        }
    }
    return lines;
}

// A capture of both ends is byte for byte what capture.py makes of the script with the second program; at one end it has what goes
// out there and what arrives, damaged where it is.
async function captured(tab, tools, expect) {
    const folder = at("crates/test_scripts/data/cases");
    // Segments of 64 bytes, more than are emitted.
    const repeats = "tcpkit 2\nconfig A mss 64\nlisten B\nconnect A\nemit A\ndeliver A 0\nemit B\ndeliver B 0\n" +
        `repeat 5 send A ${"61".repeat(64)}\nrepeat 4 emit A\nrepeat 2 deliver A 1\ndamage A 3 25 255\nrepeat 2 damage A 3 24 1\n`;
    const texts = [FIRST, fs.readFileSync(at("apps/web/examples/2-loss-and-blocks.script"), "utf8"), repeats, "listen B\n",
        ...["gap-held", "first-run-wrapped", "old-copies-damaged", "no-listener", "no-such-segment"].map(
            name => fs.readFileSync(path.join(folder, `${name}.script`), "utf8"))];
    await tools.run(() => { document.getElementById("report").open = true; });
    for (const text of texts) {
        await tools.edit(text);
        const name = JSON.stringify(text.slice(0, 24)), { report } = await tools.shown(), file = path.join(tab.folder, "wanted");
        fs.writeFileSync(`${file}.script`, text);
        command("replay", `${file}.script`, `${file}.pcap`);
        const saved = await tools.saved_capture("both");
        expect(`${name}: the capture of both ends`, saved.equals(fs.readFileSync(`${file}.pcap`)), true);
        const all = command("listing", `${file}.pcap`).split("\n").slice(0, -1);
        expect(`${name}: what is said`, (await tools.shown()).said.includes(`It has ${all.length} packet`), true);
        for (const side of ["A", "B"]) {
            const source = side === "A" ? "10.0.0.1 " : "10.0.0.2 ", emitted = Object.fromEntries([["A", "10.0.0.1 "], ["B", "10.0.0.2 "]].map(
                ([one, address]) => [one, { used: 0, lines: all.filter(line => line.startsWith(address)) }]));
            fs.writeFileSync(`${file}.pcap`, await tools.saved_capture(side));
            const found = command("listing", `${file}.pcap`).split("\n").slice(0, -1);
            expect(`${name}: the capture at ${side}`, found, seen_at(side, report, emitted));
            expect(`${name}: what ${side} sends is in it`, found.filter(line => line.startsWith(source)), emitted[side].lines);
        }
    }
}

// The script's line is reached by keys; a play steps to the end.
async function moved(tab, tools, expect) {
    await tools.edit(FIRST);
    await tools.go(0);
    await tools.run(() => {
        const field = document.getElementById("script"), place = field.value.indexOf("send A 616263");
        field.focus();
        field.setSelectionRange(place, place);
    });
    await tab.key("Enter", true);
    expect("Ctrl+Enter", (await tools.shown()).place, "9 of 20");
    await tools.go(18);
    await tools.run(press, "Play");
    await tab.until(() => document.getElementById("place").textContent === "20 of 20");
    await tab.until(() => document.getElementById("play").textContent.includes("Play"));
}

export async function building(tab, tools, expect) {
    await buttons(tools, expect);
    await segment_buttons(tools, expect);
    await to_the_end(tools, expect);
    await kept(tab, tools, expect);
    await opened(tab, tools, expect);
    await listed(tab, tools, expect);
    await captured(tab, tools, expect);
    await moved(tab, tools, expect);
}
