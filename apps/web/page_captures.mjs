// Tests captures in the page: the verdict on them, which is what tcpjudge writes, and where it is seen; their ladders, and how lines of the
// verdict lead there; files in other forms, cut ones and large ones, and what is cancelled.
import { spawnSync } from "node:child_process";
import fs from "node:fs";
import path from "node:path";
import { at } from "./cases.mjs";
import { bytes_of, capture_of } from "./captures.mjs";

const rested = () => document.getElementById("judged").getAttribute("aria-busy") !== "true" && document.getElementById("reading").hidden;
const REPORT = /```text\n(packets 23, connections 1\n.*?)```/s.exec(fs.readFileSync(at("docs/JUDGE.md"), "utf8"))[1];
const capture_at = (folder, name) => fs.readFileSync(at(folder, name)), stored = name => capture_at("checks/judge/data", `${name}.pcap`);

// A log as a capture: its segments, each in the second of its line.
function capture_of_log(log) {
    return capture_of(log.split("\n").flatMap((line, seconds) => {
        const [, source, target, hex] = line.split(" ");
        return /^(?:came|went) /.test(line) ? [{ seconds, turn: 0, source, target, bytes: bytes_of(hex) }] : [];
    }));
}

const verdict_shown = () => document.getElementById("capture-report").textContent;

// Chooses in one of the capture's lists, and waits for what comes of it.
async function choose(tab, id, value) {
    await tab.run((name, chosen) => {
        const choice = document.getElementById(name);
        choice.value = chosen;
        choice.dispatchEvent(new Event("change"));
    }, id, value);
    await tab.until(rested);
}

// What is shown of a capture that is judged.
const judged_shown = () => {
    const text = id => document.getElementById(id).textContent, all = kind => [...document.querySelectorAll(kind)];
    const accused = all("#captured-picture .accused");
    // From the last line of a segment's words to the first of the next one's.
    const heights = all("#captured-picture .arrow").map(part => [...part.querySelectorAll("text")].map(line => Number(line.getAttribute("y"))));
    const gaps = heights.slice(1).map((lines, place) => Math.min(...lines) - Math.max(...heights[place]));
    return {
        is_shown: !document.getElementById("judged").hidden, heads: all("#captured-heads b").map(part => part.textContent),
        segments: document.getElementById("captured").hidden ? 0 : all("#captured-picture .arrow").length,
        connections: document.getElementById("connection").options.length,
        times: all("#captured-picture .arrow .time").map(part => part.textContent), findings: all("#capture-report .found").map(part => part.textContent),
        accused: accused.map(part => [part.dataset.side, part.dataset.number, [...part.querySelectorAll(".finding")].map(
            line => line.textContent).join(" ")].join(" ")),
        is_crowded: gaps.some(gap => gap < 20), colour: accused.length > 0 && getComputedStyle(accused[0].querySelector(".finding")).fill,
        verdict: text("verdict-told"),
    };
};

// A capture of a connection with planted faults shows each at its arrow, in the words of the program; one of a stack that breaks no
// rule shows none. Behind the reset, at line 28, another connection begins.
async function judged(tab, expect, open) {
    const log = fs.readFileSync(at("crates/tcpjudge/data/faults.log"), "utf8"), run = fs.readFileSync(at("crates/tcpjudge/stdout"), "utf8");
    const places = log.split("\n").flatMap((line, place) => /^(?:came|went) /.test(line) ? [place + 1] : []);
    const found = [...run.matchAll(/^line (\d+): (.*)$/gm)].filter(([, line]) => Number(line) <= 28).map(([, line, rule]) => ({
        packet: places.indexOf(Number(line)) + 1, seconds: line - places[0],
        // What wants all rules: a wrong checksum is a note without them.
        wants_all: ["20", "26"].includes(line),
        // Of the text at 7001, behind the SYN at 7000.
        rule: line === "10" ? `${rule} [relative number 1]` : rule,
    }));
    const lines_of = findings => findings.map(({ packet, seconds, rule }) => `packet ${packet}, ${seconds}.000000 s: ${rule}`);
    const arrows_of = findings => findings.map(({ packet, rule }) => `B ${packet} ${rule}`);
    const form = found.filter(one => !one.wants_all), accent = await tab.run(() => getComputedStyle(document.querySelector("#heads .phase")).fill);
    expect("planted faults", await open("faults.pcap", capture_of_log(log)), {
        is_shown: true, heads: ["A 10.0.0.1:1", "B 10.0.0.2:2"], segments: 20, connections: 2,
        times: places.slice(0, 20).map(place => `${place - places[0]}.000000 s`), findings: lines_of(form), accused: arrows_of(form), is_crowded: false,
        colour: accent, verdict: "faults.pcap is open. Rules of TCP are broken at 1 of the 3 ends of its 2 connections, in 4 packets, the first of them 8.",
    });
    await choose(tab, "taken-at", "10.0.0.1");
    expect("taken at A", (await tab.run(judged_shown)).findings, lines_of(form));
    await choose(tab, "taken-at", "10.0.0.2");
    const whole = await tab.run(judged_shown);
    expect("taken at B", [whole.findings, whole.accused], [lines_of(found), arrows_of(found)]);
    await choose(tab, "connection", "1");
    const behind = await tab.run(judged_shown);
    expect("behind the reset", [behind.heads, behind.segments, behind.accused], [["A 10.0.0.2:2", "B 10.0.0.1:1"], 6, []]);
    const clean = await open("plain.pcap", stored("plain-B"));
    expect("a clean capture", [clean.is_shown, clean.segments, clean.findings, clean.accused], [true, 24, [], []]);
    // The packets of another file after those of one, behind its header of 24 bytes.
    const two = await open("two.pcap", Buffer.concat([stored("plain-B"), stored("kernel-A").subarray(24)]));
    expect("two connections", [two.connections, two.segments], [2, 24]);
    await choose(tab, "connection", "1");
    const second = await tab.run(judged_shown);
    expect("the second connection", [second.segments, second.heads], [23, ["A 10.7.0.1:55928", "B 10.7.0.2:7"]]);
    await tab.run(() => document.getElementById("segments").dispatchEvent(new Event("input")));
    expect("a list that is typed isn't judged", (await tab.run(judged_shown)).is_shown, false);
}

// What tcpjudge writes of a capture that was taken at A stands in docs/JUDGE.md, and the page shows it to the letter; so it does the reports
// that are worked out by hand, over IPv6 and of both versions, of which the ladder draws IPv4 alone.
async function reported(tab, expect, open) {
    await open("kernel.pcap", stored("kernel-A"));
    expect("a capture's report, taken nowhere", (await tab.run(verdict_shown)).includes("--at ADDRESS names the end"), true);
    await choose(tab, "taken-at", "10.7.0.1");
    expect("a capture's report", await tab.run(verdict_shown), REPORT);
    const folder = path.join(tab.folder, "cases");
    const { status, stderr } = spawnSync("python3", [at("checks/judge/captures.py"), "--cases", folder], { encoding: "utf8" });
    expect("captures that are worked out by hand", [status, stderr], [0, ""]);
    for (const [name, place, segments, findings] of [
        ["IPv6-no-place", "", 0, 0], ["IPv6-in-the-pcapng-form", "2001:db8::2", 0, 0], ["IPv6-a-wrong-acknowledgement", "2001:db8::2", 0, 1],
        ["both-versions-the-same-ports", "", 5, 0],
    ]) {
        const case_at = ending => fs.readFileSync(path.join(folder, `${name}${ending}`)), words = case_at(".args").toString("utf8").split("\n");
        await open("case.pcap", case_at(""));
        await choose(tab, "taken-at", place);
        const shown = await tab.run(judged_shown);
        expect(`${name}: where it was taken`, words[words.indexOf("--at") + 1] === place || !words.includes("--at"), true);
        expect(`${name}: the report`, await tab.run(verdict_shown), case_at(".stdout").toString("utf8"));
        expect(`${name}: the ladder`, [shown.is_shown, shown.segments, shown.findings.length], [true, segments, findings]);
        expect(`${name}: why there is none`, await tab.run(() => document.getElementById("judged-told").textContent),
            segments === 0 ? "A ladder is drawn of a connection over IPv4 alone. The verdict is on all."
                : "Connection 1: 5 segments, each with the packet's number.");
    }
}

// What a line of the verdict leads to: its packet's arrow is in sight, is marked, and has the focus.
const led = words => {
    [...document.querySelectorAll("#capture-report button")].find(part => part.textContent.startsWith(words)).click();
};
const led_to = () => {
    const box = document.getElementById("captured"), mark = document.querySelector("#captured-picture .led"), seen = box.getBoundingClientRect();
    const { top, bottom } = mark.getBoundingClientRect();
    return { number: mark.parentElement.dataset.number, is_seen: top >= Math.max(0, seen.top) && bottom <= Math.min(innerHeight, seen.bottom) + 1,
        is_focused: document.activeElement === box, connection: document.getElementById("connection").value };
};

async function leading(tab, expect, open) {
    const lead = async words => {
        await tab.run(led, words);
        await tab.until(rested);
        return tab.run(led_to);
    };
    await tab.size(1280, 800);
    await open("wrong.pcap", capture_at("checks/program/capture_statuses", "json-with-a-wrong-acknowledgement"));
    await choose(tab, "taken-at", "10.7.0.1");
    const to = (number, connection) => ({ number, is_seen: true, is_focused: true, connection });
    expect("where a finding leads", await lead("packet 23, "), to("23", "0"));
    expect("where a note leads", await lead("note: retransmissions: 1, the first in packet 21 "), to("21", "0"));
    // Wireshark counts all packets of a file, and so do the report and the ladder: here one of UDP comes first.
    const wrong = capture_at("checks/program/capture_statuses", "json-with-a-wrong-acknowledgement");
    const record = Buffer.from(wrong.subarray(24, 40 + wrong.readUInt32LE(32)));
    record[16 + 9] = 17;
    await open("udp.pcap", Buffer.concat([wrong.subarray(0, 24), record, wrong.subarray(24), stored("plain-B").subarray(24)]));
    await choose(tab, "taken-at", "10.7.0.1");
    await choose(tab, "connection", "1");
    expect("where a finding of another connection leads", await lead("packet 24, "), to("24", "0"));
    expect("it is the last segment", (await tab.run(judged_shown)).accused.map(words => words.split(" ").slice(0, 2).join(" ")), ["A 24"]);
    await tab.size(1600, 6000);
}

// A capture that Python's Simulator has saved shows each segment when it was sent: over a link of 20 ms each way the handshake takes 40 ms,
// and a whole window of text goes out behind it. Two ends of ours break no rule.
async function simulated(tab, expect, open) {
    const shown = await open("simulated.pcap", stored("simulated"));
    expect("a simulation", [shown.is_shown, shown.segments, shown.heads, shown.findings, shown.accused],
        [true, 23, ["A 10.0.0.1:1", "B 10.0.0.2:2"], [], []]);
    expect("its times", [shown.times.slice(0, 4), shown.times.at(-1)],
        [["0.000000 s", "0.020000 s", "0.040000 s", "0.040000 s"], "1.200000 s"]);
}

// A time is shown as exactly as the file has it, and no time where it has none.
async function times(tab, expect, open) {
    const file = stored("plain-B"), shown = async (name, bytes) => (await open(name, bytes)).times;
    const fine = Buffer.from(file);
    fine.writeUInt32LE(0xa1b23c4d, 0);
    // By its first records: the second packet was seen 107 units after the first.
    expect("microseconds", (await shown("micro.pcap", file)).slice(0, 2), ["0.000000 s", "0.000107 s"]);
    expect("nanoseconds", (await shown("nano.pcap", fine)).slice(0, 2), ["0.000000000 s", "0.000000107 s"]);
    fine.writeUInt32LE(fine.readUInt32LE(28) + 1, 28);
    expect("before the first", (await shown("before.pcap", fine))[1], "0.000000106 s");
    fine.writeUInt32LE(fine.readUInt32LE(24) + 1, 24);
    expect("a second before the first", (await shown("second.pcap", fine))[1], "-0.999999894 s");
    expect("a simple packet has no time", await shown("simple.pcapng", simple_of(file)), []);
    expect("but is shown", (await tab.run(judged_shown)).segments, 1);
}

// A pcapng file with the first packet of a pcap file, as a simple one.
function simple_of(file) {
    const packet = file.subarray(40, 40 + file.readUInt32LE(32)), padding = Buffer.alloc((4 - packet.length % 4) % 4);
    const words = (...all) => Buffer.from(Uint32Array.from(all).buffer), length = 16 + packet.length + padding.length;
    return Buffer.concat([words(0x0a0d0d0a, 28, 0x1a2b3c4d, 1, 0xffffffff, 0xffffffff, 28), words(1, 20, file.readUInt32LE(20), 0, 20),
        words(3, length, packet.length), packet, padding, words(length)]);
}

// A cut file shows what it has, and is said to be cut.
async function cut(tab, expect, open) {
    const file = stored("plain-B");
    const listed = () => tab.run(() => document.getElementById("segments-told").textContent);
    const shown = await open("cut.pcap", file.subarray(0, file.length - 1));
    expect("a cut capture", [shown.segments, shown.verdict.endsWith(" The file is cut short or damaged: what is before that was judged.")], [23, true]);
    expect("where it is cut", /^cut\.pcap: 23 segments\. The file is cut at byte \d+, after 23 whole packets\.$/.test(await listed()), true);
    const { is_shown, verdict } = await open("header.pcap", file.subarray(0, 10));
    expect("a cut header", [is_shown, verdict, await listed()], [false, "header.pcap is open. It isn't a capture that can be read.",
        "header.pcap: 0 segments. The file is cut at byte 0, after 0 whole packets."]);
}

// An empty segment from 10.0.0.1 to port 80 of 10.0.0.2, with the right checksum, and without ACK, which breaks a rule of form; or with
// the sum over the pseudo-header alone, as it goes to a device that adds the rest.
function without_ack(port, is_left = false) {
    const bytes = Buffer.from([port >> 8, port & 255, 0, 80, 0, 0, 0, 1, 0, 0, 0, 1, 80, 0, 0, 0, 0, 0, 0, 0]);
    const pseudo = Buffer.from([10, 0, 0, 1, 10, 0, 0, 2, 0, 6, 0, bytes.length]), all = Buffer.concat([pseudo, bytes]);
    let sum = 0;
    for (let place = 0; place < (is_left ? pseudo : all).length; place += 2) {
        sum += all.readUInt16BE(place);
    }
    bytes.writeUInt16BE(is_left ? sum % 0xffff : 0xffff - sum % 0xffff, 16);
    return Uint8Array.from(bytes);
}

// A checksum that was left to a device is made right in the list as for the verdict, and the list says so; a wrong one stays wrong.
async function mended(tab, expect, open) {
    const wrong = without_ack(9);
    wrong[16] ^= 255;
    const segments = [without_ack(7), without_ack(7, true), wrong];
    await open("mended.pcap", capture_of(segments.map((bytes, turn) => ({ seconds: 0, turn, source: "10.0.0.1", target: "10.0.0.2", bytes }))));
    const [listing, told, list] = await tab.run(() => ["segments-listing", "segments-told", "segments"].map(
        id => document.getElementById(id).value ?? document.getElementById(id).textContent));
    const line = "7 > 80 seq 1 ack 1 reserved 0 flags - window 0 urgent 0 options - pad 0 text -";
    expect("the list of a capture with checksums of each kind", listing.split("\n"), [`1 ${line}`,
        `2 ${line}  (its checksum was left to a device, and is made right)`, "3 malformed 3 BadChecksum", "total 3 malformed 1", ""]);
    expect("what is told of it", told, "mended.pcap: 3 segments. 1 of the list's checksums was left to a device, and made right.");
    const lines = list.split("\n");
    expect("its bytes are those that are judged", lines[1], lines[0]);
}

// What is seen of the verdict in the window: its sentence, and its lines below that.
const verdict_seen = () => {
    const is_inside = ({ top, bottom, left, right }) => top >= 0 && bottom <= innerHeight && left >= 0 && right <= innerWidth && bottom > top;
    const [bar, report] = ["verdict", "capture-report"].map(id => document.getElementById(id).getBoundingClientRect());
    const text = id => document.getElementById(id).textContent;
    return { is_seen: is_inside(bar), is_report_seen: is_inside(report) && report.top >= bar.bottom - 1, verdict: text("verdict-told"), said: text("said"),
        live: text("live"), is_small: bar.bottom - bar.top < innerHeight / 5, is_narrow: document.documentElement.scrollWidth <= innerWidth };
};

// Whoever opens a capture sees the verdict at once, wherever the page is scrolled to, and hears its sentence. A link in the sentence leads
// there, and leaves the address.
async function seen_at_once(tab, expect, open) {
    const words = "kernel.pcap is open. No rule that was tried is broken at the 2 ends of its connection.";
    for (const [width, height] of [[1280, 800], [360, 740]]) {
        await tab.size(width, height);
        for (const from of ["open-capture", "script", "ends-part"]) {
            await tab.run(id => document.getElementById(id).scrollIntoView(), from);
            await open("kernel.pcap", stored("kernel-A"));
            expect(`the verdict at ${width}, from ${from}`, await tab.run(verdict_seen), { is_seen: true, is_report_seen: true, verdict: words, said: words,
                live: words, is_small: true, is_narrow: true });
        }
        const address = await tab.run(() => {
            window.scrollTo(0, document.documentElement.scrollHeight);
            document.getElementById("verdict-link").click();
            return location.href;
        });
        const found = await tab.run(() => [document.activeElement.id, location.href]), { is_report_seen } = await tab.run(verdict_seen);
        expect(`where the link leads at ${width}`, [...found, is_report_seen], ["capture-report", address.split("#judged")[0], true]);
    }
    await tab.size(1600, 6000);
    await open("many.pcap", many(3, 2));
    expect("the verdict on three connections", (await tab.run(verdict_seen)).verdict, "many.pcap is open. Rules of TCP are broken at 3 of the 3 ends of its " +
        "3 connections, in 6 packets, the first of them 1.");
    await tab.run(() => document.getElementById("segments").dispatchEvent(new Event("input")));
    expect("no verdict on a list that is typed", await tab.run(() => document.getElementById("verdict").hidden), true);
}

// All lines of the verdict are in the first 800 pixels of the page, above every ladder.
async function above_the_fold(tab, expect, open) {
    await tab.size(1280, 800);
    await open("kernel.pcap", stored("kernel-A"));
    await choose(tab, "taken-at", "10.7.0.1");
    const place = await tab.run(() => {
        window.scrollTo(0, 0);
        const [report, captured, ladder] = ["capture-report", "captured", "ladder-part"].map(id => document.getElementById(id).getBoundingClientRect());
        const box = document.getElementById("capture-report");
        return { bottom: report.bottom <= 800, is_whole: box.scrollHeight <= box.clientHeight + 1, is_above: report.bottom <= captured.top,
            is_above_all: captured.bottom <= ladder.top };
    });
    expect("the verdict's lines", [await tab.run(verdict_shown), place], [REPORT, { bottom: true, is_whole: true, is_above: true, is_above_all: true }]);
    await tab.size(1600, 6000);
}

// So many connections, of so many such segments each.
function many(connections, segments) {
    return capture_of(Array.from({ length: connections * segments }, (_, turn) => ({
        seconds: 0, turn, source: "10.0.0.1", target: "10.0.0.2", bytes: without_ack(turn % connections),
    })));
}

// A finding behind many lines without one is in sight, and its connection is in the ladder.
async function behind_many(tab, expect, open) {
    const clean = ["gVisor-B", "kernel-A"].map(name => stored(name).subarray(24));
    const { segments, heads } = await open("behind.pcap", Buffer.concat([stored("plain-B"), ...clean, many(1, 1).subarray(24)]));
    const found = await tab.run(() => {
        const box = document.getElementById("capture-report"), seen = box.getBoundingClientRect(), line = box.querySelector(".found").getBoundingClientRect();
        return [box.scrollHeight > 1.5 * box.clientHeight, line.top >= seen.top && line.bottom <= seen.bottom];
    });
    expect("the first finding", [...found, segments, heads], [true, true, 1, ["A 10.0.0.1:0", "B 10.0.0.2:80"]]);
}

// Of a large capture the first part is listed, and the whole ladder can be scrolled through.
async function large(tab, expect, open) {
    await open("large.pcap", many(1, 20000));
    const found = await tab.run(async () => {
        const box = document.getElementById("captured");
        box.scrollTop = box.scrollHeight;
        await new Promise(done => requestAnimationFrame(() => setTimeout(done, 100)));
        const arrows = [...document.querySelectorAll("#captured-picture .arrow")];
        const last = arrows.at(-1).getBoundingClientRect(), seen = box.getBoundingClientRect();
        return { last: arrows.at(-1).dataset.number, is_seen: last.top >= seen.top && last.bottom <= seen.bottom, few: arrows.length < 300,
            listed: document.getElementById("segments-told").textContent };
    });
    // A segment of 20 bytes takes 80 letters of 100,000.
    expect("a large capture", [found.last, found.is_seen, found.few, found.listed],
        ["20000", true, true, "large.pcap: 20000 segments. The list has the first 1250."]);
    expect("its findings", (await tab.run(judged_shown)).findings.map(words => words.endsWith(", and 19999 more like it")), [true]);
    // The first 200 connections are listed, and then 200 that have findings; of the report there is a part, and its end.
    await open("many.pcap", many(2500, 2));
    const options = await tab.run(() => [...document.getElementById("connection").options].map(option => option.text));
    expect("many connections", options, Array.from({ length: 400 }, (_, port) => `${port + 1}: 10.0.0.1:${port} > 10.0.0.2:80, 2 findings`));
    const report = await tab.run(verdict_shown), count = report.match(/^\d+ {2}10\.0\.0\.1:\d+ > /gm).length;
    expect("a part of a long report", [report.includes(`These are ${count} of 2500 connections, `), count > 100, report.length < 110000,
        report.includes("\nends judged 2500, findings 5000\n")], [true, true, true, true]);
}

// Both the reading and the ladder can be cancelled: here as soon as they are shown.
async function cancelled(tab, expect, write) {
    const at_once = async (name, bytes, words, said) => {
        await tab.run(asked => {
            const observer = new MutationObserver(() => {
                if (document.getElementById("reading-told").textContent.startsWith(asked)) {
                    observer.disconnect();
                    document.getElementById("reading-cancel").click();
                }
            });
            observer.observe(document.getElementById("reading-told"), { childList: true });
        }, words);
        await tab.choose_file("#capture", write(name, bytes));
        await tab.until(asked => document.getElementById("said").textContent === asked, said);
        return tab.run(() => document.getElementById("reading").hidden);
    };
    expect("a reading that is cancelled", await at_once("cancelled.pcap", many(2500, 2), "Bytes read", "The reading is cancelled."), true);
    expect("nothing of it is shown", (await tab.run(judged_shown)).is_shown, false);
    expect("a ladder that is cancelled", await at_once("rest.pcap", stored("kernel-A"), "The segments are being read", "The ladder is cancelled."), true);
    const { is_shown, segments } = await tab.run(judged_shown);
    expect("the verdict stays", [is_shown, segments], [true, 0]);
    await choose(tab, "taken-at", "10.7.0.1");
    expect("and is there for another place", await tab.run(verdict_shown), REPORT);
}

// What the worker runs, in other words; `whole` is what it was.
const changed_program = (from, to) => {
    const program = document.getElementById("reader");
    globalThis.whole_program ??= program.textContent;
    program.textContent = globalThis.whole_program.replace(from, to);
};

// Where the module gets no memory for a capture, or the capture is larger than it takes, the page says so; and where ladders don't have all
// of its segments.
async function too_large(tab, expect, open) {
    const TOLD = "It needs more memory than this page has: the program tcpjudge judges it.";
    await tab.run(changed_program, "let core", `const instantiate = WebAssembly.instantiate;
        WebAssembly.instantiate = async (...words) => {
            const { exports } = await instantiate(...words), { memory } = exports;
            const full = { buffer: memory.buffer, grow() { throw new RangeError("none is left"); } };
            return { exports: { ...exports, memory: full, tcp_web_capture: () => 3 } };
        };
        let core`);
    const memory = await open("memory.pcap", stored("plain-B"));
    expect("no memory", [memory.is_shown, memory.verdict], [false, `memory.pcap is open. ${TOLD}`]);
    await tab.run(changed_program, "MOST_WHOLE = 1 << 29", "MOST_WHOLE = 100");
    const whole = await open("whole.pcap", stored("plain-B"));
    expect("too large a file", [whole.is_shown, whole.verdict], [false, `whole.pcap is open. ${TOLD}`]);
    await tab.run(changed_program, "MOST_KEPT = 2000000", "MOST_KEPT = 10");
    const kept = await open("kept.pcap", stored("kernel-A"));
    await choose(tab, "taken-at", "10.7.0.1");
    expect("too large for the ladder", [kept.segments, await tab.run(verdict_shown)], [10, REPORT]);
    await tab.run(led, "note: retransmissions");
    await tab.until(() => document.getElementById("said").textContent === "Packet 21 isn't in the ladder.");
    await tab.run(changed_program, "segments.add(segment)", "throw new Error('none')");
    await tab.choose_file("#capture", path.join(tab.folder, "kept.pcap"));
    await tab.until(() => document.getElementById("said").textContent === "The capture's ladder can't be drawn: none.");
    await choose(tab, "taken-at", "10.7.0.1");
    expect("the verdict without a ladder", [(await tab.run(judged_shown)).segments, await tab.run(verdict_shown)], [0, REPORT]);
    await tab.run(() => { document.getElementById("reader").textContent = "throw new Error('none');"; });
    await tab.choose_file("#capture", path.join(tab.folder, "memory.pcap"));
    await tab.until(() => document.getElementById("said").textContent.startsWith("The capture can't be read: "));
    expect("nothing is shown then", (await tab.run(judged_shown)).is_shown, false);
    await tab.run(() => { document.getElementById("reader").textContent = globalThis.whole_program; });
}

export async function captures(tab, expect) {
    const write = (name, bytes) => {
        const file = path.join(tab.folder, name);
        fs.writeFileSync(file, bytes);
        return file;
    };
    const open = async (name, bytes) => {
        // What was said of an earlier one isn't taken for this one's.
        await tab.run(() => { document.getElementById("said").textContent = ""; });
        await tab.choose_file("#capture", write(name, bytes));
        await tab.until(asked => document.getElementById("said").textContent.startsWith(`${asked} is open.`), name);
        await tab.until(rested);
        return tab.run(judged_shown);
    };
    await judged(tab, expect, open);
    await simulated(tab, expect, open);
    await seen_at_once(tab, expect, open);
    await above_the_fold(tab, expect, open);
    await reported(tab, expect, open);
    await leading(tab, expect, open);
    await mended(tab, expect, open);
    await times(tab, expect, open);
    await cut(tab, expect, open);
    await behind_many(tab, expect, open);
    await large(tab, expect, open);
    await cancelled(tab, expect, write);
    await too_large(tab, expect, open);
}
