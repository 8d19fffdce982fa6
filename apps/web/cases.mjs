// What is stored of the repository's scripts: the program's reports, and what a picture of them has to show. It is
// counted from the reports alone, not with the page's code.
import fs from "node:fs";
import path from "node:path";
import { fileURLToPath } from "node:url";

const TOP = path.join(path.dirname(fileURLToPath(import.meta.url)), "..", "..");
export const at = (...parts) => path.join(TOP, ...parts);

// The outcomes of a part of the stored output: each ends by `ok true` or `ok false`, or is the line of a fault.
function outcomes(lines) {
    const found = [];
    let report = [];
    for (const line of lines) {
        if (line === "ok true" || line === "ok false") {
            found.push({ answer: line === "ok true" ? 0 : 1, report: report.map(one => one + "\n").join("") });
            report = [];
        } else if (/^(41 line \d+|config [AB] \d+)$/.test(line)) {
            found.push({ answer: 2, report: `tcpkit: ${line}\n` });
        } else {
            report.push(line);
        }
    }
    return found;
}

// All scripts: { name, bytes, answer, report }.
export function cases() {
    const folder = at("crates/test_scripts/data/cases"), all = [];
    for (const part of fs.readFileSync(at("crates/test_scripts/stdout"), "utf8").split(/^== /m).slice(1)) {
        const [name, ...lines] = part.split("\n").slice(0, -1);
        if (!/\.scripts?$/.test(name)) {
            continue;
        }
        const bytes = fs.readFileSync(path.join(folder, name));
        const scripts = name.endsWith(".scripts") ? bytes.toString("latin1").match(/[^\n]*\n|[^\n]+$/g)
            : [bytes.toString("latin1")];
        const found = outcomes(lines);
        if (found.length !== scripts.length) {
            throw new Error(`${name}: ${scripts.length} scripts, and ${found.length} outcomes are stored`);
        }
        scripts.forEach((script, number) => all.push({
            name: scripts.length > 1 ? `${name} ${number + 1}` : name, ...found[number],
            bytes: Buffer.from(script, "latin1"),
        }));
    }
    const first = fs.readFileSync(at("crates/tcpkit/data/first-run.script"));
    all.push({ name: "first-run", bytes: first, answer: 0,
        report: fs.readFileSync(at("crates/tcpkit/stdout"), "utf8") });
    return all;
}

export function is_text(bytes) {
    return !bytes.includes(13) && Buffer.from(bytes.toString("utf8"), "utf8").equals(bytes);
}

const EMIT = /^\d+ emit ([AB]) (\d+) flags (\S+) seq (\d+) ack (\d+) window (\d+) text (\d+) sack (\S+)$/;
const EMITS = /^\d+ repeat \d+ emit ([AB]) done (\d+) /;
const CARRY = /^\d+ (?:repeat (\d+) )?(deliver|damage) ([AB]) (\d+)(?: \d+ \d+)? (.*)$/;
const CALL = /^\d+ (?:repeat \d+ )?(connect|listen|close|abort|send|receive|timer) /;
const IDLE = /^\d+ emit [AB] none$| refused [1-9]\d$/;

const PHASE = /^(\d+) (\w+) ([AB]) .*\b(?:ok|processed|dropped|not-mine|malformed \d) ([A-Z0-9-]+)$/;

// The phases that the lines of a report have: of which side, after which event.
export function phases(report) {
    const found = report.split("\n").map(line => PHASE.exec(line)).filter(told => told !== null);
    return found.map(([, row, kind, side, phase]) => ({
        row: Number(row), phase, side: kind === "deliver" || kind === "damage" ? { A: "B", B: "A" }[side] : side,
    }));
}

// Where a phase differs from the one that was told of its side before: "ROW PHASE".
export function changes(report) {
    const last = { A: "CLOSED", B: "CLOSED" };
    return phases(report).filter(({ side, phase }) => {
        const is_new = last[side] !== phase;
        last[side] = phase;
        return is_new;
    }).map(({ row, phase }) => `${row} ${phase}`);
}

// What the picture of a report has to show.
export function wanted(report) {
    const lines = report.split("\n").slice(0, -1), events = lines.slice(0, -2);
    const arrived = { A: new Set(), B: new Set() }, begun = { A: new Set(), B: new Set() };
    // What each event emitted, as the first number and the next one.
    const sent = { A: [], B: [] };
    const told = { arrows: 0, crosses: 0, damaged: 0, dropped: 0, again: 0, repeated: 0, resent: 0, blocks: 0, marks: 0,
        labels: [] };
    for (const line of events) {
        told.marks += CALL.test(line) || IDLE.test(line) ? 1 : 0;
        const emitted = EMIT.exec(line), emits = EMITS.exec(line), carried = CARRY.exec(line);
        for (const [, side, count] of [emitted && [null, emitted[1], 1], emits].filter(one => one)) {
            const first = sent[side].at(-1)?.[1] ?? 0;
            sent[side].push([first, first + Number(count)]);
        }
        if (emitted) {
            const [, side, number, flags, seq, ack, window, text, sack] = emitted;
            told.blocks += sack === "-" ? 0 : sack.split("+").length;
            const blocks = sack === "-" ? "" : ` sack ${sack}`;
            told.labels.push(`${side} ${number} ${flags} seq ${seq} ack ${ack} win ${window} len ${text}${blocks}`);
            if (text !== "0" || /SYN|FIN/.test(flags)) {
                told.resent += begun[side].has(seq) ? 1 : 0;
                begun[side].add(seq);
            }
        }
        if (!carried || /^(refused|done 0)/.test(carried[5])) {
            continue;
        }
        const [, turns = "1", kind, side, number, outcome] = carried;
        told.arrows += 1;
        told.damaged += kind === "damage" ? 1 : 0;
        told.dropped += kind === "deliver" && /^(dropped|not-mine|malformed)/.test(outcome) ? 1 : 0;
        told.again += turns === "1" && outcome.startsWith("processed") && arrived[side].has(Number(number)) ? 1 : 0;
        told.repeated += arrived[side].has(Number(number)) ? 1 : 0;
        for (let turn = 0; turn < Number(turns); turn += 1) {
            arrived[side].add(Number(number) + turn);
        }
    }
    // One cross for what is lost of an event's segments.
    for (const side of ["A", "B"]) {
        for (const [first, next] of sent[side]) {
            const numbers = Array.from({ length: next - first }, (_, at) => first + at);
            told.crosses += numbers.every(number => arrived[side].has(number)) ? 0 : 1;
        }
    }
    return told;
}

// The tables of docs/FORMATS.md: a number's cause and cure.
export function refusals() {
    const text = fs.readFileSync(at("docs/FORMATS.md"), "utf8").replaceAll("`", "");
    const rows = text.matchAll(/^\| (\d\d) \| ([^|]+) \| ([^|]+) \|$/gm);
    return new Map([...rows].map(([, number, cause, cure]) => [number, { cause, cure }]));
}

// A script of as many events, its report's events unknown but in number: data in order, acknowledged and read.
export function long_script(events) {
    const lines = ["listen B", "connect A", "emit A", "deliver A 0", "emit B", "deliver B 0", "emit A", "deliver A 1"];
    for (let turn = 0; lines.length < events; turn += 1) {
        lines.push("send A 6162636465", "emit A", `deliver A ${turn + 2}`, "receive B 100", "emit B",
            `deliver B ${turn + 1}`);
    }
    return lines.slice(0, events).map(line => line + "\n").join("");
}
