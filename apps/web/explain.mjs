// Explains a script or a report in sentences, or as a ladder of letters: node apps/web/explain.mjs [--ladder] [--module FILE] FILE, or - for
// standard input. What comes of the script is computed by the module, as in the page.
import fs from "node:fs";
import path from "node:path";
import { fileURLToPath } from "node:url";
import { calls, compiled_of, FAULT, WELL } from "./module.mjs";
import { SIDES, event_at, fields_of, is_report, other, phase_of, read_report, read_run } from "./run.mjs";
import { fault_of, judged_told, segments_told, sentence } from "./told.mjs";

const HELP = `Usage: node apps/web/explain.mjs [--ladder] [--module FILE] FILE

Explains what a script of tcpkit replay does, a sentence for each event; with --ladder draws it with letters. FILE is a
script or the report of one, or - for standard input (docs/FORMATS.md). Of a script it is said, too, by which rule each
segment was judged. The module is apps/web/out/tcp_web.wasm, or what --module names; a report needs none.

It ends with 0, with 1 where the script has a fault, whose cause and cure it writes, and with 2 where the words of the
command can't be taken or a file can't be read.
`;
const BETWEEN = 56, MOST_NOTE = 40, HERE = path.dirname(fileURLToPath(import.meta.url));

class WrongWords extends Error {}

function words_of(args) {
    const words = { ladder: false, module: path.join(HERE, "out", "tcp_web.wasm"), file: null };
    for (let at = 0; at < args.length; at += 1) {
        if (args[at] === "--ladder") {
            words.ladder = true;
        } else if (args[at] === "--module" && at + 1 < args.length) {
            at += 1;
            words.module = args[at];
        } else if (words.file === null && (args[at] === "-" || !args[at].startsWith("-"))) {
            words.file = args[at];
        } else {
            throw new WrongWords(`explain: ${args[at]}: no such word; --help says which there are`);
        }
    }
    if (words.file === null) {
        throw new WrongWords("explain: a FILE is missing; --help says how it is called");
    }
    return words;
}

function read(file) {
    try {
        return fs.readFileSync(file === "-" ? 0 : file);
    } catch (error) {
        throw new WrongWords(`explain: ${file}: ${error.code === "ENOENT" ? "no such file" : error.code ?? error.message}`);
    }
}

// What goes between the two lines of the ladder in an event's row, and what is beside each line.
function row_of(run, row) {
    const event = event_at(run, row), beside = { A: "", B: "" };
    for (const side of SIDES) {
        const phase = phase_of(run, row, side);
        beside[side] = phase === phase_of(run, row - 1, side) ? "" : phase;
    }
    const note = (side, words) => { beside[side] = [words, beside[side]].filter(part => part !== "").join(" "); };
    if (event.segment) {
        return { way: leaving(event), beside };
    }
    if (event.arrow) {
        const [word, number] = event.outcome;
        note(other(event.side), [event.arrow.is_again ? "again" : "", word === "processed" ? "" : word,
            word === "malformed" ? number : ""].filter(part => part !== "").join(" "));
        return { way: coming(event), beside };
    }
    // The phase that a call leads to is beside its line anyway.
    const came = event.refused ? `: refused ${event.refused}` : event.outcome[0] === "ok" ? "" : `: ${event.outcome.join(" ")}`;
    const words = [event.is_repeat ? `${event.turns}x` : "", event.kind, ...event.words.slice(0, 1)];
    note(event.side, (words.filter(part => part !== "").join(" ") + came).slice(0, MOST_NOTE));
    return { way: " ".repeat(BETWEEN), beside };
}

function leaving({ segment, side, ...event }) {
    const fields = fields_of({ segment, side, ...event });
    const words = fields === null ? segments_told(segment)
        : `${segment.number} ${fields.flags} seq ${fields.seq} ack ${fields.ack} len ${fields.text}`;
    const is_lost = segment.arrows[0].kind === "lost", line = ` ${words} ${is_lost ? "lost " : ""}`;
    return side === "A" ? `${line.padEnd(BETWEEN - 2, "-")}${is_lost ? " x" : "->"}`
        : `${is_lost ? "x " : "<-"}${line.padStart(BETWEEN - 2, "-")}`;
}

function coming({ side, arrow, kind }) {
    const words = ` ${segments_told(arrow, arrow.first).replace("segment ", "")}${kind === "damage" ? " damaged" : ""} `;
    return side === "A" ? `${words}->`.padStart(BETWEEN) : `<-${words}`.padEnd(BETWEEN);
}

function ladder(run) {
    const wide = Math.max(...Array.from({ length: run.count }, (_, at) => row_of(run, at + 1).beside.A.length), 1);
    const lines = [`${" ".repeat(5 + wide)}A${" ".repeat(BETWEEN)} B`];
    for (let row = 1; row <= run.count; row += 1) {
        const { way, beside } = row_of(run, row);
        lines.push(`${String(row).padStart(4)} ${beside.A.padStart(wide)}|${way}| ${beside.B}`.trimEnd());
    }
    return lines.join("\n");
}

// By which rule a delivered segment was judged, behind the event's sentence; of a report, where there is no module, nothing.
function why(core, script, run, event) {
    if (core === null || event.kind !== "deliver" || event.refused || event.is_repeat) {
        return "";
    }
    const { answer, text } = core.rule(script, event.row - 1);
    return answer !== WELL ? "" : ` ${judged_told(run, event, text)}`;
}

function sentences(core, script, run) {
    return Array.from({ length: run.count }, (_, at) => event_at(run, at + 1)).map(
        event => `${event.row}. ${sentence(event)}${why(core, script, run, event)}`).join("\n");
}

function write(words, run, core, script) {
    if (run.count > 0) {
        console.log(words.ladder ? ladder(run) : sentences(core, script, run));
    }
}

async function main(args) {
    if (args.includes("--help")) {
        process.stdout.write(HELP);
        return 0;
    }
    const words = words_of(args), script = read(words.file), letters = script.toString("latin1");
    if (is_report(letters)) {
        write(words, read_report(letters), null, script);
        return 0;
    }
    const core = await calls(await compiled_of(read(words.module)));
    const { answer, text } = core.steps(script);
    if (answer === FAULT) {
        const { line, cause, cure } = fault_of(text, script.toString("utf8"));
        console.log(`${line === null ? "" : `Line ${line + 1}: `}${cause}. Cure: ${cure}.`);
        return 1;
    }
    if (answer !== WELL) {
        console.log("Memory ran out. Cure: a shorter script.");
        return 1;
    }
    write(words, read_run(text), core, script);
    return 0;
}

try {
    process.exitCode = await main(process.argv.slice(2));
} catch (error) {
    if (!(error instanceof WrongWords)) {
        throw error;
    }
    console.error(error.message);
    process.exitCode = 2;
}
