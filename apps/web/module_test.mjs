// Runs every script of the cases in the module, and compares byte for byte with the stored reports.
// node apps/web/module_test.mjs [MODULE]
import { spawnSync } from "node:child_process";
import fs from "node:fs";
import os from "node:os";
import path from "node:path";
import { fileURLToPath } from "node:url";
import { calls, compiled_of, WELL, REFUSED, FAULT, NO_SEGMENT, NO_ADDRESS, NOTHING_JUDGED, BAD_CAPTURE } from "./module.mjs";
import { long_script } from "./cases.mjs";

const here = path.dirname(fileURLToPath(import.meta.url));
const at = (...parts) => path.join(here, "..", "..", ...parts);
const module = await compiled_of(fs.readFileSync(process.argv[2] ?? at("apps/web/out/tcp_web.wasm")));
let passed = 0, failed = 0;
// Asking for the rule of each event, or the numbers after it, replays the script each time: of long ones they aren't asked for.
const LONG = 20000, LEAST_MET = 8, LEAST_CAPTURES = 8, LEAST_REPORTS = 100, MOST_SHOWN = 200;

function expect(name, found, wanted) {
    if (found === wanted) {
        passed += 1;
        return;
    }
    failed += 1;
    console.log(`${name}: wanted ${JSON.stringify(wanted).slice(0, 300)}, found ${JSON.stringify(found).slice(0, 300)}`);
}

// The stored output of test_scripts: `== NAME`, the report, and `ok true` or `ok false`; or the line of a fault.
function stored() {
    const reports = new Map();
    for (const part of fs.readFileSync(at("crates/test_scripts/stdout"), "utf8").split(/^== /m).slice(1)) {
        const [name, ...lines] = part.split("\n");
        const last = lines.at(-2);
        if (last === "ok true" || last === "ok false") {
            reports.set(name, { answer: last === "ok true" ? WELL : REFUSED, text: lines.slice(0, -2).join("\n") + "\n" });
        } else {
            reports.set(name, { answer: FAULT, text: `tcpkit: ${last}\n` });
        }
    }
    return reports;
}

// The steps without their state lines are the report without its last two lines.
function expect_steps(name, module_calls, script, report) {
    const { answer, text } = module_calls.steps(script);
    if (report.answer === FAULT) {
        expect(`${name}, steps' fault`, text, report.text);
        return;
    }
    expect(`${name}, steps' answer`, answer, WELL);
    const lines = text.split("\n").slice(0, -1);
    const events = report.text.split("\n").slice(0, -3);
    expect(`${name}, steps' events`, lines.filter(line => !line.startsWith("state ")).join("\n"), events.join("\n"));
    const forms = lines.map(line => line.startsWith("state A ") ? "A" : line.startsWith("state B ") ? "B" : "e").join("");
    expect(`${name}, steps' form`, forms, "AB" + "eAB".repeat(events.length));
    // The last states say what the last lines of the report say.
    const ends = report.text.split("\n").slice(-3, -1);
    const states = lines.slice(-2).map(line => line.replace(/^state /, "end ").replace(/ queued .*$/, ""));
    expect(`${name}, steps' end`, states.join("\n"), ends.join("\n"));
}

// What the listing says of a segment agrees with its line in the report.
function expect_shown(name, module_calls, script, report) {
    for (const line of report.text.split("\n")) {
        const found = /^\d+ emit ([AB]) (\d+) flags (\S+) seq (\d+) ack (\d+) window (\d+) text (\d+) /.exec(line);
        if (!found) {
            continue;
        }
        const [, side, k, flags, seq, ack, window, count] = found;
        const { answer, text } = module_calls.show(script, side, k);
        expect(`${name}, segment ${side} ${k}`, answer, WELL);
        const shown = /^\d+ > \d+ seq (\d+) ack (\d+) reserved 0 flags (\S+) window (\d+) urgent 0 options \S+ pad \d+ text (\S+)$/.exec(text);
        const length = shown && shown[5] !== "-" ? shown[5].length / 2 : 0;
        expect(`${name}, segment ${side} ${k}`, shown && [shown[3], shown[1], shown[2], shown[4], String(length)].join(), [flags, seq, ack, window, count].join());
    }
    expect(`${name}, no segment`, module_calls.show(script, "A", 1000000000).answer, report.answer === FAULT ? FAULT : NO_SEGMENT);
}

// What each rule answers (docs/RULES.md): all but these drop the segment.
const PROCESSED = ["peer-opens", "peer-refuses", "peer-accepts", "peer-resets", "taken", "taken-shut"];

// The rule that judged a segment is one that answers what its line in the report says.
function expect_rules(name, module_calls, script, report) {
    const rules = new Set();
    for (const line of report.text.split("\n").slice(0, -3)) {
        const found = /^(\d+) (?:repeat \d+ )?(\w+) [AB] (.*)$/.exec(line), number = Number(found[1]) - 1;
        const arrived = /^deliver [AB] \d+ (processed|dropped|not-mine) /.exec(line.slice(found[1].length + 1));
        const { answer, text } = module_calls.rule(script, number);
        if (found[2] !== "deliver") {
            expect(`${name}, no rule of event ${number}`, answer, NO_SEGMENT);
        } else if (arrived) {
            const rule = text.split(" ")[0];
            rules.add(rule);
            const asked = rule === "foreign" ? "not-mine" : PROCESSED.includes(rule) ? "processed" : "dropped";
            expect(`${name}, rule ${rule} of event ${number}`, [answer, asked].join(), [WELL, arrived[1]].join());
            expect(`${name}, section of ${rule}`, / 3\.10\.7/.test(text), true);
        }
    }
    expect(`${name}, no event`, module_calls.rule(script, 1000000000).answer, report.answer === FAULT ? FAULT : NO_SEGMENT);
    return rules;
}

// The listing of all emitted segments is what is shown of each, those of A first.
function expect_sent(name, module_calls, script, report) {
    const { answer, text } = module_calls.sent(script);
    if (report.answer === FAULT) {
        expect(`${name}, sent's fault`, [answer, text].join(), [FAULT, report.text].join());
        return;
    }
    const [a, b] = report.text.split("\n").slice(-3, -1).map(line => Number(/ sent (\d+) /.exec(line)[1])), lines = text.split("\n").slice(0, -1);
    const addresses = ["10.0.0.1 10.0.0.2", "10.0.0.2 10.0.0.1"], shown = [];
    expect(`${name}, how many are sent`, [answer, lines.length].join(), [WELL, a + b].join());
    expect(`${name}, whose they are`, lines.every((line, at) => line.startsWith(`${addresses[at < a ? 0 : 1]} `)), true);
    if (a + b > MOST_SHOWN) {
        return;
    }
    for (let at = 0; at < a + b; at += 1) {
        shown.push(`${at + 1} ${module_calls.show(script, at < a ? "A" : "B", at < a ? at : at - a).text}\n`);
    }
    expect(`${name}, what they are`, module_calls.list(text).text, `${shown.join("")}total ${a + b} malformed 0\n`);
}

// The initial numbers of both sides.
function initials_of(script) {
    const text = script.toString("latin1"), initial = { A: 1000, B: 5000 };
    for (const [, side, number] of text.matchAll(/^config ([AB]) isn (\d+)$/gm)) {
        initial[side] = Number(number);
    }
    return initial;
}

// What the numbers and timers say after each event agrees with the state lines there, with the segment that the event emits, and with
// what the report says of a timer's line at that place.
function expect_numbers(name, module_calls, script, report) {
    const lines = script.toString("latin1").split("\n"), rows = lines.flatMap((line, at) => /^(#|config |tcpkit |$)/.test(line) ? [] : [at]);
    const steps = module_calls.steps(script).text.split("\n"), initial = initials_of(script), ahead = (from, to) => (to - from + 2 ** 32) % 2 ** 32;
    for (let row = 0; row <= rows.length; row += 1) {
        const { answer, text } = module_calls.numbers(script, row), found = text.split("\n").slice(0, -1).map(line => line.split(" "));
        expect(`${name}, numbers after event ${row}`, [answer, found.length].join(), [WELL, 2].join());
        const before = row === 0 ? lines.filter(line => /^(config |tcpkit )/.test(line)) : lines.slice(0, rows[row - 1] + 1);
        found.forEach((words, at) => {
            const side = "AB"[at], peer = "BA"[at], where = `${name}, ${side} after event ${row}`, state = steps[row === 0 ? at : 3 * row + at].split(" ");
            const told = Object.fromEntries(words.slice(2).flatMap((word, place, all) => place % 2 === 0 ? [[word, all[place + 1]]] : []));
            const count = word => Number(state[state.indexOf(word) + 1]);
            expect(`${where}: its name`, words.slice(0, 2).join(" "), `numbers ${side}`);
            // SYN and FIN take a number each, which no count of bytes has.
            if (told.una !== "-") {
                const una = ahead((initial[side] + count("released")) % 2 ** 32, Number(told.una)), flight = ahead(Number(told.una), Number(told.nxt));
                expect(`${where}: SND.UNA`, una <= 2, true);
                expect(`${where}: SND.NXT`, state[2] === "CLOSED" || flight - count("flight") <= 2 && flight >= count("flight"), true);
                expect(`${where}: the edge`, ahead(Number(told.una), Number(told.edge)), count("peer"));
            }
            if (told.next !== "-") {
                const next = ahead((initial[peer] + 1 + count("ordered")) % 2 ** 32, Number(told.next));
                expect(`${where}: RCV.NXT`, next <= 1, true);
                expect(`${where}: the limit`, ahead(Number(told.next), Number(told.limit)), count("window"));
            }
            for (const timer of ["retransmit", "reorder", "timewait"]) {
                const asked = module_calls.replay([...before, `timer ${side} ${timer}`, ""].join("\n")).text.split("\n").at(-4).split(" ").at(-1);
                expect(`${where}: ${timer}`, told[timer], asked);
            }
            const emitted = row === 0 ? null : /^\d+ emit ([AB]) \d+ flags (\S+) seq (\d+) ack (\d+) /.exec(steps[3 * row - 1]);
            if (emitted && emitted[1] === side && emitted[2].includes("ACK") && !emitted[2].includes("RST")) {
                expect(`${where}: what it acknowledges`, told.next, emitted[4]);
            }
        });
    }
    expect(`${name}, numbers past the last event`, module_calls.numbers(script, 1000000000).text, module_calls.numbers(script, rows.length).text);
}

// What the program's stored run (crates/tcpjudge) leaves out, as its rule has a finding before; and the lines of that log whose
// findings compare with what came, by the comments there.
const AGAIN = "line 40: an acknowledgement of 5, up to which not all came (RFC 9293, 3.4)\n", AGAINST_CAME = [26, 34, 36, 38, 40];
// A wrong checksum is a note where segments may be missing.
const UNJUDGED = "note: order, acknowledgements and blocks aren't judged, as segments may be missing\n";
const DAMAGED = 20, NOTE = `note: wrong checksums: 1, the first in line ${DAMAGED} (RFC 9293, 3.1)\n`;

// A log is judged as the program judges it, but each finding has its line.
function expect_judged(module_calls) {
    const log = fs.readFileSync(at("crates/tcpjudge/data/faults.log")), stored_run = fs.readFileSync(at("crates/tcpjudge/stdout"), "utf8");
    const all = stored_run.replace(/^segments/m, `${AGAIN}segments`), form = all.split("\n").filter(
        line => ![...AGAINST_CAME, DAMAGED].includes(Number(/^line (\d+)/.exec(line)?.[1]))).join("\n")
        .replace(/^segments (\d+) findings \d+/m, `${NOTE}${UNJUDGED}segments $1 findings 6`);
    const told = ({ answer, text, line }) => [answer, line, text].join(" ");
    expect("a complete log", told(module_calls.judge(log, true)), `${REFUSED} 0 ${all}`);
    expect("a log that isn't complete", told(module_calls.judge(log, false)), `${REFUSED} 0 ${form}`);
    expect("a log's bad line", told(module_calls.judge("# one\nwent 1.2.3.4 5.6.7.8 00\ncame 1.2.3.4 00\n", true)), `${FAULT} 3 `);
    expect("no log", told(module_calls.judge("", false)), `${REFUSED} 0 ${UNJUDGED}segments 0 findings 0\n`);
}

// Captures whose reports are worked out by hand (checks/judge/captures.py), and captures of three stacks that break no rule: the name says
// at which end each was taken.
function expect_reports(module_calls) {
    const folder = fs.mkdtempSync(path.join(os.tmpdir(), "captures-"));
    const { status, stderr } = spawnSync("python3", [at("checks/judge/captures.py"), "--cases", folder], { encoding: "utf8" });
    expect("captures.py", `${status}${stderr}`, "0");
    const names = fs.readdirSync(folder).filter(name => name.endsWith(".stdout")).map(name => name.slice(0, -".stdout".length));
    let count = 0;
    for (const name of names) {
        const [file, words, report] = ["", ".args", ".stdout"].map(ending => fs.readFileSync(path.join(folder, `${name}${ending}`)));
        const options = words.toString("utf8").split("\n"), place = options.indexOf("--at") < 0 ? "" : options[options.indexOf("--at") + 1];
        if (!options.includes("--color") && !options.includes("--complete")) {
            count += 1;
            expect(`the report of ${name}`, module_calls.capture(file, place, options.includes("--json")).text, report.toString("utf8"));
        }
    }
    fs.rmSync(folder, { recursive: true });
    expect("reports that are worked out by hand", count >= LEAST_REPORTS, true);
    for (const [name, place] of [["kernel-A", "10.7.0.1"], ["gVisor-B", "10.7.0.2"], ["plain-B", "10.7.0.2"]]) {
        const { answer, text } = module_calls.capture(fs.readFileSync(at("checks/judge/data", `${name}.pcap`)), place, false);
        expect(`${name}, taken at ${place}`, [answer, / (\S+): clean \(all rules\)/.exec(text)?.[1].startsWith(place)].join(), [WELL, true].join());
    }
}

// Captures are judged as the program judges them: the report of docs/JUDGE.md, and the stored statuses.
function expect_captures(module_calls) {
    const report = /```text\n(packets 23, connections 1\n.*?)```/s.exec(fs.readFileSync(at("docs/JUDGE.md"), "utf8"))[1];
    const { answer, text } = module_calls.capture(fs.readFileSync(at("checks/judge/data/kernel-A.pcap")), "10.7.0.1", false);
    expect("a capture's report", [answer, text].join(), [WELL, report].join());
    const answers = new Map([["0", WELL], ["1", REFUSED], ["2 tcpjudge: 46", BAD_CAPTURE], ["2 tcpjudge: 45", NOTHING_JUDGED], ["2 tcpjudge: 40", NO_ADDRESS]]);
    let count = 0;
    for (const line of fs.readFileSync(at("checks/program/capture_statuses.txt"), "utf8").trim().split("\n")) {
        const [, name, status] = /^(\S+) (\d(?: tcpjudge: \d+)?)/.exec(line), file = fs.readFileSync(at("checks/program/capture_statuses", name));
        const words = fs.readFileSync(at("checks/program/capture_statuses", `${name}.args`), "utf8").split("\n");
        if (words.includes("--complete") || name.endsWith("of-a-log")) {
            continue;
        }
        count += 1;
        const place = words.includes("--at") ? words[words.indexOf("--at") + 1] : "", found = module_calls.capture(file, place, words.includes("--json"));
        expect(`the capture ${name}`, found.answer, answers.get(status));
    }
    expect("captures with a status", count >= LEAST_CAPTURES, true);
    expect("a log is no capture", module_calls.capture(fs.readFileSync(at("crates/tcpjudge/data/faults.log")), "", false).answer, FAULT);
}

// A script that needs more memory than the module begins with is replayed in more.
function expect_long(module_calls) {
    const count = 200000, { answer, text } = module_calls.steps(long_script(count));
    expect("a long script's answer", answer, WELL);
    expect("its last event", text.split("\n").at(-4)?.split(" ")[0], String(count));
}

const module_calls = await calls(module);
const reports = stored();
const met = new Set();
let scripts = 0;
for (const file of fs.readdirSync(at("crates/test_scripts/data/cases")).sort()) {
    if (!file.endsWith(".script")) {
        continue;
    }
    scripts += 1;
    const script = fs.readFileSync(at("crates/test_scripts/data/cases", file));
    const report = reports.get(file);
    const { answer, text } = module_calls.replay(script);
    expect(`${file}, report`, text, report.text);
    expect(`${file}, answer`, answer, report.answer);
    expect_steps(file, module_calls, script, report);
    expect_shown(file, module_calls, script, report);
    expect_sent(file, module_calls, script, report);
    if (report.answer === FAULT) {
        expect(`${file}, numbers' fault`, module_calls.numbers(script, 0).text, report.text);
    } else if (report.text.length < LONG) {
        expect_numbers(file, module_calls, script, report);
    }
    if (report.answer !== FAULT && report.text.length < LONG) {
        expect_rules(file, module_calls, script, report).forEach(rule => met.add(rule));
    }
}
expect("rules that the cases meet", met.size >= LEAST_MET, true);
const first = module_calls.replay(fs.readFileSync(at("crates/tcpkit/data/first-run.script")));
expect("the first run", first.text, fs.readFileSync(at("crates/tcpkit/stdout"), "utf8"));
expect_judged(module_calls);
expect_reports(module_calls);
expect_captures(module_calls);
expect_long(module_calls);
expect("what is imported", WebAssembly.Module.imports(module).length, 0);
console.log(`${scripts} scripts: ${passed} comparisons passed, ${failed} failed`);
process.exit(failed === 0 ? 0 : 1);
