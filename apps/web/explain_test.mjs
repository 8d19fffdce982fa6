// Tests explain.mjs as a command: node apps/web/explain_test.mjs MODULE.
import { spawnSync } from "node:child_process";
import fs from "node:fs";
import path from "node:path";
import { fileURLToPath } from "node:url";
import { at, cases, is_text } from "./cases.mjs";

const EXPLAIN = path.join(path.dirname(fileURLToPath(import.meta.url)), "explain.mjs"), module = process.argv[2];
const FIRST = at("crates/tcpkit/data/first-run.script");
let passed = 0, failed = 0;

function expect(name, found, wanted) {
    if (JSON.stringify(found) === JSON.stringify(wanted)) {
        passed += 1;
        return;
    }
    failed += 1;
    console.log(`${name}: wanted ${JSON.stringify(wanted)}, found ${JSON.stringify(found)?.slice(0, 300)}`);
}

function explain(words, input = "") {
    const { status, stdout, stderr } = spawnSync("node", [EXPLAIN, "--module", module, ...words], { input, encoding: "utf8" });
    return { status, lines: stdout.split("\n").slice(0, -1), error: stderr };
}

function has(lines, ...parts) {
    return parts.map(part => lines.some(line => line.includes(part)));
}

// Scripts of the cases, all without a fault and some with one: a sentence for each event, of the report too, or the cause and cure
// of the fault, at the line that the program names.
const texts = cases().filter(one => is_text(one.bytes)), faulty = texts.filter(one => one.answer === 2);
for (const { name, bytes, answer, report } of [...texts.filter(one => one.answer !== 2), ...faulty.slice(0, 30)]) {
    const { status, lines, error } = explain(["-"], bytes), ladder = explain(["--ladder", "-"], bytes).lines;
    if (answer === 2) {
        const line = /41 line (\d+)/.exec(report)?.[1];
        expect(`${name}: a fault`, [status, lines.length, / Cure: /.test(lines[0])], [1, 1, true]);
        expect(`${name}: its line`, line === undefined || lines[0].startsWith(`Line ${line}: `), true);
    } else {
        const events = report.split("\n").length - 3;
        expect(`${name}: its sentences`, [status, lines.length, error], [0, events, ""]);
        expect(`${name}: its ladder`, ladder.length, events === 0 ? 0 : events + 1);
        const told = explain(["-"], report);
        expect(`${name}: its report`, [told.status, told.lines], [0, lines.map(line => line.replace(/ Rule “.*$/, ""))]);
    }
}

const first = explain([FIRST]).lines;
expect("the first run", has(first, "3. A emits segment 0: SYN", "Rule “peer-opens”", "11. A's segment 2 arrives at B with its byte 20 changed",
    "16. A's segment 2 arrives at B again. B drops it. Rule “unacceptable”", "19. B's user receives 3 bytes (“abc”)"),
[true, true, true, true, true]);
const drawn = explain(["--ladder", FIRST]).lines;
expect("its ladder", has(drawn, "| listen LISTEN", "| 0 SYN seq 1000 ack 0 len 0 -", "2 damaged ->| malformed 3", "2 ->| again dropped"),
    [true, true, true, true]);
const ladder_arrows = drawn.slice(1).map(line => line.indexOf("|"));
expect("its first line is straight", new Set(ladder_arrows).size, 1);
expect("a fault by its word", explain(["-"], "listen B\nsend A 616\n"), { status: 1, lines: [
    "Line 2: “616” has an odd number of digits. Cure: send SIDE HEX."], error: "" });
const without = spawnSync("node", [EXPLAIN, "--module", "/no/such", "--ladder", "-"], { input: fs.readFileSync(at("crates/tcpkit/stdout")), encoding: "utf8" });
expect("a report needs no module", [without.status, without.stdout], [0, `${drawn.join("\n")}\n`]);
expect("help", [explain(["--help"]).status, has(explain(["--help"]).lines, "Usage: node apps/web/explain.mjs")], [0, [true]]);
for (const [words, part] of [[[], "a FILE is missing"], [["--wide", "-"], "--wide: no such word"], [["/no/such"], "/no/such: no such file"],
    [["-", "-"], "-: no such word"]]) {
    const { status, lines, error } = explain(words);
    expect(`explain ${words.join(" ")}`, [status, lines, error.includes(part), error.trim().split("\n").length], [2, [], true, 1]);
}
expect("no module", spawnSync("node", [EXPLAIN, "--module", "/no/such", FIRST]).status, 2);
console.log(`explain: ${passed} passed, ${failed} failed`);
process.exit(failed === 0 ? 0 : 1);
