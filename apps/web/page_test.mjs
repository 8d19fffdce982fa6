// Tests the built page in a headless browser: node apps/web/page_test.mjs PAGE BROWSER [--draw], BROWSER being the command of
// Chromium or, with node's --experimental-websocket, of Firefox. With --draw the pictures of docs/ are saved anew; else they are
// compared.
import fs from "node:fs";
import path from "node:path";
import { pathToFileURL } from "node:url";
import { browser } from "./browser.mjs";
import { at, cases, changes, is_text, long_script, phases, refusals, wanted } from "./cases.mjs";
import { PHOTOGRAPH, PICTURES, setup } from "./page_tools.mjs";
import { handling } from "./page_handling.mjs";
import { looks } from "./page_looks.mjs";
import { building } from "./page_building.mjs";
import { captures } from "./page_captures.mjs";
import { long_scripts } from "./page_long.mjs";

const [page, command, draw] = process.argv.slice(2);
const address = pathToFileURL(path.resolve(page)).href;
// A row of the picture is no higher than so many pixels. A quiet machine takes 60 ms for 10,000 events; one whose processors others use, or a slower one, may take four times as long.
const ROW = 60, TEN_THOUSAND = 10000, MOST_MS = 250, MOST_FRAME = 50, MOST_NODES = 3000;
let passed = 0, failed = 0;

function expect(name, found, asked) {
    if (JSON.stringify(found) === JSON.stringify(asked)) {
        passed += 1;
        return;
    }
    failed += 1;
    const [wanted_text, found_text] = [asked, found].map(one => JSON.stringify(one)?.slice(0, 400));
    console.log(`${name}: wanted ${wanted_text}, found ${found_text}`);
}

// The bytes of every script give the program's report; and so does every text in the editor.
async function reports(tab, tools, all) {
    const told = await tools.run(scripts => scripts.map(script => replay_bytes(
        Uint8Array.from(atob(script), letter => letter.charCodeAt(0)))), all.map(one => one.bytes.toString("base64")));
    all.forEach((one, number) => {
        expect(`${one.name}: report`, told[number].text, one.report);
        expect(`${one.name}: answer`, told[number].answer, one.answer);
    });
    await tools.run(() => { document.getElementById("report").open = true; });
    for (const one of all.filter(({ bytes }) => is_text(bytes))) {
        await tools.edit(one.bytes.toString("utf8"));
        const shown = await tools.shown();
        if (one.answer === 2) {
            const line = /41 line (\d+)/.exec(one.report)?.[1];
            expect(`${one.name}: a fault is reported`, [shown.is_fault, shown.cause !== "", shown.cure !== ""],
                [true, true, true]);
            expect(`${one.name}: what the program writes`, shown.report, one.report);
            expect(`${one.name}: its line`, line === undefined || shown.cause.startsWith(`Line ${line}: `), true);
        } else {
            expect(`${one.name}: edited`, [shown.is_fault, shown.report], [false, one.report]);
            // Only the rows that are seen are drawn.
            const height = ROW * one.report.split("\n").length;
            await tab.size(1600, Math.max(6000, height));
            await pictures(tools, one);
        }
    }
}

// What is drawn is what the report says, in a window that is high enough for all rows.
async function pictures(tools, { name, report }) {
    const asked = wanted(report), found = await tools.drawn();
    for (const part of ["arrows", "crosses", "damaged", "dropped", "again", "repeated", "resent", "blocks", "marks"]) {
        expect(`${name}: ${part}`, found[part], asked[part]);
    }
    expect(`${name}: phases`, changes(report).filter(change => !found.phases.includes(change)), []);
    expect(`${name}: labels`, found.labels.sort(), asked.labels.sort());
    const events = report.split("\n").slice(0, -3), ends = report.split("\n").slice(-3, -1);
    await tools.go(events.length);
    expect(`${name}: ends`, await tools.ends(), ends);
    // The phase after a call or an arrival, at its lifeline's head.
    for (const { row, side, phase } of phases(report).filter(told => told.row % 3 === 1)) {
        await tools.go(row);
        expect(`${name}: phase after event ${row}`, (await tools.phases())[side], phase);
    }
}

// Each refusal that a stored report has is shown with the cause and cure of docs/FORMATS.md.
async function refused(tools, all) {
    const table = refusals(), seen = new Set();
    for (const one of all.filter(({ bytes, answer }) => answer === 1 && is_text(bytes))) {
        for (const [row, line] of one.report.split("\n").entries()) {
            const number = /^\d+ (?!repeat).* refused (\d+)$/.exec(line)?.[1];
            if (number && !seen.has(number)) {
                seen.add(number);
                await tools.edit(one.bytes.toString("utf8"));
                await tools.go(row + 1);
                const { sentence } = await tools.shown(), { cause, cure } = table.get(number);
                expect(`refusal ${number}`, [sentence.includes(cause), sentence.includes(cure)], [true, true]);
            }
        }
    }
    expect("all refusals", [...seen].sort(), [...table.keys()].filter(number => /^[13]/.test(number)).sort());
}

async function ten_thousand(tab, tools) {
    const script = long_script(TEN_THOUSAND), times = [];
    for (let turn = 0; turn < 4; turn += 1) {
        times.push(await tools.timed(script + "#\n".repeat(turn)));
    }
    const { place } = await tools.shown();
    expect("10,000 events", place.endsWith(` of ${TEN_THOUSAND}`), true);
    const told = times.map(({ time, spent }) => `${Math.round(time)} (${Math.round(spent)})`).join(", ");
    console.log(`page: 10,000 events in ${told} ms (of a processor's time, where it is known), the first with a cold module`);
    if (tab.spent) {
        expect(`10,000 events within ${MOST_MS} ms`, Math.min(...times.map(({ spent }) => spent)) <= MOST_MS, true);
    }
    const { median, slowest, nodes, rows } = await tools.scrolled();
    const [usual, longest] = [median, slowest].map(time => Math.round(time));
    console.log(`page: scrolled through, a frame in ${usual} ms, the slowest in ${longest}, ${nodes} nodes`);
    expect("what is drawn", nodes <= MOST_NODES, true);
    if (tab.spent) {
        expect("a scroll without a stall", median <= MOST_FRAME, true);
    }
    expect("the rows that are seen are drawn", rows, true);
}

// The stored pictures are what the page saves.
async function stored(tools) {
    for (const [name, script] of PICTURES) {
        await tools.edit(fs.readFileSync(at(script), "utf8"));
        const saved = await tools.saved();
        if (draw === "--draw") {
            fs.writeFileSync(at(name), saved);
        }
        expect(`${name} is what the page saves of ${script}`, fs.readFileSync(at(name), "utf8") === saved, true);
        expect(`${name}: well-formed`, await tools.run(text => new DOMParser().parseFromString(text, "image/svg+xml")
            .querySelector("parsererror") === null, saved), true);
    }
}

// The page as README shows it: an example with a loss, at the step where blocks tell A what B holds, and the loss still in sight. Its letters are
// those of the machine that draws it, so that it isn't compared.
async function photographed(tab, tools) {
    const { file, script, width, height, step } = PHOTOGRAPH;
    if (draw === "--draw") {
        await tab.size(width, height);
        await tab.prefer("prefers-color-scheme", "light");
        await tools.edit(fs.readFileSync(at(script), "utf8"));
        await tools.go(step);
        await tools.run(async () => {
            document.activeElement.blur();
            document.getElementById("said").textContent = "";
            const box = document.getElementById("ladder"), row = document.querySelector("#picture .band").getBoundingClientRect();
            box.scrollTop += row.bottom - box.getBoundingClientRect().bottom + 4;
            await new Promise(done => requestAnimationFrame(() => setTimeout(done, 200)));
        });
        await tab.picture(at(file));
        await tab.size(1600, 6000);
    }
    const bytes = fs.readFileSync(at(file));
    expect(`${file}: a picture of this size`, [bytes.toString("latin1", 1, 4), bytes.readUInt32BE(16), bytes.readUInt32BE(20)], ["PNG", width, height]);
}

const tab = await browser(command);
try {
    await tab.size(1600, 6000);
    await tab.open(address);
    const tools = await setup(tab), all = cases();
    await reports(tab, tools, all);
    await tab.size(1600, 6000);
    await refused(tools, all);
    await stored(tools);
    await photographed(tab, tools);
    await looks(tab, tools, expect, address);
    await building(tab, tools, expect);
    await captures(tab, expect);
    await handling(tab, tools, expect, address);
    await tab.size(1600, 1000);
    await ten_thousand(tab, tools);
    await long_scripts(tab, tools, expect);
    expect("no error in the page", tab.errors, []);
} catch (error) {
    failed += 1;
    console.log(error.stack);
} finally {
    await tab.close();
}
console.log(failed === 0 ? `page, ${command}: ${passed} passed` : `page, ${command}: ${failed} FAILED, ${passed} passed`);
process.exit(failed === 0 ? 0 : 1);
