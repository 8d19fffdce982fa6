// Tests how things are shown: arrows that differ without colour, bars, sentences, comments, and a browser that can't.
import fs from "node:fs";
import { at } from "./cases.mjs";

const BLOCKS = fs.readFileSync(at("apps/web/examples/2-loss-and-blocks.script"), "utf8");
const FIRST = fs.readFileSync(at("crates/tcpkit/data/first-run.script"), "utf8");
const OPENING = "listen B\nconnect A\nemit A\ndeliver A 0\nemit B\ndeliver B 0\nemit A\ndeliver A 1\n";

// Dashes, heads and strokes of each kind of arrow: no two kinds have the same.
async function arrows(tools, expect) {
    await tools.edit(`tcpkit 2\n${OPENING}send A 61\nemit A\ndeliver A 2\ndeliver A 2\ndamage A 2 20 1\n` +
        "send B 61\nemit B\nrepeat 3 send A 61\nrepeat 1 emit A\nrepeat 1 deliver A 3\n");
    const looks = await tools.run(
        () => Object.fromEntries([...document.querySelectorAll("#picture .arrow")].map(arrow => {
        const kind = arrow.classList[1], head = arrow.querySelector(".head");
        return [kind, [getComputedStyle(arrow.querySelector(".shaft")).strokeDasharray, head?.classList[1] ?? "cross",
            arrow.querySelectorAll(".shaft").length].join(" ")];
    })));
    expect("kinds of arrows", ["arrived", "damaged", "dropped", "lost", "turns"].filter(kind => !(kind in looks)), []);
    expect("kinds that look alike", Object.keys(looks).length - new Set(Object.values(looks)).size, 0);
    const again = await tools.run(() => [...document.styleSheets].flatMap(sheet => [...sheet.cssRules]).find(
        rule => rule.selectorText === ".again .shaft").style.strokeDasharray);
    expect("what arrives again looks different", Object.values(looks).some(look => look.startsWith(`${again} `)),
        false);
}

// The bars after B's blocks arrived: where they are follows from the report.
async function bars(tools, expect) {
    await tools.edit(BLOCKS);
    await tools.run(() => { document.getElementById("report").open = true; });
    const { report } = await tools.shown();
    const [row, ack, left, right] = /^(\d+) emit B \d+ .* ack (\d+) .* sack (\d+)-(\d+)$/m.exec(report).slice(1)
        .map(Number);
    const accepted = [...report.matchAll(/send A took (\d+)/g)].reduce((sum, found) => sum + Number(found[1]), 0);
    const queued = accepted - (ack - 1001), marked = [left - ack, right - ack];
    await tools.go(row + 1);
    const found = await tools.run(() => Object.fromEntries(["A", "B"].flatMap(side => [...document.querySelectorAll(
        `#end-${side} figure`)].map((figure, number) => [`${side}${number}`, {
        told: figure.querySelector("b").textContent,
        span: parseInt(figure.querySelector(".scale span:last-child").textContent),
        pieces: Object.fromEntries([...figure.querySelectorAll(".bar span")].map(piece => [piece.className, [
            parseFloat(piece.style.left), piece.getBoundingClientRect().width / piece.parentElement.clientWidth * 100,
        ]])),
    }]))));
    const near = (piece, from, to, span) => piece !== undefined && Math.abs(piece[0] - 100 * from / span) < 0.1 &&
        Math.abs(piece[1] - 100 * (to - from) / span) < 1;
    expect("A's queue in words", found.A0.told, `${queued} queued, ${queued} in flight, marked ${marked.join("–")}`);
    expect("A's queue", [near(found.A0.pieces.flight, 0, queued, found.A0.span),
        near(found.A0.pieces.marked, ...marked, found.A0.span)], [true, true]);
    expect("B's buffer in words", found.B1.told, `0 unread, window 65536, held ${marked.join("–")}`);
    expect("B's buffer", [near(found.B1.pieces.held, ...marked, found.B1.span), "unread" in found.B1.pieces],
        [true, false]);
    await spaces(tools, expect, { ack, right });
    expect("the comment", await tools.run(() => document.getElementById("comment").textContent),
        "A marks these bytes in its queue: they needn't be sent again.");
    await tools.go(row - 2);
    const unread = await tools.run(() => document.querySelector("#end-B figure:nth-of-type(2) b").textContent);
    expect("what is unread", unread, `4 unread, window 65532, held ${marked.join("–")}`);
}

// The sequence spaces of both ends after B's blocks arrived at A, by B's segment that has them: its acknowledgement is A's SND.UNA and
// B's RCV.NXT, the end of its block is A's SND.NXT. And the timers that run.
async function spaces(tools, expect, { ack, right }) {
    const found = await tools.run(() => Object.fromEntries(["A", "B"].map(side => [side, Object.fromEntries([...document.querySelectorAll(
        `#end-${side} .edge`)].map(part => [part.dataset.edge, part.querySelector("b").textContent]))])));
    const of_a = [["SND.UNA", ack], ["SND.NXT", right], ["SND.UNA + SND.WND", ack + 65535], ["RCV.NXT", 5001], ["RCV.NXT + RCV.WND", 5001 + 65536]];
    const of_b = [["SND.UNA", 5001], ["SND.NXT", 5001], ["SND.UNA + SND.WND", 5001 + 65535], ["RCV.NXT", ack], ["RCV.NXT + RCV.WND", ack + 65536]];
    const words = pairs => Object.fromEntries(pairs.map(([edge, number]) => [edge, String(number)]));
    expect("the spaces of both ends", found, { A: words(of_a), B: words(of_b) });
    expect("the timers of both ends", await running(tools), { A: ["retransmit", "reorder"], B: [] });
}

// Which timers run, by side.
function running(tools) {
    return tools.run(() => Object.fromEntries(["A", "B"].map(side => [side, [...document.querySelectorAll(
        `#end-${side} .timer.runs`)].map(part => part.dataset.timer)])));
}

// A timer runs where its expiry at the next event has an effect: by the report of the script up to there and one line more.
async function timers(tools, expect) {
    const texts = ["1-opening-and-close", "2-loss-and-blocks", "3-shut-window"].map(name => `apps/web/examples/${name}.script`);
    const names = ["retransmit", "reorder", "timewait"], met = new Set();
    for (const text of texts.map(name => fs.readFileSync(at(name), "utf8"))) {
        await tools.edit(text);
        const lines = text.split("\n"), rows = lines.flatMap((line, number) => /^(#|config |$)/.test(line) ? [] : [number]);
        for (let row = 0; row <= rows.length; row += 1) {
            const before = row === 0 ? lines.filter(line => line.startsWith("config ")) : lines.slice(0, rows[row - 1] + 1);
            const asked = await tools.run((script, all) => Object.fromEntries(["A", "B"].map(side => [side, all.filter(name => {
                const { text: report } = replay_bytes(new TextEncoder().encode(`${script}\ntimer ${side} ${name}\n`));
                return report.split("\n").at(-4).endsWith(" yes");
            })])), before.join("\n"), names);
            await tools.go(row);
            expect(`timers after event ${row} of ${lines[0]}`, await running(tools), asked);
            [...asked.A, ...asked.B].forEach(name => met.add(name));
        }
    }
    expect("timers that ran", [...met].sort(), [...names].sort());
}

async function sentences(tools, expect) {
    await tools.edit(FIRST);
    for (const [row, ...words] of [
        [0, "Before the first event"], [1, "B's user waits"], [2, "A's user opens a connection to B"],
        [3, "A emits segment 0: SYN", "no text"], [4, "A's segment 0 arrives at B", "B processes it"],
        [9, "A's user sends", "3 bytes"], [11, "byte 20 changed", "malformed (BadChecksum)"],
        [12, "nothing for B's user"], [13, "A's retransmit timer expires"],
        [16, "segment 2 arrives at B again", "B drops it"],
        [19, "B's user receives 3 bytes", "abc"], [20, "A has nothing to emit"],
    ]) {
        await tools.go(row);
        const { sentence } = await tools.shown();
        expect(`sentence ${row}: ${sentence}`, words.map(word => sentence.includes(word)), words.map(() => true));
    }
    for (const [row, ...words] of [
        [3], [4, "“peer-opens”: a SYN in LISTEN opens the connection (RFC 9293, 3.10.7.2, third)."],
        [6, "“peer-accepts”", "3.10.7.3, fourth", "The peer's window is 65535 now."], [11], [15, "“taken”: all of it is taken", "Its text comes in order."],
        [16, "“unacceptable”: it lies outside the window", "3.10.7.4, first"],
        [18, "“taken”", "It acknowledges 3 bytes.", "The peer's window is 65533 now."], [20],
    ]) {
        await tools.go(row);
        const rule = await tools.run(() => document.getElementById("rule").textContent);
        expect(`rule ${row}: ${rule}`, [rule === "", ...words.map(word => rule.includes(word))],
            [words.length === 0, ...words.map(() => true)]);
    }
    await tools.edit(fs.readFileSync(at("apps/web/examples/2-loss-and-blocks.script"), "utf8"));
    const rules = await tools.run(() => {
        const found = [];
        for (let row = 1; row <= Number(document.getElementById("step").max); row += 1) {
            document.getElementById("step").value = row;
            document.getElementById("step").dispatchEvent(new Event("input"));
            found.push(document.getElementById("rule").textContent);
        }
        return found;
    });
    const count = words => rules.filter(rule => rule.includes(words)).length;
    // Segments 4 and 5 come early, their blocks mark 11 bytes, and segment 6 closes the gap before them.
    expect("what comes of the blocks", ["Its text comes early and is held.", "Its blocks report 11 bytes as held.",
        "Its text comes in order, and 11 bytes that were held follow it.", "It acknowledges 15 bytes."].map(count), [2, 1, 1, 1]);
}

// Arrows whose ends are both out of sight are drawn through.
async function passing(tab, tools, expect) {
    await tab.size(1600, 1000);
    await tools.edit(OPENING + "send A 61\nemit A\n" + "receive B 1\n".repeat(300) + "deliver A 2\n");
    await tools.run(() => { document.getElementById("ladder").scrollTop = 150 * 34; });
    await tab.until(() => document.querySelectorAll("#picture .passing").length > 0);
    const found = await tools.run(() => [document.querySelectorAll("#picture .passing").length,
        document.querySelectorAll("#picture .arrow").length,
        document.querySelectorAll("#picture .event").length < 100]);
    expect("an arrow that passes", found, [1, 0, true]);
    await tab.size(1600, 6000);
}

// Where the browser has no WebAssembly the page says so, and shows ladders that were drawn before.
async function unable(tab, tools, expect, address) {
    // An example, so that the page doesn't ask before it goes.
    await tools.run(() => {
        const field = document.getElementById("example");
        field.value = "0";
        field.dispatchEvent(new Event("change"));
    });
    const remove = await tab.before_page(
        "WebAssembly.compile = () => Promise.reject(new WebAssembly.CompileError('none'));");
    await tab.leave();
    await tab.navigate(address);
    await tab.until(() => document.getElementById("unsupported")?.hidden === false);
    expect("a browser that can't", await tools.run(() => [
        /no\s+WebAssembly/.test(document.getElementById("unsupported").innerText),
        document.querySelectorAll("#finished svg.ladder").length, document.getElementById("main").hidden,
    ]), [true, 3, true]);
    await remove();
    await tab.open(address);
    expect("one that can", await tools.run(() => document.getElementById("unsupported").hidden), true);
}

export async function looks(tab, tools, expect, address) {
    await arrows(tools, expect);
    await bars(tools, expect);
    await sentences(tools, expect);
    await timers(tools, expect);
    await passing(tab, tools, expect);
    await unable(tab, tools, expect, address);
}
