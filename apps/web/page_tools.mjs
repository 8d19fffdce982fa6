// What the tests do in the page, and read from it.
import fs from "node:fs";
import path from "node:path";

// The pictures that are stored, and the scripts that they show.
export const PICTURES = [
    ["docs/first-run.svg", "crates/tcpkit/data/first-run.script"],
    ["docs/loss-and-blocks.svg", "apps/web/examples/2-loss-and-blocks.script"],
    ["docs/shut-window.svg", "apps/web/examples/3-shut-window.script"],
    ["docs/closing-at-once.svg", "apps/web/examples/5-closing-at-once.script"],
];

// The page itself.
export const PHOTOGRAPH = { file: "docs/page.png", script: "apps/web/examples/2-loss-and-blocks.script", width: 1400, height: 960, step: 22 };

export async function setup(tab) {
    const folder = path.join(tab.folder, "saved");
    fs.mkdirSync(folder, { recursive: true });
    await tab.downloads(folder);

    const run = tab.run;
    return {
        run,
        // The text of the editor, as if it were typed.
        edit: script => run(text => {
            const field = document.getElementById("script");
            field.value = text;
            field.dispatchEvent(new Event("input"));
        }, script),
        go: row => run(step => {
            const slider = document.getElementById("step");
            slider.value = step;
            slider.dispatchEvent(new Event("input"));
        }, row),
        shown: () => run(() => {
            const read = id => document.getElementById(id).textContent;
            const callout = document.getElementById("callout");
            return {
                is_fault: document.getElementById("script").getAttribute("aria-invalid") === "true",
                cause: callout.firstChild?.textContent ?? "",
                cure: callout.lastChild?.textContent.replace(/^ Cure: /, "") ?? "",
                report: document.querySelector("#report pre").textContent,
                place: read("place"), sentence: read("sentence"),
                listing: read("listing"), told: read("segment-told"), letters: read("segment-text"), said: read("said"),
            };
        }),
        // What is in the picture.
        drawn: () => run(() => {
            const picture = document.getElementById("picture"), count = kind => picture.querySelectorAll(kind).length;
            const labels = [...picture.querySelectorAll(".label")];
            return {
                arrows: count(".arrow:not(.lost)"), crosses: count(".arrow.lost > .cross"),
                damaged: count(".arrow.damaged > .jag"), dropped: count(".arrow.dropped"),
                again: count(".arrow.again"), repeated: count(".arrow.repeated"), marks: count(".mark"),
                resent: count(".resend"),
                phases: [...picture.querySelectorAll(".event .phase")].map(
                    phase => `${phase.closest(".event").dataset.row} ${phase.textContent}`),
                blocks: labels.reduce((sum, label) => sum + Number(label.dataset.blocks), 0),
                labels: labels.filter(label => label.textContent.includes("seq "))
                    .map(label => `${label.dataset.side} ` +
                    [...label.querySelectorAll("text")].map(text => text.textContent).join(" ")),
            };
        }),
        // The ends as the report's last lines have them.
        ends: () => run(() => ["A", "B"].map(side => {
            const end = document.getElementById(`end-${side}`);
            const counts = Object.fromEntries([...end.querySelectorAll("dl div")].map(
                pair => [pair.firstChild.textContent, pair.lastChild.textContent]));
            const words = ["accepted", "delivered", "released", "ordered", "sent", "ended"]
                .map(name => `${name} ${counts[name]}`);
            const head = [".phase", "small"].map(part => end.querySelector(part).textContent);
            return ["end", side, ...head, ...words].join(" ");
        })),
        phases: () => run(() => {
            const [a, b] = [...document.querySelectorAll("#heads .phase")].map(phase => phase.textContent);
            return { A: a, B: b };
        }),
        // How long an edit takes until its picture is on the screen, and how much processor time, in milliseconds.
        async timed(script) {
            await run(async text => {
                document.getElementById("report").open = false;
                document.getElementById("script").value = text;
                await new Promise(done => requestAnimationFrame(() => setTimeout(done, 0)));
            }, script);
            const before = await tab.spent?.();
            const time = await run(async () => {
                const start = performance.now();
                document.getElementById("script").dispatchEvent(new Event("input"));
                await new Promise(done => requestAnimationFrame(() => setTimeout(done, 0)));
                return performance.now() - start;
            });
            // Where the processor's time isn't told, the time is taken for it.
            return { time, spent: tab.spent ? await tab.spent() - before : time };
        },
        scrolled: () => run(async () => {
            const box = document.getElementById("ladder"), picture = document.getElementById("picture");
            let nodes = 0, rows = true;
            const times = [];
            for (let part = 0; part <= 60; part += 1) {
                box.scrollTop = box.scrollHeight * part / 60;
                const start = performance.now();
                await new Promise(done => requestAnimationFrame(() => setTimeout(done, 0)));
                times.push(performance.now() - start);
                nodes = Math.max(nodes, picture.querySelectorAll("*").length);
                const seen = box.getBoundingClientRect(), drawn = picture.getBoundingClientRect();
                const canvas = document.getElementById("canvas").getBoundingClientRect();
                rows &&= drawn.top <= seen.top + 44 && drawn.bottom >= Math.min(seen.bottom, canvas.bottom) - 1;
            }
            times.sort((one, two) => one - two);
            return { median: times[times.length >> 1], slowest: times.at(-1), nodes, rows };
        }),
        // What the buttons save.
        saved: async () => (await saved("ladder.svg", "save")).toString("utf8"),
        saved_script: async () => (await saved("tcp.script", "save-script")).toString("utf8"),
        // At this side, or of both ends.
        async saved_capture(where) {
            await run(value => { document.getElementById("capture-at").value = value; }, where);
            return saved("tcp.pcap", "save-capture");
        },
    };

    async function saved(name, button) {
        const file = path.join(folder, name);
        fs.rmSync(file, { force: true });
        await run(id => document.getElementById(id).click(), button);
        const end = Date.now() + 10000;
        while (!fs.existsSync(file) || fs.statSync(file).size === 0) {
            if (Date.now() > end) {
                throw new Error("nothing was saved");
            }
            await new Promise(resolve => setTimeout(resolve, 20));
        }
        return fs.readFileSync(file);
    }
}
