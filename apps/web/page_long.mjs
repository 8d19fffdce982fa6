// Tests long scripts: they are replayed apart from the page, once typing rests, and in as much memory as they need.
import { long_script } from "./cases.mjs";

const MANY = 100000, MOST = 300000;

const shown = () => {
    const text = id => document.getElementById(id).textContent;
    return { place: text("place"), is_waiting: !document.getElementById("waiting").hidden,
        fault: document.getElementById("callout").hidden ? "" : text("callout"), sentence: text("sentence"),
        is_faulty: document.getElementById("script").getAttribute("aria-invalid") === "true" };
};

// What the page asks its workers for is noted.
const note_calls = () => {
    const post = Worker.prototype.postMessage;
    globalThis.noted = [];
    Worker.prototype.postMessage = function (message, ...rest) {
        noted.push(message.call ?? message.kind);
        return post.call(this, message, ...rest);
    };
};

// A script as the page is asked to show it, while the page goes on with the run before it.
async function replayed(tab, tools, expect) {
    const script = long_script(MANY);
    await tools.edit("listen B\nconnect A\n");
    await tools.go(1);
    await tools.run(note_calls);
    // Five letters without a pause are one replay; and the page's own steps go on meanwhile.
    const before = await tools.run(text => {
        const field = document.getElementById("script"), read = id => document.getElementById(id).textContent;
        for (let count = 1; count <= 5; count += 1) {
            field.value = `${text}${"#".repeat(count)}`;
            field.dispatchEvent(new Event("input"));
        }
        document.getElementById("next").click();
        return [!document.getElementById("waiting").hidden, document.getElementById("save").disabled, read("place"), read("sentence")];
    }, script);
    expect("a long script is waited for", before, [true, true, "2 of 2", "A's user opens a connection to B."]);
    await tab.until(most => document.getElementById("place").textContent.endsWith(` of ${most}`), MANY);
    const after = await tools.run(shown);
    // Who typed behind the last event stays behind it.
    expect("and shown", [after.place, after.is_waiting, after.is_faulty], [`${MANY} of ${MANY}`, false, false]);
    expect("replayed once", (await tools.run(() => noted)).filter(call => call === "steps").length, 1);
    // What is shown of an event of it.
    await tools.go(MANY);
    await tab.until(() => document.querySelectorAll("#end-A .edge").length > 0 && document.getElementById("listing").textContent !== "");
    const last = script.trimEnd().split("\n").at(-1).split(" ");
    expect("its last event", (await tools.run(shown)).sentence.startsWith(last[0] === "emit" ? `${last[1]} emits` : `${last[1]}'s`), true);
    const listed = await tools.run(() => document.getElementById("listing").textContent);
    expect("its segment", /^\d+ > \d+ seq \d+ ack \d+ /.test(listed), true);
    // A fault is told of it, too, and a short script isn't waited for.
    await tools.edit(`${script}conect A\n`);
    await tab.until(() => !document.getElementById("callout").hidden);
    expect("the fault of a long script", (await tools.run(shown)).fault.startsWith(`Line ${MANY + 1}: no line begins with “conect”`), true);
    await tools.edit("listen B\n");
    expect("a short one again", (await tools.run(shown)).place, "1 of 1");
}

// What is too long for the picture or for the memory says so, and what to do.
async function refused(tab, tools, expect) {
    const told = async script => {
        await tools.edit(script);
        await tab.until(() => !document.getElementById("callout").hidden);
        return (await tools.run(shown)).fault;
    };
    const cure = " Cure: a shorter script here; tcpkit replay writes the report of a longer one.";
    expect("too many events", await told("receive B 1\n".repeat(MOST + 1)),
        `the script has ${(MOST + 1).toLocaleString("en")} events, and the ladder has room for ${MOST.toLocaleString("en")}.${cure}`);
    await tools.edit("listen B\n");
    await tools.run(() => {
        const program = document.getElementById("replayer");
        globalThis.whole_program = program.textContent;
        program.textContent = `const instantiate = WebAssembly.instantiate;
            WebAssembly.instantiate = async (...words) => {
                const { exports } = await instantiate(...words), { memory } = exports;
                const full = { get buffer() { return memory.buffer; }, grow() { throw new RangeError("none is left"); } };
                // Long enough to be stopped meanwhile.
                const tcp_web_steps = () => {
                    for (const end = Date.now() + 2000; Date.now() < end;);
                    return 3;
                };
                return { exports: { ...exports, memory: full, tcp_web_steps } };
            };
            ${program.textContent}`;
    });
    // A replay that is stopped ends its worker, so that the next one begins another, of this program.
    await tools.run(() => { noted.length = 0; });
    await tools.edit(long_script(MANY));
    await tab.until(() => noted.includes("steps"));
    await tools.edit("listen B\n");
    expect("no memory", await told(`${long_script(MANY)}#`), `the browser gives this page less memory than the states after all events need.${cure}`);
    await tools.run(() => {
        document.getElementById("replayer").textContent = "throw new Error('none');";
        noted.length = 0;
    });
    await tools.edit(long_script(MANY));
    await tab.until(() => noted.includes("steps"));
    await tools.edit("listen B\n");
    await tools.edit(long_script(30000));
    await tab.until(() => document.getElementById("place").textContent.endsWith(" of 30000"));
    expect("without a worker it is replayed all the same", (await tools.run(shown)).is_faulty, false);
    await tools.run(() => { document.getElementById("replayer").textContent = globalThis.whole_program; });
    await tools.edit("listen B\n");
}

export async function long_scripts(tab, tools, expect) {
    await replayed(tab, tools, expect);
    await refused(tab, tools, expect);
}
