// What runs in the worker that replays long scripts: it calls the module, so that the page's thread is free.
import { calls, NO_MEMORY } from "./module.mjs";

let ready = null;

globalThis.onmessage = async ({ data: { ticket, module, call, words } }) => {
    ready ??= calls(module);
    const core = await ready;
    let found;
    try {
        found = core[call](...words);
    } catch {
        // A text that is longer than the browser's texts can be.
        found = { answer: NO_MEMORY, text: "" };
    }
    postMessage({ ticket, ...found });
};
