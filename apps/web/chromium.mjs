// Headless Chromium over its debugging pipe, without any package: messages are JSON, and end by a zero byte.
import { spawn } from "node:child_process";
import fs from "node:fs";
import os from "node:os";
import path from "node:path";

const WORDS = ["--headless", "--no-sandbox", "--disable-gpu", "--hide-scrollbars", "--no-first-run",
    // Else the page's process gives way to all others of the machine.
    "--disable-renderer-backgrounding", "--disable-backgrounding-occluded-windows",
    "--remote-debugging-pipe"];
const PATIENCE = 30000;

export async function chromium(command) {
    const folder = fs.mkdtempSync(path.join(os.tmpdir(), "page-"));
    const child = spawn(command, [...WORDS, `--user-data-dir=${folder}`, "about:blank"], {
        stdio: ["ignore", "ignore", "ignore", "pipe", "pipe"],
    });
    const waiting = new Map(), listeners = [];
    let last = 0, rest = "";

    child.stdio[4].setEncoding("utf8");
    child.stdio[4].on("data", text => {
        const parts = (rest + text).split("\0");
        rest = parts.pop();
        for (const part of parts) {
            const message = JSON.parse(part), wait = waiting.get(message.id);
            if (wait) {
                waiting.delete(message.id);
                message.error ? wait.reject(new Error(message.error.message)) : wait.resolve(message.result);
            } else {
                listeners.forEach(listener => listener(message));
            }
        }
    });
    child.on("exit", () => waiting.forEach(wait => wait.reject(new Error("Chromium has ended"))));

    function send(method, params = {}, sessionId = undefined) {
        last += 1;
        const id = last;
        child.stdio[3].write(JSON.stringify({ id, method, params, sessionId }) + "\0");
        return new Promise((resolve, reject) => {
            const timer = setTimeout(() => reject(new Error(`${method}: no answer`)), PATIENCE);
            waiting.set(id, {
                resolve: result => { clearTimeout(timer); resolve(result); },
                reject: error => { clearTimeout(timer); reject(error); },
            });
        });
    }

    const { targetInfos } = await send("Target.getTargets");
    const { targetId } = targetInfos.find(target => target.type === "page");
    const { sessionId } = await send("Target.attachToTarget", { targetId, flatten: true });
    const errors = [], requests = [];
    listeners.push(message => {
        if (message.method === "Runtime.exceptionThrown") {
            errors.push(message.params.exceptionDetails.exception?.description ?? message.params.exceptionDetails.text);
        } else if (message.method === "Network.requestWillBeSent") {
            requests.push(message.params.request.url);
        }
    });
    await send("Runtime.enable", {}, sessionId);
    await send("Page.enable", {}, sessionId);
    await send("Network.enable", {}, sessionId);
    await send("Performance.enable", { timeDomain: "threadTicks" }, sessionId);

    const tab = {
        errors,
        requests,
        folder,
        send: (method, params) => send(method, params, sessionId),
        // What a function of the page answers, with JSON values.
        async run(code, ...values) {
            const expression = `(${code})(...${JSON.stringify(values)})`;
            const { result, exceptionDetails } = await tab.send("Runtime.evaluate", {
                expression, awaitPromise: true, returnByValue: true, userGesture: true,
            });
            if (exceptionDetails) {
                throw new Error(exceptionDetails.exception?.description ?? exceptionDetails.text);
            }
            return result.value;
        },
        async until(code, ...values) {
            const end = Date.now() + PATIENCE;
            while (!await tab.run(code, ...values)) {
                if (Date.now() > end) {
                    throw new Error(`never: ${code}`);
                }
                await new Promise(resolve => setTimeout(resolve, 20));
            }
        },
        navigate: address => tab.send("Page.navigate", { url: address }),
        async open(address) {
            await tab.navigate(address);
            await tab.until(() => document.body?.dataset.ready === "yes");
        },
        // Away from the page, which may ask before it goes where a script is there that isn't saved.
        async leave() {
            await tab.navigate("about:blank");
            await tab.until(() => location.href === "about:blank");
        },
        async size(width, height) {
            await tab.send("Emulation.setDeviceMetricsOverride",
                { width, height, deviceScaleFactor: 1, mobile: false });
            await tab.run(() => new Promise(done => requestAnimationFrame(() => requestAnimationFrame(() => done(0)))));
        },
        // What the user prefers, as `prefers-color-scheme`; without a value, what the system has.
        prefer: (name, value) => tab.send("Emulation.setEmulatedMedia", { features: value ? [{ name, value }] : [] }),
        downloads: folder => tab.send("Browser.setDownloadBehavior", { behavior: "allow", downloadPath: folder }).catch(
            () => tab.send("Page.setDownloadBehavior", { behavior: "allow", downloadPath: folder })),
        // Runs code before each page that is opened, until what it answers is called.
        async before_page(source) {
            const { identifier } = await tab.send("Page.addScriptToEvaluateOnNewDocument", { source });
            return () => tab.send("Page.removeScriptToEvaluateOnNewDocument", { identifier });
        },
        async choose_file(selector, file) {
            const { root } = await tab.send("DOM.getDocument");
            const { nodeId } = await tab.send("DOM.querySelector", { nodeId: root.nodeId, selector });
            await tab.send("DOM.setFileInputFiles", { nodeId, files: [file] });
        },
        // The processor time that the page's thread has taken, in milliseconds.
        async spent() {
            const { metrics } = await tab.send("Performance.getMetrics");
            return 1000 * metrics.find(({ name }) => name === "TaskDuration").value;
        },
        async key(key, is_control = false) {
            const codes = { ArrowLeft: 37, ArrowUp: 38, ArrowRight: 39, ArrowDown: 40, Home: 36, End: 35, PageUp: 33,
                PageDown: 34, Tab: 9, Escape: 27, Enter: 13, z: 90 };
            const code = key.length === 1 ? `Key${key.toUpperCase()}` : key;
            const event = { key, code, windowsVirtualKeyCode: codes[key] ?? 0, modifiers: is_control ? 2 : 0 };
            await tab.send("Input.dispatchKeyEvent", { type: "rawKeyDown", ...event });
            await tab.send("Input.dispatchKeyEvent", { type: "keyUp", ...event });
        },
        type: text => tab.send("Input.insertText", { text }),
        async click(x, y) {
            const event = { x, y, button: "left", clickCount: 1 };
            await tab.send("Input.dispatchMouseEvent", { type: "mousePressed", ...event });
            await tab.send("Input.dispatchMouseEvent", { type: "mouseReleased", ...event });
        },
        async picture(file) {
            const { data } = await tab.send("Page.captureScreenshot", { format: "png" });
            fs.writeFileSync(file, Buffer.from(data, "base64"));
        },
        async close() {
            const ended = new Promise(resolve => child.once("exit", resolve));
            await send("Browser.close").catch(() => {});
            await ended;
            fs.rmSync(folder, { recursive: true, force: true, maxRetries: 5 });
        },
    };
    return tab;
}
