// Headless Firefox over WebDriver BiDi, without any package but node's own WebSocket (node --experimental-websocket).
// It has what chromium.mjs has but for `prefer`, `requests` and `spent`, which that protocol doesn't offer.
import { spawn } from "node:child_process";
import fs from "node:fs";
import os from "node:os";
import path from "node:path";

const PATIENCE = 30000;
// WebDriver's code points of keys.
const KEYS = { ArrowLeft: "\uE012", ArrowUp: "\uE013", ArrowRight: "\uE014", ArrowDown: "\uE015", Home: "\uE011", End: "\uE010",
    PageUp: "\uE00E", PageDown: "\uE00F", Tab: "\uE004", Escape: "\uE00C", Enter: "\uE007" };
const CONTROL = "\uE009";

function preferences(downloads) {
    const values = { "browser.download.folderList": 2, "browser.download.dir": downloads,
        "browser.download.useDownloadDir": true, "browser.helperApps.neverAsk.saveToDisk": "image/svg+xml,text/plain,application/vnd.tcpdump.pcap",
        "browser.shell.checkDefaultBrowser": false, "datareporting.policy.dataSubmissionEnabled": false };
    return Object.entries(values).map(([name, value]) => `user_pref("${name}", ${JSON.stringify(value)});\n`).join("");
}

// The address that Firefox writes once it listens.
function address_of(child) {
    return new Promise((resolve, reject) => {
        const timer = setTimeout(() => reject(new Error("Firefox doesn't listen")), PATIENCE);
        let told = "";
        child.stderr.setEncoding("utf8");
        child.stderr.on("data", text => {
            told += text;
            const found = /WebDriver BiDi listening on (ws:\S+)/.exec(told);
            if (found) {
                clearTimeout(timer);
                resolve(found[1]);
            }
        });
    });
}

// Calls over the socket, each with its answer.
async function session(child) {
    const socket = new WebSocket(`${await address_of(child)}/session`), waiting = new Map();
    await new Promise((resolve, reject) => {
        socket.addEventListener("open", resolve);
        socket.addEventListener("error", () => reject(new Error("Firefox refuses the socket")));
    });
    let last = 0;
    const listeners = [];
    socket.addEventListener("message", ({ data }) => {
        const message = JSON.parse(data), wait = waiting.get(message.id);
        if (wait) {
            waiting.delete(message.id);
            message.type === "error" ? wait.reject(new Error(message.message)) : wait.resolve(message.result);
        } else {
            listeners.forEach(listener => listener(message));
        }
    });
    function send(method, params = {}) {
        last += 1;
        const id = last;
        socket.send(JSON.stringify({ id, method, params }));
        return new Promise((resolve, reject) => {
            const timer = setTimeout(() => reject(new Error(`${method}: no answer`)), PATIENCE);
            waiting.set(id, {
                resolve: result => { clearTimeout(timer); resolve(result); },
                reject: error => { clearTimeout(timer); reject(error); },
            });
        });
    }
    return { send, listeners, close: () => socket.close() };
}

export async function firefox(command) {
    const folder = fs.mkdtempSync(path.join(os.tmpdir(), "page-")), profile = path.join(folder, "profile");
    const downloads = path.join(folder, "saved");
    fs.mkdirSync(profile, { recursive: true });
    fs.writeFileSync(path.join(profile, "user.js"), preferences(downloads));
    const child = spawn(command, ["--headless", "--no-remote", "--remote-debugging-port", "0", "--profile", profile],
        { stdio: ["ignore", "ignore", "pipe"], env: { ...process.env, HOME: folder } });
    const { send, listeners, close } = await session(child);
    await send("session.new", { capabilities: { alwaysMatch: { unhandledPromptBehavior: { default: "accept" } } } });
    await send("session.subscribe", { events: ["log.entryAdded"] });
    const { contexts } = await send("browsingContext.getTree"), { context } = contexts[0], errors = [];
    listeners.push(({ method, params }) => {
        if (method === "log.entryAdded" && params.type === "javascript" && params.level === "error") {
            errors.push(params.text);
        }
    });

    const tab = {
        errors,
        folder,
        async run(code, ...values) {
            const { result, exceptionDetails } = await send("script.evaluate", {
                expression: `(async () => JSON.stringify(await (${code})(...${JSON.stringify(values)})))()`,
                target: { context }, awaitPromise: true, userActivation: true,
            });
            if (exceptionDetails) {
                throw new Error(exceptionDetails.text);
            }
            return result.type === "undefined" ? undefined : JSON.parse(result.value);
        },
        async until(code, ...values) {
            const end = Date.now() + PATIENCE;
            while (!await tab.run(code, ...values).catch(() => false)) {
                if (Date.now() > end) {
                    throw new Error(`never: ${code}`);
                }
                await new Promise(resolve => setTimeout(resolve, 20));
            }
        },
        navigate: url => send("browsingContext.navigate", { context, url, wait: "complete" }),
        async open(url) {
            await tab.navigate(url);
            await tab.until(() => document.body?.dataset.ready === "yes");
        },
        async leave() {
            await tab.navigate("about:blank");
            await tab.until(() => location.href === "about:blank");
        },
        async size(width, height) {
            await send("browsingContext.setViewport", { context, viewport: { width, height } });
            await tab.run(() => new Promise(done => requestAnimationFrame(() => requestAnimationFrame(() => done(0)))));
        },
        downloads: async () => {},
        async before_page(source) {
            const { script } = await send("script.addPreloadScript", { functionDeclaration: `() => { ${source} }` });
            return () => send("script.removePreloadScript", { script });
        },
        async choose_file(selector, file) {
            const { result } = await send("script.evaluate", {
                expression: `document.querySelector(${JSON.stringify(selector)})`, target: { context }, awaitPromise: false,
            });
            await send("input.setFiles", { context, element: { sharedId: result.sharedId }, files: [file] });
        },
        async key(key, is_control = false) {
            const value = KEYS[key] ?? key;
            const pressed = [{ type: "keyDown", value }, { type: "keyUp", value }];
            const actions = is_control ? [{ type: "keyDown", value: CONTROL }, ...pressed, { type: "keyUp", value: CONTROL }] : pressed;
            await send("input.performActions", { context, actions: [{ type: "key", id: "keys", actions }] });
        },
        type: text => tab.key(text),
        async click(x, y) {
            const actions = [{ type: "pointerMove", x: Math.round(x), y: Math.round(y) }, { type: "pointerDown", button: 0 },
                { type: "pointerUp", button: 0 }];
            await send("input.performActions", { context, actions: [{ type: "pointer", id: "mouse", actions }] });
        },
        async picture(file) {
            const { data } = await send("browsingContext.captureScreenshot", { context });
            fs.writeFileSync(file, Buffer.from(data, "base64"));
        },
        async close() {
            const ended = new Promise(resolve => child.once("exit", resolve));
            await send("browser.close").catch(() => child.kill());
            await ended;
            close();
            fs.rmSync(folder, { recursive: true, force: true, maxRetries: 5 });
        },
    };
    return tab;
}
