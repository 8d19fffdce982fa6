// How the page reads a large capture, in headless Chromium: how long until its verdict is shown and until a ladder is drawn, and the
// longest time that the page's thread was blocked meanwhile. The capture is made here: one connection with two fifths of its text, 40 with as
// much together, and many with 10 kB each, some of which send another byte at a position where one went before; the page has to find
// each of those.
// node bench/page_capture.mjs PAGE [MEGABYTES [TEXT]], with 100 MB and 1460 bytes of text a segment where nothing is told; apps/web/build.sh makes
// PAGE. It takes half a minute.
import fs from "node:fs";
import path from "node:path";
import { fileURLToPath, pathToFileURL } from "node:url";
import { chromium } from "../apps/web/chromium.mjs";

const [page, megabytes = "100", text_size = "1460"] = process.argv.slice(2);
const SIZE = Number(megabytes) * 1e6, TEXT = Number(text_size), HEADERS = 40, RECORD = 16, SMALL = 10000, MIDDLE = 40, PLANTED_EVERY = 50;
const FIN = 1, SYN = 2, ACK = 16, GAP_MICROSECONDS = 40, PATIENCE = 600000, TURNS = 100;

// A pcap file that is written in the order of its packets.
function writer(file, size) {
    const bytes = Buffer.alloc(size + (1 << 20));
    let at = 24, turn = 0;
    [0xa1b2c3d4, 2 | (4 << 16), 0, 0, 65535, 101].forEach((word, place) => bytes.writeUInt32LE(word, 4 * place));
    return {
        // So much text with bytes from `fill` on, from one of 10.0.x.y:1000 and 10.1.0.1:80 to the other.
        packet({ host, is_back, flags, seq, ack, length, fill }) {
            const total = HEADERS + length, ip = at + RECORD, tcp = ip + 20;
            [Math.floor(turn / 1e6), turn % 1e6, total, total].forEach((word, place) => bytes.writeUInt32LE(word, at + 4 * place));
            turn += GAP_MICROSECONDS;
            const one = (10 << 24) | host, two = (10 << 24) | (1 << 16) | 1;
            bytes.set([0x45, 0, total >> 8, total & 255, 0, 0, 0x40, 0, 64, 6], ip);
            bytes.writeInt32BE(is_back ? two : one, ip + 12);
            bytes.writeInt32BE(is_back ? one : two, ip + 16);
            const halves = [[0, is_back ? 80 : 1000], [2, is_back ? 1000 : 80], [12, (5 << 12) | flags], [14, 65535]];
            halves.forEach(([place, value]) => bytes.writeUInt16BE(value, tcp + place));
            bytes.writeUInt32BE(seq, tcp + 4);
            bytes.writeUInt32BE(ack, tcp + 8);
            for (let place = 0; place < length; place += 1) {
                bytes[tcp + 20 + place] = fill + place;
            }
            let sum = 6 + 20 + length;
            for (let place = ip + 12; place < ip + total; place += 2) {
                sum += bytes.readUInt16BE(place);
            }
            bytes.writeUInt16BE(0xffff - sum % 0xffff, tcp + 16);
            at += RECORD + total;
        },
        size: () => at,
        end: () => fs.writeFileSync(file, bytes.subarray(0, at)),
    };
}

// A connection whose opener sends as much and closes; with `is_planted` its last text goes twice, with another last byte. TEXT is even, so
// that each sum is one of whole words.
function connection({ packet }, host, bytes, is_planted) {
    const at = { host, seq: 7000, ack: 9001, length: 0, fill: 0 };
    packet({ ...at, flags: SYN, ack: 0 });
    packet({ ...at, is_back: true, flags: SYN | ACK, seq: 9000, ack: 7001 });
    packet({ ...at, flags: ACK, seq: 7001 });
    let seq = 7001;
    for (let sent = 0, turn = 0; sent < bytes; sent += TEXT, turn += 1) {
        packet({ ...at, flags: ACK, seq, length: TEXT, fill: turn });
        if (is_planted && sent + TEXT >= bytes) {
            packet({ ...at, flags: ACK, seq, length: TEXT, fill: turn + 1 });
        }
        seq = (seq + TEXT) >>> 0;
        if (turn % 2 === 1) {
            packet({ ...at, is_back: true, flags: ACK, seq: 9001, ack: seq });
        }
    }
    packet({ ...at, flags: FIN | ACK, seq });
    packet({ ...at, is_back: true, flags: ACK, seq: 9001, ack: (seq + 1) >>> 0 });
}

// The file, and how many connections it has, and how many with a finding.
function make(file) {
    const capture = writer(file, SIZE), share = TEXT / (TEXT + (HEADERS + RECORD) * 1.5);
    let host = 1, planted = 0;
    connection(capture, host, SIZE * share * 0.4, false);
    for (let turn = 0; turn < MIDDLE; turn += 1) {
        connection(capture, host += 1, SIZE * share * 0.4 / MIDDLE, false);
    }
    while (capture.size() < SIZE - 2 * SMALL) {
        host += 1;
        const is_planted = host % PLANTED_EVERY === 0;
        planted += is_planted ? 1 : 0;
        connection(capture, host, SMALL, is_planted);
    }
    capture.end();
    return { connections: host, planted, size: capture.size() };
}

// Steps through the page's script until what is watched is over, and waits for each step to be answered.
async function used(tab, is_over) {
    await tab.run(watch);
    let slowest = 0, turns = 0, found = null;
    const end = Date.now() + PATIENCE;
    do {
        const start = performance.now();
        found = await tab.run(turn => {
            const slider = document.getElementById("step");
            slider.value = turn % Number(slider.max);
            slider.dispatchEvent(new Event("input"));
            return watched;
        }, turns);
        slowest = Math.max(slowest, performance.now() - start);
        turns += 1;
        await new Promise(resolve => setTimeout(resolve, 50));
    } while (!is_over(found, turns) && Date.now() < end);
    await tab.run(() => { watched.is_over = true; });
    return { ...found, slowest, turns };
}

// In the page: the gaps between turns of its thread, and the time until words are shown.
function watch() {
    const start = performance.now();
    globalThis.watched = { blocked: 0, last: start, read: null, shown: null, drawn: null, is_over: false };
    const { watched } = globalThis;
    const tick = () => {
        const now = performance.now();
        watched.blocked = Math.max(watched.blocked, now - watched.last);
        watched.last = now;
        watched.read ??= document.getElementById("reading-told").textContent.endsWith("being judged") ? now - start : null;
        watched.shown ??= document.getElementById("said").textContent.includes(" is open.") ? now - start : null;
        watched.drawn ??= watched.shown !== null && document.getElementById("judged").getAttribute("aria-busy") === "false" ? now - start : null;
        if (!watched.is_over) {
            setTimeout(tick, 0);
        }
    };
    tick();
}

const folder = path.join(path.dirname(fileURLToPath(import.meta.url)), "out"), file = path.join(folder, "large.pcap");
fs.mkdirSync(folder, { recursive: true });
const made = make(file), tab = await chromium("chromium");
let is_well = false;
try {
    await tab.size(1400, 900);
    await tab.open(pathToFileURL(path.resolve(page)).href);
    // The page is used as it always is, and then while the capture is read.
    await tab.run(() => { document.getElementById("listing-part").open = true; });
    const idle = await used(tab, (found, turns) => turns === TURNS);
    await tab.choose_file("#capture", file);
    const found = await used(tab, ({ drawn }) => drawn !== null);
    const shown = await tab.run(() => ({
        told: document.getElementById("verdict-told").textContent, listed: document.getElementById("segments-told").textContent,
        found: [...document.getElementById("connection").options].filter(option => option.text.endsWith("1 finding")).length,
    }));
    const seconds = time => time === null ? "never" : `${(time / 1000).toFixed(1)} s`;
    console.log(`${(made.size / 1e6).toFixed(0)} MB, ${made.connections} connections: read after ${seconds(found.read)}, the verdict shown ` +
        `after ${seconds(found.shown)}, a ladder drawn after ${seconds(found.drawn)}`);
    console.log(`The page's thread was blocked for ${Math.round(found.blocked)} ms at most, and for ${Math.round(idle.blocked)} ms before; ` +
        `the slowest of ${found.turns} steps through a script took ${Math.round(found.slowest)} ms, and ${Math.round(idle.slowest)} ms before`);
    console.log(`${shown.told} ${shown.listed}`);
    is_well = found.drawn !== null && shown.found === made.planted && shown.told.includes(`are broken at ${made.planted} of the `) && tab.errors.length === 0;
    console.log(`${shown.found} of ${made.planted} planted findings are found${tab.errors.length > 0 ? `; errors: ${tab.errors.join()}` : ""}`);
} finally {
    await tab.close();
    fs.rmSync(file, { force: true });
}
process.exit(is_well ? 0 : 1);
