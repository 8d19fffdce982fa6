// What runs in the worker: has the module judge a capture, and reads its segments in pieces for the ladder and the list, so that the
// page's thread is free.
import { calls, NO_MEMORY } from "./module.mjs";
import { capture_reader, line_of } from "./captures.mjs";
import { as_sent, grouping } from "./connections.mjs";

const PIECE = 1 << 22;
// The module has all of a capture in its memory, which is of at most 4 GiB.
const MOST_WHOLE = 1 << 29;
// What the page gets of a large capture: so many letters of the list, and segments of a ladder; and of how many segments there are ladders.
const MOST_LETTERS = 100000, MOST_DRAWN = 200000, MOST_KEPT = 2000000;

let core = null, whole = null, is_resting = false;
const segments = grouping(), reports = new Map();

// What tcpjudge writes of the capture, taken at this address, or where isn't known where it is empty.
function report_at(place) {
    if (!reports.has(place)) {
        reports.set(place, whole === null ? { answer: NO_MEMORY, text: "" } : core.capture(whole, place, false));
    }
    return reports.get(place);
}

// The columns of what is drawn, one value for each segment.
function columns_of(drawn, { ends }) {
    const column = (kind, name) => kind.from(drawn, segment => segment[name]);
    return {
        number: column(Float64Array, "number"), time: Float64Array.from(drawn, ({ time }) => time ?? NaN),
        is_of_b: Uint8Array.from(drawn, ({ from }) => from === ends[1] ? 1 : 0), bits: column(Uint8Array, "bits"),
        seq: column(Uint32Array, "seq"), ack: column(Uint32Array, "ack"), window: column(Uint16Array, "window"),
        text: column(Uint32Array, "text"),
    };
}

function draw({ connection, ticket }) {
    const found = segments.of(connection), columns = columns_of(found.slice(0, MOST_DRAWN), connection);
    postMessage({ kind: "drawn", ticket, count: found.length, columns }, Object.values(columns).map(column => column.buffer));
}

// Lets messages in that wait.
function turn() {
    return new Promise(done => setTimeout(done, 0));
}

// The bytes of a file, as they are read; null where they are more than the module takes.
async function bytes_read(file) {
    if (file.size > MOST_WHOLE) {
        return null;
    }
    const bytes = new Uint8Array(file.size);
    for (let at = 0; at < file.size; at += PIECE) {
        bytes.set(new Uint8Array(await file.slice(at, at + PIECE).arrayBuffer()), at);
        postMessage({ kind: "read", done: Math.min(file.size, at + PIECE), total: file.size });
    }
    return bytes;
}

// The list of segments, as far as the page shows it, and what ladders are drawn of.
function taking() {
    const listed = { lines: [], mended: [], count: 0, kept: 0, is_fine: false };
    let letters = 0;
    const reader = capture_reader(segment => {
        listed.count += 1;
        listed.is_fine ||= segment.time % 1000 !== 0;
        if (listed.kept < MOST_KEPT) {
            listed.kept += 1;
            segments.add(segment);
        }
        letters += 2 * segment.bytes.length + 40;
        if (letters <= MOST_LETTERS) {
            // A checksum that was left to a device is made right, as it is for the verdict.
            const { bytes, is_left } = as_sent(segment);
            listed.lines.push(line_of({ ...segment, bytes }));
            is_left && listed.mended.push(listed.lines.length);
        }
    });
    return { reader, listed };
}

async function read({ module, file }) {
    core = await calls(module);
    whole = await bytes_read(file);
    postMessage({ kind: "judging", total: file.size });
    postMessage({ kind: "reported", place: "", ...report_at("") });
    const { reader, listed } = taking();
    for (let at = 0; whole !== null && at < whole.length && !is_resting; at += PIECE) {
        reader.take(whole.subarray(at, at + PIECE));
        await turn();
    }
    if (whole !== null && !is_resting) {
        postMessage({ kind: "listed", name: file.name, ...listed, ...reader.end() });
    }
}

const MESSAGES = { read, draw, rest() { is_resting = true; }, report: ({ place }) => postMessage({ kind: "reported", place, ...report_at(place) }) };

globalThis.onmessage = async ({ data }) => {
    try {
        await MESSAGES[data.kind](data);
    } catch (error) {
        postMessage({ kind: "failed", cause: error.message });
    }
};
