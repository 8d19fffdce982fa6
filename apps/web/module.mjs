// Calls the module (MODULE.md): texts in, texts out. There is no TCP here.

const BLOCK_UNIT = 16n, PAGE = 65536, MODULE_HEADER = 8, MEMORY_SECTION = 5;
// A text takes a quarter of the memory at first: of steps the block takes four times as much as their text.
const PARTS = 4n;

function rounded(n) {
    return (n + BLOCK_UNIT - 1n) / BLOCK_UNIT * BLOCK_UNIT;
}

export const WELL = 0, REFUSED = 1, FAULT = 2, NO_MEMORY = 3, NO_ROOM = 4, NO_SEGMENT = 5, NO_ADDRESS = 6, NOTHING_JUDGED = 7, BAD_CAPTURE = 8;
// Those with which a text is written.
const TOLD = [WELL, REFUSED, FAULT, NOTHING_JUDGED, BAD_CAPTURE];

// The module's bytes without the most that its memory may have (WebAssembly's specification, 5.5.8): it is built with as much as it
// begins with, and a long script needs more.
function without_most(bytes) {
    let at = MODULE_HEADER;
    const number = () => {
        let value = 0, unit = 1, byte;
        do {
            byte = bytes[at];
            value += (byte & 127) * unit;
            unit *= 128;
            at += 1;
        } while (byte > 127);
        return value;
    };
    while (at < bytes.length) {
        const start = at, section = bytes[at];
        at += 1;
        const size = number(), end = at + size;
        if (section === MEMORY_SECTION && bytes[at] === 1 && bytes[at + 1] === 1) {
            at += 2;
            const from = at;
            number();
            const least = bytes.subarray(from, at);
            return Uint8Array.from([...bytes.subarray(0, start), MEMORY_SECTION, least.length + 2, 1, 0, ...least, ...bytes.subarray(end)]);
        }
        at = end;
    }
    return bytes;
}

// The compiled module of these bytes, whose memory may grow.
export function compiled_of(bytes) {
    return WebAssembly.compile(without_most(bytes));
}

// The calls over a compiled module. Each answers { answer, text }: `text` is empty where there is none.
export async function calls(module) {
    const { exports } = await WebAssembly.instantiate(module, {});
    const encoder = new TextEncoder(), decoder = new TextDecoder();

    // What comes first in the caller's memory: the record of the block, and the count.
    const record = rounded(BigInt(exports.__heap_base.value));
    const count = record + 16n, start = record + 32n;

    function end() {
        return BigInt(exports.memory.buffer.byteLength);
    }

    // Twice as much memory, or as much as there can be; false where there can't be more.
    function grow() {
        const pages = exports.memory.buffer.byteLength / PAGE;
        for (const more of [pages, pages / 2, pages / 4].map(Math.floor)) {
            try {
                exports.memory.grow(more);
                return true;
            } catch {
                // Less is tried.
            }
        }
        return false;
    }

    // One call: the script and what comes behind it, then the room of the text, and what is left is the block. It answers how long the
    // text is, too.
    function tried(run, bytes, more, out, room) {
        const words = new DataView(exports.memory.buffer), memory = new Uint8Array(exports.memory.buffer);
        words.setBigUint64(Number(record), out + room, true);
        words.setBigUint64(Number(record) + 8, (end() - out - room) / BLOCK_UNIT * BLOCK_UNIT, true);
        memory.set(bytes, Number(start));
        memory.set(more, Number(start) + bytes.length);
        const answer = run(record, start, BigInt(bytes.length + more.length), out, room, count);
        return { answer, told: new DataView(exports.memory.buffer).getBigUint64(Number(count), true) };
    }

    // Where the block or the room is too small the call is made again, over more memory, as long as there is more.
    function call(run, script, more = new Uint8Array(0)) {
        const bytes = typeof script === "string" ? encoder.encode(script) : script;
        const out = start + rounded(BigInt(bytes.length + more.length) + 1n);
        let wanted = 0n;
        for (;;) {
            const least = wanted + BLOCK_UNIT;
            if (out + least < end()) {
                const part = (end() - out) / PARTS / BLOCK_UNIT * BLOCK_UNIT, room = wanted > part ? wanted : part;
                const { answer, told } = tried(run, bytes, more, out, room);
                if (answer !== NO_MEMORY && answer !== NO_ROOM) {
                    const text = TOLD.includes(answer) ? new Uint8Array(exports.memory.buffer, Number(out), Number(told)) : new Uint8Array(0);
                    return { answer, text: decoder.decode(text) };
                }
                if (answer === NO_ROOM && rounded(told) > room && out + rounded(told) + BLOCK_UNIT < end()) {
                    wanted = rounded(told);
                    continue;
                }
                wanted = answer === NO_ROOM ? rounded(told) : wanted;
            }
            if (!grow()) {
                return { answer: NO_MEMORY, text: "" };
            }
        }
    }

    return {
        replay: script => call(exports.tcp_web_replay, script),
        steps: script => call(exports.tcp_web_steps, script),
        // The listing of a list of segments; `line` is that of the first bad one, or 0.
        list(list) {
            const found = call((record, at, length, out, room, count) =>
                exports.tcp_web_list(record, at, length, out, room, count, count + 8n), list);
            return { ...found, line: Number(new DataView(exports.memory.buffer).getBigUint64(Number(count) + 8, true)) };
        },
        // The findings of a log of one end, each with its line; `line` is that of the first bad one, or 0.
        judge(log, is_complete) {
            const found = call((record, at, length, out, room, count) =>
                exports.tcp_web_judge(record, at, length, is_complete ? 1 : 0, 0, out, room, count, count + 8n), log);
            return { ...found, line: Number(new DataView(exports.memory.buffer).getBigUint64(Number(count) + 8, true)) };
        },
        // The report of a capture that was taken at this address, or elsewhere where it is empty, in words or as lines of JSON. The address
        // lies behind the file.
        capture(file, place, is_json) {
            const word = encoder.encode(place);
            return call((record, at, length, out, room, count) => exports.tcp_web_capture(record, at, length - BigInt(word.length),
                at + length - BigInt(word.length), BigInt(word.length), is_json ? 1 : 0, 0, out, room, count), file, word);
        },
        // By which rule the segment is judged that an event delivers, counted from 0.
        rule: (script, number) => call(
            (record, at, length, out, room, count) =>
                exports.tcp_web_rule(record, at, length, BigInt(number), out, room, count),
            script),
        // Numbers and timers of both ends after so many events.
        numbers: (script, count) => call(
            (record, at, length, out, room, count_at) =>
                exports.tcp_web_numbers(record, at, length, BigInt(count), out, room, count_at),
            script),
        // All segments that both ends emit, as a list.
        sent: script => call(exports.tcp_web_sent, script),
        show: (script, side, number) => call(
            (record, at, length, out, room, count) =>
                exports.tcp_web_show(record, at, length, side === "A" ? 0 : 1, BigInt(number), out, room, count),
            script),
    };
}
