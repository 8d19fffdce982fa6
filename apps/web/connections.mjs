// The segments of a capture by the two sides between which they went, for the ladder and the list. What is a connection among them the
// module's report says (verdict.mjs).
const FLAGS = ["FIN", "SYN", "RST", "PSH", "ACK", "URG"], LEAST_HEADER = 16, SUM_AT = 16;

function word_at(bytes, at) {
    return ((bytes[at] << 24) | (bytes[at + 1] << 16) | (bytes[at + 2] << 8) | bytes[at + 3]) >>> 0;
}

function half_at(bytes, at) {
    return (bytes[at] << 8) | bytes[at + 1];
}

// What is shown of a segment's header.
export function header_of(bytes) {
    return { bits: bytes[13], seq: word_at(bytes, 4), ack: word_at(bytes, 8), window: half_at(bytes, 14),
        text: Math.max(0, bytes.length - 4 * (bytes[12] >> 4)) };
}

export function flags_told(bits) {
    return FLAGS.filter((name, bit) => (bits >> bit) & 1).join(",") || "none";
}

function key_of(one, other) {
    return one < other ? `${one} ${other}` : `${other} ${one}`;
}

// Segments by the two sides between which they went, as they are added. Bytes that aren't so much of a header are passed over.
export function grouping() {
    const known = new Map();
    return {
        add({ source, target, bytes, time, packet }) {
            if (bytes.length < LEAST_HEADER) {
                return;
            }
            const from = `${source}:${half_at(bytes, 0)}`, to = `${target}:${half_at(bytes, 2)}`, key = key_of(from, to);
            const segments = known.get(key) ?? [];
            known.set(key, segments);
            segments.push({ number: packet, time, from, ...header_of(bytes) });
        },
        // Those of a connection: between its two ends, from its first packet to its last.
        of({ ends, first, last }) {
            return (known.get(key_of(...ends)) ?? []).filter(({ number }) => number >= first && number <= last);
        },
    };
}

// The sum over the pseudo-header and so many bytes of a segment (RFC 9293, 3.1).
function sum_of(addresses, bytes, count) {
    let sum = 6 + bytes.length;
    for (let at = 0; at < addresses.length; at += 2) {
        sum += half_at(addresses, at);
    }
    for (let at = 0; at < count; at += 2) {
        sum += (bytes[at] << 8) | (at + 1 < count ? bytes[at + 1] : 0);
    }
    return sum % 0xffff;
}

// The segment's bytes, with the checksum made right that was left to a device: a sum over the pseudo-header alone.
export function as_sent({ source, target, bytes }) {
    const addresses = Uint8Array.from([...source.split("."), ...target.split(".")], Number), is_whole = bytes.length >= SUM_AT + 2;
    const is_left = is_whole && sum_of(addresses, bytes, bytes.length) !== 0 && sum_of(addresses, bytes, 0) === half_at(bytes, SUM_AT) % 0xffff;
    if (!is_left) {
        return { bytes, is_left };
    }
    const mended = bytes.slice();
    mended.set([0, 0], SUM_AT);
    const sum = 0xffff - sum_of(addresses, mended, mended.length);
    mended.set([sum >> 8, sum & 255], SUM_AT);
    return { bytes: mended, is_left };
}
