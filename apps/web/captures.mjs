// Captures of packets (pcap and pcapng): read into segments, each with its time, or into the list that the module reads
// (docs/FORMATS.md); and written.
import { PCAPNG, pcapng_form } from "./pcapng.mjs";

const PCAP_HEADER = 24, RECORD_HEADER = 16, IP_HEADER = 20, TCP = 6, MOST = 1500;
// By a pcap file's first bytes: whether its numbers have their lowest byte first, and how many nanoseconds its times count in.
const PCAPS = new Map([[0xa1b2c3d4, [false, 1000]], [0xd4c3b2a1, [true, 1000]], [0xa1b23c4d, [false, 1]], [0x4d3cb2a1, [true, 1]]]);
// How many bytes come before the IP packet, by the number of the link.
const RAW = 101, LINKS = new Map([[0, 4], [1, 14], [RAW, 0], [113, 16], [228, 0], [276, 20]]);
// A record that claims to be longer isn't waited for, because its length can only be damaged.
const MOST_RECORD = 1 << 24;

export function hex_of(bytes) {
    return [...bytes].map(byte => byte.toString(16).padStart(2, "0")).join("");
}

export function bytes_of(hex) {
    return Uint8Array.from(hex.match(/../g) ?? [], pair => parseInt(pair, 16));
}

// The segment of an IPv4 packet that carries a whole one of TCP; null of any other packet.
function segment_in(packet) {
    const length = packet.length >= IP_HEADER ? 4 * (packet[0] & 15) : 0, total = (packet[2] << 8) | packet[3];
    const is_whole = packet[0] >> 4 === 4 && packet[9] === TCP && length >= IP_HEADER && total <= packet.length && total > length;
    const is_fragment = ((packet[6] & 0x3f) | packet[7]) !== 0;
    if (!is_whole || is_fragment) {
        return null;
    }
    const [source, target] = [12, 16].map(at => packet.subarray(at, at + 4).join("."));
    return { source, target, bytes: packet.subarray(length, total) };
}

export function line_of({ source, target, bytes }) {
    return `${source} ${target} ${hex_of(bytes)}`;
}

// The line of bytes that were copied as hexadecimal digits: an IPv4 packet, or an Ethernet frame with one; else a segment
// between these addresses.
export function line_of_hex(hex, source, target) {
    const bytes = bytes_of(hex), segment = segment_in(bytes) ?? segment_in(bytes.subarray(LINKS.get(1)));
    return segment === null ? `${source} ${target} ${hex}` : line_of(segment);
}

// How the records of a pcap file are read. `header` bytes come before them, and `least` bytes of one tell its size, which is
// null where that can't be. The packet of a whole record says where its bytes are, on which link they were seen, and when; a
// record without one answers null, and a damaged one undefined.
function pcap_form(first) {
    const [is_little, unit] = PCAPS.get(first.getUint32(0)), link = first.getUint32(20, is_little);
    return {
        header: PCAP_HEADER, least: RECORD_HEADER,
        size: (view, at) => RECORD_HEADER + view.getUint32(at + 8, is_little),
        packet(view, at, size) {
            const time = { seconds: view.getUint32(at, is_little), nanoseconds: unit * view.getUint32(at + 4, is_little) };
            return { link, start: at + RECORD_HEADER, length: size - RECORD_HEADER, time };
        },
    };
}

// Whether a file that begins with these bytes is a capture.
export function is_capture(bytes) {
    const first = bytes.length < 4 ? 0 : new DataView(bytes.buffer, bytes.byteOffset).getUint32(0);
    return first === PCAPNG || PCAPS.has(first);
}

function view_of(bytes) {
    return new DataView(bytes.buffer, bytes.byteOffset, bytes.byteLength);
}

// How the records of a file are read that begins with these bytes; null while too few of them are there.
function records_of(bytes) {
    if (bytes.length < PCAP_HEADER) {
        return null;
    }
    const view = view_of(bytes);
    return view.getUint32(0) === PCAPNG ? pcapng_form() : pcap_form(view);
}

function joined(one, two) {
    if (one.length === 0) {
        return two;
    }
    const both = new Uint8Array(one.length + two.length);
    both.set(one);
    both.set(two, one.length);
    return both;
}

// Reads a capture in pieces, and calls back with each segment { source, target, bytes, time, packet }. The time is in nanoseconds since
// the first packet of the file, null where the file has none of it, and packet its number in the file. Other packets are left out, and
// counted.
export function capture_reader(on_segment) {
    let form = null, rest = new Uint8Array(0), place = 0, packets = 0, left_out = 0, first = null, is_damaged = false;

    function since_first(time) {
        first ??= time;
        return time && 1e9 * (time.seconds - first.seconds) + time.nanoseconds - first.nanoseconds;
    }

    function take_packet(bytes, { link, start, length, time }) {
        const before = LINKS.get(link), since = since_first(time);
        const segment = before === undefined ? null : segment_in(bytes.subarray(start + before, Math.max(start + before, start + length)));
        packets += 1;
        segment === null ? left_out += 1 : on_segment({ ...segment, time: since, packet: packets });
    }

    // The size of the record here; 0 while it isn't whole, null where it is damaged.
    function size_at(view, at) {
        const size = at + form.least <= view.byteLength ? form.size(view, at) : 0;
        return size === null || size > MOST_RECORD ? null : at + size > view.byteLength ? 0 : size;
    }

    function take(bytes) {
        if (is_damaged) {
            return;
        }
        const all = joined(rest, bytes), view = view_of(all);
        let at = 0;
        if (form === null) {
            form = records_of(all);
            at = form?.header ?? 0;
        }
        for (let size = form && size_at(view, at); form !== null && size !== 0; size = size_at(view, at)) {
            const packet = size === null ? undefined : form.packet(view, at, size);
            if (packet === undefined) {
                is_damaged = true;
                break;
            }
            if (packet !== null) {
                take_packet(all, packet);
            }
            at += size;
        }
        place += at;
        rest = all.subarray(at);
    }

    // What was found, once all is taken: and of a file that is cut or damaged, where that is.
    function end() {
        const fault = is_damaged ? "damaged" : rest.length > 0 ? "cut" : null;
        return { packets, left_out, fault: fault && `${fault} at byte ${place}, after ${packets} whole packet${packets === 1 ? "" : "s"}` };
    }

    return { take, end };
}

// All of a capture: its lines and their times, how many of its packets are left out, and what is wrong with the file; null
// where it is none.
export function capture_lines(bytes) {
    if (!is_capture(bytes)) {
        return null;
    }
    const lines = [], times = [];
    const reader = capture_reader(segment => {
        lines.push(line_of(segment));
        times.push(segment.time);
    });
    reader.take(bytes);
    return { lines, times, ...reader.end() };
}

// The header of an IPv4 packet around a segment (RFC 791, 3.1): not to be fragmented, a time to live of 64.
function ip_header(source, target, length) {
    const header = new Uint8Array(IP_HEADER), view = new DataView(header.buffer);
    view.setUint16(0, 0x4500);
    view.setUint16(2, IP_HEADER + length);
    view.setUint16(6, 0x4000);
    view.setUint16(8, (64 << 8) | TCP);
    header.set([...source.split("."), ...target.split(".")].map(Number), 12);
    let sum = 0;
    for (let at = 0; at < IP_HEADER; at += 2) {
        sum += view.getUint16(at);
    }
    view.setUint16(10, 0xffff - sum % 0xffff);
    return header;
}

// A pcap file of packets { seconds, turn, source, target, bytes }, as apps/capture writes it.
export function capture_of(packets) {
    const size = packets.reduce((sum, packet) => sum + RECORD_HEADER + IP_HEADER + packet.bytes.length, PCAP_HEADER);
    const file = new Uint8Array(size), view = new DataView(file.buffer);
    [0xa1b2c3d4, 2 | (4 << 16), 0, 0, MOST, RAW].forEach((word, at) => view.setUint32(4 * at, word, true));
    let at = PCAP_HEADER;
    for (const { seconds, turn, source, target, bytes } of packets) {
        const length = IP_HEADER + bytes.length;
        const words = [seconds + Math.floor(turn / 1e6), turn % 1e6, length, length];
        words.forEach((word, place) => view.setUint32(at + 4 * place, word, true));
        file.set(ip_header(source, target, bytes.length), at + RECORD_HEADER);
        file.set(bytes, at + RECORD_HEADER + IP_HEADER);
        at += RECORD_HEADER + length;
    }
    return file;
}
