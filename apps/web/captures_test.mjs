// Tests how captures are read: files that are made here byte by byte, with times that were computed by hand, and files that dpkt writes and
// reads. node apps/web/captures_test.mjs wants Debian's python3-dpkt.
import { spawnSync } from "node:child_process";
import { capture_lines, capture_reader, is_capture, line_of } from "./captures.mjs";
import { at } from "./cases.mjs";

let passed = 0, failed = 0;

function expect(name, found, asked) {
    const [is, wanted] = [found, asked].map(one => JSON.stringify(one));
    passed += is === wanted ? 1 : 0;
    failed += is === wanted ? 0 : 1;
    if (is !== wanted) {
        console.log(`${name}: wanted ${wanted.slice(0, 300)}, found ${is?.slice(0, 300)}`);
    }
}

// Numbers as bytes, in one order.
function numbers(is_little) {
    const number = size => value => {
        const bytes = Array.from({ length: size }, (_, place) => Number((BigInt(value) >> BigInt(8 * place)) & 255n));
        return is_little ? bytes : bytes.reverse();
    };
    return { half: number(2), word: number(4), long: number(8) };
}

function padded(bytes) {
    return [...bytes, ...Array((4 - bytes.length % 4) % 4).fill(0)];
}

// An IPv4 packet from 10.0.0.1 to 10.0.0.2 whose segment is twenty times the same byte, in digits; and the line of that.
const packet = (fill, protocol = 6) => [0x45, 0, 0, 40, 0, 0, 0, 0, 64, protocol, 0, 0, 10, 0, 0, 1, 10, 0, 0, 2, ...Array(20).fill(fill)];
const line = fill => `10.0.0.1 10.0.0.2 ${fill.toString(16).padStart(2, "0").repeat(20)}`;
const FRAME = [...Array(12).fill(0), 8, 0];

// A pcap file of packets [seconds, fraction, bytes].
function pcap(is_little, magic, link, packets) {
    const { half, word } = numbers(is_little);
    const record = ([seconds, fraction, bytes]) => [...word(seconds), ...word(fraction), ...word(bytes.length), ...word(bytes.length), ...bytes];
    return Uint8Array.from([...word(magic), ...half(2), ...half(4), ...word(0), ...word(0), ...word(65535), ...word(link), ...packets.flatMap(record)]);
}

// The blocks of a pcapng file, in one order.
function blocks(is_little) {
    const { half, word, long } = numbers(is_little);
    const block = (kind, body) => [...word(kind), ...word(12 + body.length), ...body, ...word(12 + body.length)];
    const option = (kind, bytes) => [...half(kind), ...half(bytes.length), ...padded(bytes)];
    return {
        block, option, long, word,
        section: (options = []) => block(0x0a0d0d0a, [...word(0x1a2b3c4d), ...half(1), ...half(0), ...long(0xffffffffffffffffn), ...options]),
        seen: (link, most, options = []) => block(1, [...half(link), ...half(0), ...word(most), ...options]),
        simple: (length, bytes) => block(3, [...word(length), ...padded(bytes)]),
        enhanced: (number, time, bytes, options = []) => block(6, [...word(number), ...word(BigInt(time) >> 32n), ...word(BigInt(time) & 0xffffffffn),
            ...word(bytes.length), ...word(bytes.length), ...padded(bytes), ...options]),
    };
}

function read(parts) {
    const { lines, times, packets, left_out, fault } = capture_lines(Uint8Array.from(parts.flat()));
    return { lines, times, packets, left_out, fault };
}

// What is read of one packet that is left out.
const NONE = { lines: [], times: [], packets: 1, left_out: 1, fault: null };

// Microseconds and nanoseconds, in both orders. The first packet is of UDP: it is left out, and the times are since it.
function pcaps() {
    const forms = [[true, 0xa1b2c3d4, 1000], [false, 0xa1b2c3d4, 1000], [true, 0xa1b23c4d, 1], [false, 0xa1b23c4d, 1]];
    for (const [is_little, magic, unit] of forms) {
        const seen = [[1700000000, 999999, packet(9, 17)], [1700000001, 1, packet(1)], [1700000000, 999990, packet(2)]];
        // 1.000001 - 0.999999 s are 2 units and a second less 1000000 units; the last came 9 units before the first.
        const second = unit === 1000 ? 2000 : 1000000000 - 999998;
        expect(`pcap, ${is_little ? "little" : "big"}, ${unit} ns`, read([...pcap(is_little, magic, 101, seen)]),
            { lines: [line(1), line(2)], times: [second, -9 * unit], packets: 3, left_out: 1, fault: null });
    }
    expect("a link that isn't known", read([...pcap(true, 0xa1b2c3d4, 147, [[1, 0, packet(1)]])]), NONE);
    const others = [[], [1, 2, 3], [...new TextEncoder().encode("tcpkit 2\nlisten A\n")]];
    expect("no capture", others.map(bytes => is_capture(Uint8Array.from(bytes))), [false, false, false]);
}

// Both orders: times of the default resolution, of nanoseconds, of 1024 units a second, and with seconds to be added; a packet without
// its time, and one that the first interface's limit cuts; an interface that isn't there; blocks that are passed over.
function one_section(is_little) {
    const { block, option, section, seen, simple, enhanced, long, word } = blocks(is_little), epoch = 1700000000n;
    return [
        section([...option(4, [...new TextEncoder().encode("by hand")]), ...option(0, [])]),
        seen(1, 54, [...option(2, [0x65, 0x74, 0x68]), ...option(0, [])]),
        seen(101, 0, [...option(9, [9]), ...option(0, [])]),
        seen(101, 0, option(9, [0x8a])),
        block(4, [...word(0), ...word(0)]),
        seen(101, 0, [...option(9, [6]), ...option(14, [...long(epoch - 100n)])]),
        enhanced(0, epoch * 1000000n + 250000n, [...FRAME, ...packet(1)]),
        enhanced(1, epoch * 1000000000n + 250000001n, packet(2), [...option(1, [0x61]), ...option(0, [])]),
        block(0xbad, [...word(32473), 1, 2, 3, 4]),
        enhanced(2, epoch * 1024n + 768n, packet(3)),
        simple(54, [...FRAME, ...packet(4)]),
        simple(60, [...FRAME, ...packet(5)]),
        enhanced(3, 100250007n, packet(6)),
        enhanced(7, 1n, packet(7)),
    ];
}

// 768 of 1024 are 0.75 s, half a second after the first packet's quarter.
const SECTION = { lines: [1, 2, 3, 4, 5, 6].map(line), times: [0, 1, 500000000, null, null, 7000], packets: 7, left_out: 1, fault: null };

function sections() {
    for (const is_little of [true, false]) {
        const name = `pcapng, ${is_little ? "little" : "big"}`, other = blocks(!is_little);
        expect(name, read(one_section(is_little)), SECTION);
        // The next section has the other order, and interfaces of its own.
        const both = [...one_section(is_little), other.section(), other.enhanced(0, 0, packet(8)), other.seen(101, 0),
            other.enhanced(0, 1700000003250000n, packet(9))];
        expect(`${name}, then the other`, read(both), { lines: [...SECTION.lines, line(9)], times: [...SECTION.times, 3000000000], packets: 9,
            left_out: 2, fault: null });
        expect(`${name}, a packet that isn't whole`, read([other.section(), other.seen(101, 39), other.simple(40, packet(1).slice(0, 39))]), NONE);
    }
}

// A file that ends anywhere has the packets before, and is said to be cut but where a record ends.
function cuts() {
    const little = [...pcap(true, 0xa1b2c3d4, 101, [[5, 0, packet(1)], [5, 1, packet(2)]])];
    const section = one_section(true), whole = section.flat();
    const ends = new Set(section.map((_, place) => section.slice(0, place + 1).flat().length));
    for (const [name, bytes, borders] of [["pcap", little, new Set([24, 80, 136])], ["pcapng", whole, ends]]) {
        const all = read([bytes]).lines;
        for (let length = 4; length <= bytes.length; length += 1) {
            const { lines, fault, packets } = read([bytes.slice(0, length)]);
            const last = Math.max(0, ...[...borders].filter(border => border <= length));
            expect(`${name} cut at ${length}`, [lines, fault], [all.slice(0, lines.length), borders.has(length) ? null
                : `cut at byte ${last}, after ${packets} whole packet${packets === 1 ? "" : "s"}`]);
        }
    }
    expect("a cut pcap's packets", [79, 80, 135, 136].map(length => read([little.slice(0, length)]).lines.length), [0, 1, 1, 2]);
}

// What can't be is said to be damaged, with its place.
function damages() {
    const { block, section, seen, enhanced, simple, word } = blocks(true), before = [section(), seen(101, 0), enhanced(0, 0, packet(1))];
    const only_first = place => ({ lines: [line(1)], times: [0], packets: 1, left_out: 0, fault: `damaged at byte ${place}, after 1 whole packet` });
    const start = before.flat().length, good = enhanced(0, 1, packet(2)), changed = (bytes, place, value) => bytes.with(place, value);
    for (const [name, bytes] of [
        ["a length of 8", [...word(6), ...word(8), ...word(8)]], ["a length that isn't of words", changed(good, 4, good[4] + 1)],
        ["a length beyond all", [...word(6), ...word(0x7ffffffc), ...word(0)]], ["two lengths", changed(good, good.length - 1, 1)],
        ["a packet longer than its block", changed(good, 20, 44)], ["a short packet block", block(6, [...word(0), ...word(0)])],
        ["a simple packet longer than its block", simple(44, packet(3))], ["a short interface", block(1, [...word(0)])],
        ["a section of no order", changed(section(), 8, 0)],
    ]) {
        expect(name, read([...before, bytes, good]), only_first(start));
    }
    const file = pcap(true, 0xa1b2c3d4, 101, [[5, 0, packet(1)], [5, 1, packet(2)], [5, 1, packet(2)]]);
    file[24 + 56 + 11] = 0x80;
    expect("a pcap's length beyond all", read([...file]), only_first(80));
}

// A file that is read in pieces is read as at once.
function pieces() {
    const whole = Uint8Array.from(one_section(false).flat());
    for (const size of [1, 7, 64]) {
        const lines = [], numbers_seen = [], reader = capture_reader(segment => {
            lines.push([line_of(segment), segment.time]);
            numbers_seen.push(segment.packet);
        });
        for (let place = 0; place < whole.length; place += size) {
            reader.take(whole.slice(place, place + size));
        }
        const asked = SECTION.lines.map((one, place) => [one, SECTION.times[place]]);
        expect(`in pieces of ${size}`, [lines, reader.end()], [asked, { packets: 7, left_out: 1, fault: null }]);
        expect(`the packets' numbers, in pieces of ${size}`, numbers_seen, [1, 2, 3, 4, 5, 6]);
    }
}

// dpkt reads a stored pcap file, and writes its packets as pcapng in both orders: what it writes, and of each packet the segment and the
// microseconds since the first.
const WRITE = `
import json, sys, dpkt
from dpkt import pcapng
packets = [(round(time * 10**6), bytes) for time, bytes in dpkt.pcap.Reader(open(sys.argv[1], "rb"))]
files = []
for kind in ("LE", ""):
    new = lambda name, **fields: bytes(getattr(pcapng, name + kind)(**fields))
    parts = [new("SectionHeaderBlock"), new("InterfaceDescriptionBlock", linktype=101)]
    for time, data in packets:
        sizes = {"caplen": len(data), "pkt_len": len(data)}
        parts.append(new("EnhancedPacketBlock", ts_high=time >> 32, ts_low=time & 0xffffffff, pkt_data=data, **sizes))
    files.append(b"".join(parts).hex())
lines = []
for time, data in packets:
    ip = dpkt.ip.IP(data)
    head = 4 * ip.hl
    lines.append([".".join(map(str, ip.src)) + " " + ".".join(map(str, ip.dst)) + " " + data[head:ip.len].hex(), 1000 * (time - packets[0][0])])
print(json.dumps({"files": files, "lines": lines}))
`;

function of_dpkt() {
    for (const name of ["kernel-A", "gVisor-B", "plain-B"]) {
        const { status, stdout, stderr } = spawnSync("/usr/bin/python3", ["-c", WRITE, at("checks/judge/data", `${name}.pcap`)], { encoding: "utf8" });
        expect(`dpkt writes ${name}`, [status, stderr], [0, ""]);
        const { files, lines } = JSON.parse(stdout);
        expect(`${name} has packets`, lines.length > 20, true);
        files.forEach((file, number) => {
            const found = read([[...Buffer.from(file, "hex")]]);
            expect(`${name} of dpkt, file ${number}`, [found.lines.map((one, place) => [one, found.times[place]]), found.fault], [lines, null]);
        });
    }
}

pcaps();
sections();
cuts();
damages();
pieces();
of_dpkt();
console.log(failed === 0 ? `captures: ${passed} passed` : `captures: ${failed} FAILED, ${passed} passed`);
process.exit(failed === 0 ? 0 : 1);
