#!/usr/bin/python3
"""Captures of packets, and the formats of tcpkit.

    capture.py streams CAPTURE                       its TCP connections, numbered as tshark numbers them
    capture.py listing CAPTURE [--stream N] [--mend] their segments, as `tcpkit decode` reads them
    capture.py judge CAPTURE --at SIDE [--stream N] [--mend]
                                                     one connection as a log of one end, as `tcpjudge` reads it
    capture.py replay SCRIPT CAPTURE                 what both ends of a script emit, line N in second N

Of a capture (pcap or pcapng; Ethernet, cooked or raw) IPv4 and TCP are taken. Fragments, packets that were cut short and
those of IPv6 are left out and told; connections of IPv6 have their numbers all the same, as tshark's have, but one of
which only fragments came has none. With --mend a checksum is made right: of packets that were captured where they were
sent, a device may still have had to fill it in. `replay` takes a script that `tcpkit replay` takes, and makes its segments
with the second program of checks/differential/. It wants dpkt (Debian's python3-dpkt).

SIDE is the end that is judged: A, whose packet is the connection's first, or B, or an address, with its port as 10.0.0.1:80
where that is needed. Line N of the log is packet N of the capture; what isn't of the connection is an empty line. A checksum
that is the sum over the pseudo-header alone was left to a device: it is made right. What is left out is reported.

What can't be read, or is no script or no capture, is one line on standard error and status 2; nothing is written then.
"""

import argparse
import io
import os
import struct
import sys

try:
    import dpkt
except ImportError:
    print("capture.py: no dpkt here (Debian's python3-dpkt)", file=sys.stderr)
    sys.exit(2)

sys.path.insert(0, os.path.join(os.path.dirname(os.path.realpath(__file__)), "..", "..", "checks", "differential"))

from program import with_checksum, word_sum
from script import read_script
from script_form import first_fault

RAW, TCP, SYN, ACK = 101, 6, 2, 16
IPV4, IPV6 = 0x0800, 0x86DD
# The bytes of a link's header, and where the EtherType is in it.
LINKS = {1: (14, 12), 12: (0, None), 14: (0, None), 101: (0, None), 113: (16, 14), 228: (0, None), 229: (0, None), 276: (20, 0)}
VLAN = (0x8100, 0x88A8)
# Headers of IPv6 between its own and TCP's, but for a fragment's (RFC 8200, 4.1).
OPTIONS_6 = (0, 43, 60)
# tshark finds a connection by so much of a header.
LEAST_HEADER = 16
# Why a segment is left out.
LACKS = {"fragment": "fragments", "cut": "packets that were cut short", "IPv6": "packets of IPv6"}


class Fault(Exception):
    """What is reported in one line."""


def packet_of(link, data):
    """The packet of IPv4 or IPv6 behind a link's header, or None."""
    if link not in LINKS:
        raise Fault(f"link type {link} isn't known")
    length, place = LINKS[link]
    kind = None if place is None else int.from_bytes(data[place : place + 2], "big")
    while link == 1 and kind in VLAN:
        length, place = length + 4, place + 4
        kind = int.from_bytes(data[place : place + 2], "big")
    if len(data) <= length or data[length] >> 4 not in (4, 6) or kind not in (None, IPV4 if data[length] >> 4 == 4 else IPV6):
        return None
    return data[length:]


class Segment:
    """A TCP segment, as far as it was captured."""

    def __init__(self, source, target, data, lack=None):
        self.source, self.target, self.data, self.lack = source, target, data, lack
        self.number = 0  # among the capture's packets, from 1 on

    def is_wrong(self):
        """Whether its checksum is."""
        return word_sum(self.source, self.target, self.data) % 65535 != 0

    def is_left_to_device(self):
        """Whether its checksum is the sum over the pseudo-header alone (RFC 9293, 3.1), to which a device adds the rest."""
        blank = word_sum(self.source, self.target, bytes(len(self.data)))
        return self.is_wrong() and blank % 65535 == int.from_bytes(self.data[16:18], "big") % 65535

    def side(self):
        return self.source, self.data[0:2]

    def other_side(self):
        return self.target, self.data[2:4]


def segment_of(packet):
    """The TCP segment of a packet; its `lack` is why it is left out. None where there is none."""
    if packet[0] >> 4 == 6:
        kind, at = packet[6:7], 40
        while kind and kind[0] in OPTIONS_6:
            kind, at = packet[at : at + 1], at + 8 + 8 * int.from_bytes(packet[at + 1 : at + 2], "big")
        return Segment(packet[8:24], packet[24:40], packet[at:], "IPv6") if kind == bytes([TCP]) else None
    if len(packet) < 20 or packet[9] != TCP:
        return None
    header, total = 4 * (packet[0] & 15), int.from_bytes(packet[2:4], "big")
    addresses = packet[12:16], packet[16:20]
    if int.from_bytes(packet[6:8], "big") & 0x3FFF:
        return Segment(*addresses, b"", "fragment")
    is_whole = 20 <= header <= total - 20 and total <= len(packet)
    return Segment(*addresses, packet[header:total], None if is_whole else "cut")


def segments(path):
    """Each TCP segment of a capture."""
    with open_file(path) as file:
        try:
            reader = dpkt.pcap.UniversalReader(file)
            packets = [packet_of(reader.datalink(), data) for _, data in reader]
        except (dpkt.dpkt.Error, ValueError, struct.error):
            raise Fault(f"{path} is no capture (pcap or pcapng), or is cut short") from None
    found = []
    for number, packet in enumerate(packets, 1):
        segment = None if packet is None else segment_of(packet)
        if segment is not None:
            segment.number = number
            found.append(segment)
    return found


def streams(all_segments):
    """Each segment with its stream: a connection's both ways. A new one begins where a side's SYN has another number than
    that side's first segment told."""
    found, count = {}, 0
    for segment in all_segments:
        data = segment.data
        if len(data) < LEAST_HEADER:
            yield None, segment
            continue
        side, other = segment.side(), segment.other_side()
        (number,), bits = struct.unpack(">I", data[4:8]), data[13]
        key, opens = frozenset([side, other]), bits & (SYN | ACK) == SYN
        if key not in found or (opens and found[key][1].get(side, number) != number):
            found[key] = (count, {})
            count += 1
        stream, firsts = found[key]
        firsts.setdefault(side, number if bits & SYN else (number - 1) % (1 << 32))
        yield stream, segment


def dotted(address):
    return ".".join(map(str, address))


def stream_lines(all_segments):
    rows = {}
    for stream, segment in streams(all_segments):
        if segment.lack is None:
            sport, dport = struct.unpack(">HH", segment.data[:4])
            name = f"{dotted(segment.source)}:{sport} > {dotted(segment.target)}:{dport}"
            row = rows.setdefault(stream, [name, 0, 0])
            row[1] += 1
            row[2] += len(segment.data) - 4 * (segment.data[12] >> 4)
    return [f"{stream} {name} segments {count} text {text}" for stream, (name, count, text) in rows.items()]


def listing_lines(all_segments, wanted, mends):
    lines, wrong = [], 0
    for stream, segment in streams(all_segments):
        if segment.lack is None and wanted in (None, stream):
            addresses = segment.source, segment.target
            wrong += segment.is_wrong()
            data = with_checksum(*addresses, segment.data) if mends else segment.data
            lines.append(f"{dotted(segment.source)} {dotted(segment.target)} {data.hex()}")
    if 2 * wrong > len(lines) and not mends:
        warn(f"{wrong} of {len(lines)} checksums are wrong: of packets captured where they were sent --mend makes them right")
    return lines


def one_stream(all_segments, wanted):
    """The segments of the connection that is wanted, or of the only one."""
    rows = [(stream, segment) for stream, segment in streams(all_segments) if stream is not None]
    known = {stream for stream, segment in rows if segment.lack != "IPv6"}
    if wanted is None and len(known) != 1:
        raise Fault(f"{len(known)} connections of IPv4: --stream chooses one of those that 'streams' shows")
    if wanted is not None and wanted not in known:
        raise Fault(f"no connection {wanted} of IPv4")
    return [segment for stream, segment in rows if stream in (known if wanted is None else {wanted})]


def judged_side(segments_of_stream, name):
    """The side of a connection that this names."""
    sides = [segments_of_stream[0].side(), segments_of_stream[0].other_side()]
    if name in ("A", "B"):
        return sides["AB".index(name)]
    names = [(dotted(address), f"{dotted(address)}:{int.from_bytes(port, 'big')}") for address, port in sides]
    found = [side for side, both in zip(sides, names) if name in both]
    if len(found) != 1:
        raise Fault(f"{name} isn't one of {names[0][1]} and {names[1][1]}")
    return found[0]


def judge_lines(all_segments, wanted, at, mends):
    """The log of one end: line N is packet N."""
    rows = one_stream(all_segments, wanted)
    side, lines, devices, wrong = judged_side(rows, at), [], 0, 0
    for segment in rows:
        if segment.lack is not None:
            continue
        lines += [""] * (segment.number - len(lines) - 1)
        is_left = segment.is_left_to_device()
        devices += is_left
        wrong += segment.is_wrong() and not is_left
        data = with_checksum(segment.source, segment.target, segment.data) if is_left or mends else segment.data
        word = "went" if segment.side() == side else "came"
        lines.append(f"{word} {dotted(segment.source)} {dotted(segment.target)} {data.hex()}")
    if devices:
        warn(f"{devices} checksums were left to a device, and are made right")
    if wrong and not mends:
        warn(f"{wrong} checksums are wrong: of packets captured where they were sent --mend makes them right")
    if any(segment.lack in ("fragment", "cut") for segment in all_segments):
        warn("packets are left out: the log may not be complete")
    return lines


def warn(text):
    print(f"capture.py: {text}", file=sys.stderr)


def tell_lacks(all_segments):
    counts = {lack: sum(segment.lack == lack for segment in all_segments) for lack in LACKS}
    told = [f"{count} {LACKS[lack]}" for lack, count in counts.items() if count > 0]
    if told:
        warn(f"left out {', '.join(told)}")


def packet(source, target, data):
    """An IPv4 packet around a segment (RFC 791, 3.1)."""
    front = struct.pack(">BBHHHBB", 0x45, 0, 20 + len(data), 0, 0x4000, 64, TCP)
    words = sum(struct.unpack(">9H", front + source + target)) % 65535
    return front + struct.pack(">H", 65535 - words) + source + target + data


def replay(script):
    """The bytes of a capture: each line's emissions, in the order of the lines; those of one `repeat` a microsecond apart."""
    with open_file(script) as file:
        text = file.read()
    fault = first_fault(text)
    if fault is not None:
        raise Fault(f"{script}: {fault}")
    world, events = read_script(text.decode("ascii"))
    parties, made = world.parties, io.BytesIO()
    writer = dpkt.pcap.Writer(made, linktype=RAW)
    for number, words in events:
        before = {side: len(party.sent) for side, party in parties.items()}
        world.line(words)
        for side, other in ("A", "B"), ("B", "A"):
            ends = parties[side].end.config["addr"], parties[other].end.config["addr"]
            for turn, sent in enumerate(parties[side].sent[before[side] :]):
                writer.writepkt(packet(*ends, sent.data), ts=number + turn / 1e6)
    return made.getvalue()


def open_file(path, mode="rb"):
    """A file by its name. `-` is none: a capture isn't read from a pipe, nor written to a terminal."""
    if path == "-":
        raise Fault("- is no file: a name is wanted")
    return open(path, mode)


def write_replay(script, path):
    made = replay(script)
    if os.path.exists(path) and os.path.samefile(script, path):
        raise Fault(f"{path} is the script")
    with open_file(path, "wb") as file:
        file.write(made)


def read_words():
    parser = argparse.ArgumentParser(description=__doc__, formatter_class=argparse.RawDescriptionHelpFormatter)
    commands = parser.add_subparsers(dest="command", required=True)
    commands.add_parser("streams").add_argument("capture")
    for name in "listing", "judge":
        command = commands.add_parser(name)
        command.add_argument("capture")
        command.add_argument("--stream", type=int)
        command.add_argument("--mend", action="store_true")
    command.add_argument("--at", required=True, metavar="SIDE")
    command = commands.add_parser("replay")
    command.add_argument("script")
    command.add_argument("capture")
    return parser.parse_args()


def lines_for(words, found):
    if words.command == "streams":
        return stream_lines(found)
    if words.command == "judge":
        return judge_lines(found, words.stream, words.at, words.mend)
    return listing_lines(found, words.stream, words.mend)


def main():
    words = read_words()
    try:
        if words.command == "replay":
            write_replay(words.script, words.capture)
            return 0
        found = segments(words.capture)
        sys.stdout.write("".join(f"{line}\n" for line in lines_for(words, found)))
        sys.stdout.flush()
        tell_lacks(found)
        return 0
    except Fault as fault:
        warn(fault)
    except BrokenPipeError:
        # Whoever read it has enough; nothing more must be flushed at the end.
        os.dup2(os.open(os.devnull, os.O_WRONLY), sys.stdout.fileno())
    except OSError as fault:
        warn(f"{fault.filename or 'output'}: {fault.strerror}")
    return 2


if __name__ == "__main__":
    sys.exit(main())
