"""The notes of captures by a second program, written apart from `tcpjudge` from docs/JUDGE.md, *Notes of a capture*: both say the same of the
stored captures, and of random ones.

    python3 checks/judge/noting.py TCPJUDGE [COUNT]

The last line is `N captures, M failed`.
"""

import collections
import json
import pathlib
import random
import struct
import subprocess
import sys
import tempfile

from making import capture_of, octets

from end import ACK, FIN, RST, SYN
from judge import findings
from program import with_checksum

SPACE, HALF = 2**32, 2**31
Seen = collections.namedtuple("Seen", "packet time way seq ack flags window area text options line")
# What is told where all rules are tried alone; of these what the second judge finds.
OF_ORDER = {"BeforeAck", "AfterReset", "BeyondWindow", "StrayReset"}
OF_ALL_RULES = {"TimestampBack", "StrangeEcho", "OldNumber", "FirstBlock", "OldBlock"} | OF_ORDER
SIZE, SHIFT, BLOCKS, TIMES = 2, 3, 5, 8


def after(number, other):
    """How far a number is ahead of another, below 0 where it is behind."""
    ahead = (number - other) % SPACE
    return ahead if ahead < HALF else ahead - SPACE


class End:
    """What one end sent and acknowledged. Numbers are whole ones, counted on from the first that it sent."""

    def __init__(self):
        # the packets of each note
        self.notes = collections.defaultdict(list)
        self.trips = []
        self.initial = self.shift = None
        self.has_syn = self.has_times = False
        self.forget_sent()
        self.forget_came()

    def forget_sent(self):
        """Its SYN has another number: what it sent is none of that stream."""
        self.next, self.first, self.sent, self.timed = None, None, set(), None
        self.floor = self.time = None
        self.blocks = []

    def forget_came(self):
        """The peer's SYN has: what came, and what it acknowledged, is none of that stream."""
        self.ack = self.edge = None
        self.sizes, self.texts, self.again = [], [], None
        self.times, self.lacks_times = [], False

    def note(self, name, seen):
        self.notes[name].append(seen.packet)

    def numbers(self, seen):
        return len(seen.text) + bool(seen.flags & SYN) + bool(seen.flags & FIN)


def shift_of(end, peer, seen):
    """How far the window of a segment is shifted, if that is known."""
    if not (end.has_syn and peer.has_syn):
        return None
    is_scaled = end.shift is not None and peer.shift is not None and not seen.flags & SYN
    return min(end.shift, 14) if is_scaled else 0


def window_of(end, peer, seen):
    """The number behind the window that a segment tells, if it is known."""
    shift = shift_of(end, peer, seen)
    return None if shift is None else (seen.ack + (seen.window << shift)) % SPACE


def take_edge(end, peer, seen):
    """Where its window ends: it doesn't shrink, but by rounding."""
    edge = window_of(end, peer, seen)
    if edge is None or end.ack and after(seen.ack, end.ack["number"]) < 0:
        return
    if end.edge is not None and after(end.edge, edge) >= 2 ** shift_of(end, peer, seen):
        end.note("ShrunkWindow", seen)
    end.edge = edge


def take_options(end, peer, seen):
    """What sizes, timestamps and blocks tell of an end that sends."""
    if seen.flags & SYN:
        end.has_times = TIMES in seen.options
    if end.sizes and seen.area + len(seen.text) > max(64, *end.sizes, 0):
        end.note("LongSegment", seen)
    if end.has_times and peer.has_times:
        take_times(end, seen)
    if seen.flags & ACK:
        take_blocks(end, seen)


def take_times(end, seen):
    if TIMES not in seen.options:
        end.note("NoTimestamp", seen)
        return
    time, echo = struct.unpack(">II", seen.options[TIMES])
    if end.time is not None and after(time, end.time) < 0:
        end.note("TimestampBack", seen)
    else:
        end.time = time
    if not seen.flags & ACK:
        return
    if echo in end.times:
        end.times, end.lacks_times = end.times[end.times.index(echo) :], False
    elif not end.lacks_times:
        end.note("StrangeEcho", seen)


def lies_in(number, block):
    return after(number, block[0]) >= 0 > after(number, block[1])


def take_blocks(end, seen):
    """A duplicate's block stands first, before the acknowledgement or in the second one. The others are held apart from each other."""
    blocks = list(struct.iter_unpack(">II", seen.options.get(BLOCKS, b"")))
    is_old = False
    if blocks:
        left, right = blocks[0]
        if after(left, seen.ack) < 0:
            is_old = end.again is None or after(end.again[1], left) <= 0 or after(right, end.again[0]) <= 0
            del blocks[0]
        elif len(blocks) > 1 and after(left, blocks[1][0]) >= 0 and after(blocks[1][1], right) >= 0:
            del blocks[0]
    pairs = [(one, other) for at, one in enumerate(blocks) for other in blocks[:at]]
    if any(after(one[1], other[0]) >= 0 and after(other[1], one[0]) >= 0 for one, other in pairs) or any(left == seen.ack for left, _ in blocks):
        end.note("TouchingBlocks", seen)
    if is_old or any(after(left, seen.ack) < 0 for left, _ in blocks):
        end.note("OldBlock", seen)
    if blocks and blocks[0] in end.blocks[1:] and not any(lies_in(number, blocks[0]) for number in end.texts[-4:]):
        end.note("FirstBlock", seen)
    end.blocks = blocks


def take_came(end, peer, seen):
    """What comes to an end from its peer."""
    if seen.flags & SYN:
        end.sizes.append(struct.unpack(">H", seen.options[SIZE])[0] if SIZE in seen.options else 536)
    if peer.numbers(seen):
        end.texts.append(seen.seq)
        if peer.next is not None and after(seen.seq, peer.next % SPACE) < 0:
            end.again = seen.seq, seen.seq + peer.numbers(seen)
    if TIMES in seen.options:
        (time,) = struct.unpack(">I", seen.options[TIMES][:4])
        if end.times[-1:] != [time]:
            end.times.append(time)
        if len(end.times) > 1024:
            end.times, end.lacks_times = end.times[-1024:], True


def take_empty(end, peer, seen):
    """A segment without numbers is at SND.NXT, where that may have fallen back to, or a probe."""
    acked = peer.ack["number"] if peer.ack else None
    if acked is not None and after(seen.seq, acked) in (0, -1):
        return
    if end.floor is not None and after(seen.seq, end.floor) < 0 or acked is not None and after(seen.seq, acked) < 0:
        end.note("OldNumber", seen)


def take_text(end, peer, seen):
    """What a segment's numbers tell."""
    count = end.numbers(seen)
    if end.next is None:
        end.next = end.first = seen.seq
    begin = end.next + after(seen.seq, end.next % SPACE)
    if begin < end.next and count:
        # what is sent again, or where SND.NXT fell back to
        end.floor = seen.seq if end.floor is None or after(seen.seq, end.floor) < 0 else end.floor
    if begin >= end.next or begin + count > end.next:
        end.floor = (begin + count) % SPACE
    numbers = range(begin, begin + count)
    if begin > end.next:
        end.note("PreviousNotSeen", seen)
    if begin >= end.next and count and end.timed is None:
        end.timed = (begin + count, seen.time)
    if begin < end.next and count:
        end.timed = None
        acked = end.next + after(peer.ack["number"], end.next % SPACE) if peer.ack else begin
        is_late = begin not in end.sent and begin >= max(acked, end.first)
        is_fast = peer.ack is not None and peer.ack["number"] == seen.seq and peer.ack["duplicates"] >= 3 and not peer.ack["answered"]
        if is_fast:
            peer.ack["answered"] = True
            end.note("FastRetransmission", seen)
        end.note("OutOfOrder" if is_late and not is_fast else "Retransmission", seen)
    end.sent.update(numbers)
    end.next = max(end.next, begin + count)


def take_ack(end, peer, seen):
    """What its acknowledgement and its window tell."""
    told = {"number": seen.ack, "window": seen.window, "edge": window_of(end, peer, seen), "duplicates": 0, "answered": False}
    if end.ack is None or after(seen.ack, end.ack["number"]) > 0:
        end.ack = told
        if peer.timed and after(seen.ack, peer.timed[0] % SPACE) >= 0:
            peer.trips.append(max(0, seen.time - peer.timed[1]))
            peer.timed = None
    elif seen.ack == end.ack["number"]:
        is_outstanding = peer.next is not None and after(peer.next % SPACE, seen.ack) > 0
        if is_outstanding and end.numbers(seen) == 0 and seen.window == end.ack["window"]:
            end.ack["duplicates"] += 1
            end.note("DuplicateAck", seen)
        end.ack |= {"window": seen.window, "edge": told["edge"]}
    if seen.window == 0 and not seen.flags & (SYN | FIN):
        end.note("ZeroWindow", seen)


def take(end, peer, seen):
    if seen.flags & RST:
        return
    if seen.flags & SYN:
        end.shift, end.has_syn = seen.options[SHIFT][0] if SHIFT in seen.options else None, True
        if end.initial != seen.seq:
            end.forget_sent()
            peer.forget_came()
        end.initial = seen.seq
    take_options(end, peer, seen)
    take_came(peer, end, seen)
    is_single = not seen.flags & (SYN | FIN) and len(seen.text) <= 1
    if is_single and end.next is not None and peer.ack and (seen.seq + 1) % SPACE == end.next % SPACE == peer.ack["number"]:
        end.note("KeepAlive", seen)
    else:
        if not end.numbers(seen):
            take_empty(end, peer, seen)
        take_text(end, peer, seen)
        if seen.text and peer.ack and peer.ack["edge"] == (seen.seq + end.numbers(seen)) % SPACE:
            end.note("WindowFull", seen)
    if seen.flags & ACK:
        take_edge(end, peer, seen)
        take_ack(end, peer, seen)


def ends_of(seen):
    """Both ends, the one that sent first before the other."""
    ends = [End(), End()]
    for segment in seen:
        take(ends[segment.way], ends[1 - segment.way], segment)
    for way, end in enumerate(ends):
        lines = [f"{'went' if segment.way == way else 'came'} {segment.line}" for segment in seen]
        for line, rule, _ in findings(lines)[0]:
            if rule in OF_ORDER:
                end.notes[rule].append(seen[line - 1].packet)
    return ends


def notes_of(seen, has_all_rules):
    """The notes of both ends, each as `tcpjudge --json` has them: name, count and first packet; and round trips. `has_all_rules` says of
    each whether all rules are tried there."""
    found = []
    for end, has_all in zip(ends_of(seen), has_all_rules):
        notes = {name: (len(packets), packets[0]) for name, packets in end.notes.items() if has_all or name not in OF_ALL_RULES}
        # in microseconds, rounded down
        told = end.trips and (min(end.trips), sum(end.trips) // len(end.trips), max(end.trips))
        found.append((notes, (len(end.trips), *(time // 1000 for time in told)) if told else None))
    return found


def told_of(program, path, words):
    """What the program says of each end of a capture of one connection: its notes, its round trips, and whether all rules are tried;
    nothing of one of more."""
    ran = subprocess.run([program, "--json", *words, path], capture_output=True, text=True, check=False)
    ends, order = {}, []
    lines = [json.loads(line) for line in ran.stdout.splitlines()]
    if not lines or lines[-1]["connections"] != 1:
        return []
    for line in lines[:-1]:
        if line["end"] not in ends:
            ends[line["end"]] = [{}, None, False]
            order.append(line["end"])
        if line["kind"] == "note":
            ends[line["end"]][0][line["name"]] = (line["count"], line["first"])
        if line["kind"] == "round_trips":
            ends[line["end"]][1] = (line["count"], *(round(line[word] * 1000000) for word in ("least", "mean", "greatest")))
        if line["kind"] == "end":
            ends[line["end"]][2] = line["all_rules"]
    return [tuple(ends[name]) for name in order]


def segments_in(data):
    """The segments of one connection in a capture in the pcap form, of Ethernet or raw IPv4, and which end sent each."""
    order = "<" if data[:4] in (b"\xd4\xc3\xb2\xa1", b"\x4d\x3c\xb2\xa1") else ">"
    unit = 1000 if data[:4] in (b"\xd4\xc3\xb2\xa1", b"\xa1\xb2\xc3\xd4") else 1
    (link,) = struct.unpack_from(f"{order}I", data, 20)
    at, packet, first = 24, 0, None
    while at < len(data):
        seconds, units, count, _ = struct.unpack_from(f"{order}IIII", data, at)
        frame, at, packet = data[at + 16 : at + 16 + count], at + 16 + count, packet + 1
        ip = frame[14:] if link == 1 else frame
        ip = ip[: struct.unpack_from(">H", ip, 2)[0]]
        tcp = ip[ip[0] % 16 * 4 :]
        source = (ip[12:16], tcp[:2])
        first = first or source
        seq, ack, offset, flags, window = struct.unpack_from(">IIBBH", tcp, 4)
        offset = offset // 16 * 4
        line = " ".join([".".join(map(str, ip[12:16])), ".".join(map(str, ip[16:20])), tcp.hex()])
        yield Seen(packet, seconds * 10**9 + units * unit, int(source != first), seq, ack, flags, window, offset - 20, tcp[offset:],
                   options_in(tcp[20:offset]), line)


def options_in(area):
    """The last option of each kind that has a length of its own, by its kind."""
    found, lengths = {}, {SIZE: (4,), SHIFT: (3,), BLOCKS: (10, 18, 26, 34), TIMES: (10,)}
    while area and area[0] != 0:
        size = 1 if area[0] == 1 else area[1]
        if size in lengths.get(area[0], ()):
            found[area[0]] = area[2:size]
        area = area[size:]
    return found


def random_options(chance, flags, bases, way):
    """Options of a segment: a shift, a size and timestamps of a SYN, and timestamps and blocks around the peer's few numbers."""
    made = b""
    if flags & SYN and chance.random() < 0.7:
        made += b"\x01\x03\x03%c" % chance.choice((0, 1, 2, 14))
    if flags & SYN and chance.random() < 0.5:
        made += struct.pack(">BBH", SIZE, 4, chance.choice((60, 66, 70, 536, 1460)))
    if chance.random() < (0.9 if flags & SYN else 0.8):
        numbers = [chance.randrange(6) if chance.random() < 0.9 else chance.randrange(SPACE) for _ in range(2)]
        made += struct.pack(">BBBBII", 1, 1, TIMES, 10, *numbers)
    if not flags & SYN and chance.random() < 0.6:
        count = chance.randrange(1, 4)
        edges = [(left, left + chance.randrange(1, 4)) for left in (chance.choice((1, 2, 4, 5, 7, 9, 12)) for _ in range(count))]
        made += struct.pack(">BBBB", 1, 1, BLOCKS, 2 + 8 * count)
        made += b"".join(struct.pack(">II", *((bases[1 - way] + edge) % SPACE for edge in block)) for block in edges)
    return made


def random_capture(number):
    """Two ends that send what they like around the same few numbers, which may wrap."""
    chance = random.Random(number)
    has_options = chance.random() < 0.6
    bases = [chance.choice((0, 1000, HALF - 5, SPACE - 7, chance.randrange(SPACE))) for _ in range(2)]
    opening = [(0, 0, 0, SYN), (1, 0, 1, SYN | ACK), (0, 1, 1, ACK)] if chance.random() < 0.8 else []
    packets = []
    for at in range(chance.randrange(1, 60)):
        if at < len(opening):
            way, seq, ack, flags = opening[at]
        else:
            way, seq, ack = chance.randrange(2), chance.randrange(1, 12), chance.randrange(1, 12)
            flags = chance.choice((ACK,) * 12 + (ACK | FIN, ACK | RST, SYN | ACK, SYN))
        options = b"\x03\x03%c\x00" % chance.choice((0, 1, 2, 14)) if flags & SYN and chance.random() < 0.7 else b""
        text = b"abcdefghijkl"[: chance.choice((0, 0, 0, 1, 1, 2, 3, 5))] if not flags & SYN else b""
        if has_options:
            options = random_options(chance, flags, bases, way)
            text = bytes(chance.randrange(30, 80)) if text and chance.random() < 0.1 else text
        window = chance.choice((0, 1, 2, 3, 5, 65535, 65535, 65535))
        source, target = (octets(f"10.0.0.{1 + way}"), octets(f"10.0.0.{2 - way}"))
        numbers = (bases[way] + seq) % SPACE, (bases[1 - way] + ack) % SPACE
        data = struct.pack(">HHIIBBHHH", 1 + way, 2 - way, *numbers, (20 + len(options)) // 4 << 4, flags, window, 0, 0)
        data = with_checksum(source, target, data + options + text)
        packets.append(struct.pack(">BBHHHBBH", 0x45, 0, 20 + len(data), 0, 0, 64, 6, 0) + source + target + data)
    return capture_of(packets)


def compare(cases, program, name, data, address):
    """Both say the same of a capture, whether it was taken at this address or at nobody's."""
    seen = list(segments_in(data))
    for words in [], ["--at", address]:
        with tempfile.NamedTemporaryFile(suffix=".pcap") as file:
            file.write(data)
            file.flush()
            told = told_of(program, file.name, words)
        if told:
            found, wanted = [end[:2] for end in told], notes_of(seen, [end[2] for end in told])
            cases.holds(f"notes, {name}, {' '.join(words)}", found == wanted, f"found {found}, wanted {wanted}")


# tshark's name of each note that it has too. Where the packets differ, those that are noted here alone, and by tshark 4.0 alone: it guesses by
# times whether what fills a gap, or is sent again, was late, calls a segment with new and old text out of order, wants two duplicates before a
# fast retransmission, and each within 20 ms of one, counts a duplicate where nothing is outstanding, and a keep-alive where a number is.
ANALYSED = {"Retransmission": "retransmission", "FastRetransmission": "fast_retransmission", "OutOfOrder": "out_of_order",
            "PreviousNotSeen": "lost_segment", "DuplicateAck": "duplicate_ack", "ZeroWindow": "zero_window", "WindowFull": "window_full",
            "KeepAlive": "keep_alive"}
DIFFERENT = {
    "gVisor-B.pcap": {"Retransmission": ([], [12, 22]), "FastRetransmission": ([], [12, 22]), "OutOfOrder": ([12, 22], [])},
    "plain-B.pcap": {"Retransmission": ([], [17]), "OutOfOrder": ([17], []), "DuplicateAck": ([], [16])},
    "simulated.pcap": {"FastRetransmission": ([18], [])},
    "lossy-A.pcap": {"Retransmission": ([21, 22, 24, 54], []), "OutOfOrder": ([], [21, 22, 24, 54]), "DuplicateAck": ([], [49, 50, 51])},
    "sent again in other pieces": {"Retransmission": ([6], []), "OutOfOrder": ([], [6])},
    "sent again after two": {"FastRetransmission": ([], [11])},
    "sent again after three, and once more": {"FastRetransmission": ([], [14])},
    "no duplicate acknowledgements": {"DuplicateAck": ([], [4])},
    "a gap that is filled from its middle": {"Retransmission": ([], [7, 8]), "OutOfOrder": ([7, 8], [])},
    "keep-alives": {"Retransmission": ([10], []), "KeepAlive": ([], [10])},
    "segments without text before SND.NXT": {"KeepAlive": ([], [8, 11])},
    "blocks before the acknowledgement": {"DuplicateAck": ([], [7])},
}


def judge_analysed(cases, made):
    """The second program's notes, packet by packet, by tshark: the same but for what DIFFERENT has."""
    stored = {path.name: path.read_bytes() for path in sorted((pathlib.Path(__file__).parent / "data").glob("*.pcap"))}
    for name, data in (stored | made).items():
        ends = ends_of(list(segments_in(data)))
        for kind, word in ANALYSED.items():
            with tempfile.NamedTemporaryFile(suffix=".pcap") as file:
                file.write(data)
                file.flush()
                words = ["tshark", "-r", file.name, "-Y", f"tcp.analysis.{word}", "-T", "fields", "-e", "frame.number"]
                ran = subprocess.run(words, capture_output=True, text=True, check=False)
            here, there = {packet for end in ends for packet in end.notes[kind]}, {int(packet) for packet in ran.stdout.split()}
            found = sorted(here - there), sorted(there - here)
            wanted = DIFFERENT.get(name, {}).get(kind, ([], []))
            cases.holds(f"notes by tshark, {name}, {kind}", ran.returncode == 0 and found == tuple(wanted), f"found {found}, wanted {wanted}")


def judge_notes(cases, program, count=500):
    for path in sorted((pathlib.Path(__file__).parent / "data").glob("*.pcap")):
        for address in "10.7.0.1", "10.7.0.2":
            compare(cases, program, path.name, path.read_bytes(), address)
    for number in range(count):
        compare(cases, program, f"random capture {number}", random_capture(number), "10.0.0.1")


def main():
    from judging import Cases

    cases = Cases()
    judge_notes(cases, sys.argv[1], int(sys.argv[2]) if len(sys.argv) > 2 else 500)
    print(f"{cases.count} captures, {cases.failed} failed")
    return int(cases.failed > 0)


if __name__ == "__main__":
    raise SystemExit(main())
