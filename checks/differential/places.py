"""The places of a log of one end where a segment went: what was known there."""

import struct

from end import ACK, FIN, HALF, RST, SPACE, SYN
from program import hexadecimal, with_checksum


class Line:
    """A segment that came or went, its fields and its log's line."""

    def __init__(self, word, source, target, data):
        self.word, self.source, self.target, self.data = word, source, target, data
        self.seq, self.ack = struct.unpack(">II", data[4:12])
        (self.window,) = struct.unpack(">H", data[14:16])
        self.flags, end = data[13], 4 * (data[12] >> 4)
        self.options, self.text = data[20:end], data[end:]

    def has(self, flags):
        return self.flags & flags == flags

    def numbers(self):
        return len(self.text) + self.has(SYN) + self.has(FIN)

    def with_data(self, data, mends=True):
        """The same with other bytes, which check or needn't."""
        return Line(self.word, self.source, self.target, with_checksum(self.source, self.target, data) if mends else data)

    def changed(self, **fields):
        """The same with other fields."""
        fields = {"seq": self.seq, "ack": self.ack, "flags": self.flags, "window": self.window, "options": self.options, "text": self.text} | fields
        options = fields["options"] + bytes(-len(fields["options"]) % 4)
        front = struct.pack(">II", fields["seq"] % SPACE, fields["ack"] % SPACE)
        offset = bytes([(5 + len(options) // 4) << 4 | self.data[12] & 15, fields["flags"]])
        window = struct.pack(">H", fields["window"])
        return self.with_data(self.data[:4] + front + offset + window + self.data[16:20] + options + fields["text"])

    def __str__(self):
        addresses = [".".join(map(str, address)) for address in (self.source, self.target)]
        return f"{self.word} {addresses[0]} {addresses[1]} {hexadecimal(self.data)}"


def read_line(line):
    word, source, target, digits = line.split(" ")
    return Line(word, *(bytes(map(int, address.split("."))) for address in (source, target)), bytes.fromhex(digits))


class Place:
    """Where a fault is planted: the segment that went, the lines before it, and those behind it."""

    def __init__(self, before, segment, behind):
        self.before, self.segment, self.behind = before, segment, behind
        self.syn = next((line.seq for line in [*before, segment] if line.word == "went" and line.has(SYN)), None)
        self.peer = next((line.seq for line in before if line.word == "came" and line.has(SYN)), None)
        went = [line for line in before if line.word == "went"]
        self.told = next((line.ack for line in reversed(went) if line.has(ACK) and not line.has(RST)), None)
        self.fin = next((line.seq + len(line.text) for line in [*went, segment] if line.has(FIN)), None)
        # The numbers of text that went.
        self.gone = {(line.seq + i) % SPACE for line in went for i in range(len(line.text))}
        self.came = [line for line in before if line.word == "came"]
        # How far the end had sent before this segment, and how far that was acknowledged.
        self.next = furthest(line.seq + line.numbers() for line in went if not line.has(RST))
        self.acked = furthest(line.ack for line in self.came if line.has(ACK) and not line.has(RST))

    def syns(self):
        """Its SYN and the peer's, or None."""
        lines = [*self.before, self.segment]
        found = [next((line for line in lines if line.word == word and line.has(SYN)), None) for word in ("went", "came")]
        return found if None not in found else None

    def shift(self):
        """How far its window is shifted (RFC 7323, 2.2)."""
        own, peer = (body_of(line.options, 3) for line in self.syns())
        return own[0] if own and peer else 0

    def edge(self):
        """Behind the window that it told last."""
        last = next(line for line in reversed(self.before) if line.word == "went" and line.has(ACK) and not line.has(RST))
        return last.ack + (last.window << (0 if last.has(SYN) else self.shift()))

    def peer_edge(self):
        """Behind the greatest window that came, from the furthest acknowledgement."""
        own, peer = (body_of(line.options, 3) for line in self.syns())
        shift = peer[0] if own and peer else 0
        return self.acked + max(line.window << (0 if line.has(SYN) else shift) for line in self.came if line.has(ACK))

    def stream(self, begin, count):
        """The text from a number on, by all segments that went, or None."""
        bytes_by_number = {(line.seq + i) % SPACE: byte for line in [*self.before, self.segment, *self.behind] if line.word == "went"
                           for i, byte in enumerate(line.text)}
        numbers = [(begin + i) % SPACE for i in range(count)]
        return bytes(bytes_by_number[number] for number in numbers) if all(number in bytes_by_number for number in numbers) else None

    def is_plain(self):
        """Neither a SYN nor a reset."""
        return not self.segment.flags & (SYN | RST)

    def again(self):
        """The last text before it that went whole, or None."""
        went = [line for line in self.before if line.word == "went" and len(line.text) > 1 and not line.flags & (SYN | RST)]
        return next((line for line in reversed(went) if all((line.seq + i) % SPACE in self.gone for i in range(len(line.text)))), None)


def furthest(numbers):
    """The furthest of some numbers, or None."""
    found = None
    for number in numbers:
        if found is None or 0 < (number - found) % SPACE < HALF:
            found = number % SPACE
    return found


def body_of(area, kind):
    """The body of the first option of a kind, or None."""
    at = 0
    while at < len(area) and area[at]:
        if area[at] == kind:
            return area[at + 2 : at + area[at + 1]]
        at += 1 if area[at] == 1 else area[at + 1]
    return None


def without(area, kind):
    """Options but for those of a kind, and no-operations."""
    made, at = b"", 0
    while at < len(area) and area[at]:
        size = 1 if area[at] == 1 else area[at + 1]
        made += b"" if area[at] in (1, kind) else area[at : at + size]
        at += size
    return made


class Cut:
    """A segment of fewer bytes than a header has."""

    def __init__(self, line, data):
        self.words, self.data = str(line).split(" ")[:3], data

    def __str__(self):
        return " ".join([*self.words, hexadecimal(self.data)])


def places_of(log):
    """Each place of a log where a segment went."""
    return [Place(log[:at], line, log[at + 1 :]) for at, line in enumerate(log) if line.word == "went"]
