"""TCP segments and IPv4 packets as bytes: built by hand, right or wrong, and read (RFC 9293, 3.1; RFC 791, 3.1)."""

import struct

FIN, SYN, RST, PSH, ACK, URG, ECE, CWR = 1, 2, 4, 8, 16, 32, 64, 128
LETTERS = ((SYN, "S"), (FIN, "F"), (RST, "R"), (PSH, "P"), (URG, "U"), (ECE, "E"), (CWR, "W"), (ACK, "."))
SPACE, HALF = 1 << 32, 1 << 31
TCP, ICMP = 6, 1
EOL, NOP, MSS, SCALE, PERMITTED, BLOCKS, TIMES = 0, 1, 2, 3, 4, 5, 8
STACK, TESTER = bytes([10, 9, 0, 1]), bytes([10, 9, 0, 2])


def mss(size):
    return struct.pack(">BBH", MSS, 4, size)


def scale(shift):
    return bytes([NOP, SCALE, 3, shift])


PERMITS = bytes([NOP, NOP, PERMITTED, 2])


def times(value, echo=0):
    return struct.pack(">BBBBII", NOP, NOP, TIMES, 10, value, echo)


def blocks(*edges):
    """A SACK option of these (left, right) pairs (RFC 2018, 3)."""
    body = b"".join(struct.pack(">II", left % SPACE, right % SPACE) for left, right in edges)
    return bytes([NOP, NOP, BLOCKS, 2 + len(body)]) + body


def ones_sum(data):
    """The sum of 16-bit words with the carries added in (RFC 1071)."""
    data += b"\0" * (len(data) % 2)
    total = sum(struct.unpack(f">{len(data) // 2}H", data))
    while total >> 16:
        total = (total & 65535) + (total >> 16)
    return total


def ahead(number, of):
    """How far a sequence number is ahead of another one, from -2^31 on (RFC 9293, 3.4)."""
    return (number - of + HALF) % SPACE - HALF


class Segment:
    """A TCP segment, and the packet around it as far as rows look there."""

    def __init__(self, sport=0, dport=0, seq=0, ack=0, flags=0, window=65535, options=b"", text=b"", urgent=0, reserved=0):
        self.sport, self.dport, self.seq, self.ack, self.flags = sport, dport, seq % SPACE, ack % SPACE, flags
        self.window, self.options, self.text, self.urgent, self.reserved = window, options, text, urgent, reserved
        self.source, self.target, self.ttl, self.service, self.ip_options = TESTER, STACK, 64, 0, b""
        # What is added to the checksum, so that it is wrong; when the segment was seen, and in how many pieces its packet came.
        self.harm, self.when, self.raw, self.pieces = 0, 0.0, None, 1

    def bytes(self):
        options = self.options + b"\0" * (-len(self.options) % 4)
        offset = (5 + len(options) // 4) << 4 | self.reserved
        head = struct.pack(">HHIIBBHHH", self.sport, self.dport, self.seq, self.ack, offset, self.flags, self.window, 0, self.urgent)
        whole = head + options + self.text
        pseudo = self.source + self.target + struct.pack(">HH", TCP, len(whole))
        return whole[:16] + struct.pack(">H", 65535 - ones_sum(pseudo + whole) ^ self.harm) + whole[18:]

    def packet(self):
        return packet(self.source, self.target, self.bytes(), TCP, self.ttl, self.service, self.ip_options)

    def sum_is_right(self):
        """Whether the checksum of the bytes that were read is (MUST-2)."""
        return ones_sum(self.source + self.target + struct.pack(">HH", TCP, len(self.raw)) + self.raw) == 65535

    def length(self):
        """SEG.LEN: text, SYN and FIN (RFC 9293, 3.3.1)."""
        return len(self.text) + bool(self.flags & SYN) + bool(self.flags & FIN)

    def end(self):
        return (self.seq + self.length()) % SPACE

    def option(self, kind):
        """The value of the first option of a kind, or None."""
        return next((value for found, value in self.option_list() if found == kind), None)

    def option_list(self):
        """(kind, value) up to the end of the list or to the first that is malformed; a kind below 0 says that one is."""
        at, found = 0, []
        while at < len(self.options) and self.options[at] != EOL:
            kind = self.options[at]
            length = 1 if kind == NOP else self.options[at + 1] if at + 1 < len(self.options) else 0
            if length < (1 if kind == NOP else 2) or at + length > len(self.options):
                return found + [(-1, b"")]
            if kind != NOP:
                found.append((kind, self.options[at + 2 : at + length]))
            at += length
        return found

    def padding(self):
        """What stands behind the end of the option list."""
        at = 0
        while at < len(self.options) and self.options[at] != EOL:
            at += 1 if self.options[at] == NOP else max(1, self.options[at + 1]) if at + 1 < len(self.options) else 1
        return self.options[at + 1 :]

    def edges(self):
        """The pairs of a SACK option."""
        value = self.option(BLOCKS) or b""
        return [struct.unpack(">II", value[at : at + 8]) for at in range(0, len(value) - 7, 8)]

    def words(self, own=0, other=0):
        """The segment in a line, with numbers that count from both initial ones."""
        names = "".join(letter for bit, letter in LETTERS if self.flags & bit) or "none"
        said = f"[{names}] seq {ahead(self.seq, own)}"
        said += f" ack {ahead(self.ack, other)}" if self.flags & ACK else ""
        said += f" win {self.window}" + (f" text {len(self.text)}" if self.text else "")
        said += f" options {self.options.hex()}" if self.options else ""
        return said + (f" in {self.pieces} fragments" if self.pieces > 1 else "")

    def __str__(self):
        return self.words()


def packet(source, target, body, protocol, ttl=64, service=0, options=b""):
    """An IPv4 packet that is not to be fragmented."""
    options += b"\0" * (-len(options) % 4)
    head = struct.pack(">BBHHHBBH4s4s", 0x45 + len(options) // 4, service, 20 + len(options) + len(body), 0, 0x4000, ttl, protocol, 0, source, target)
    head += options
    return head[:10] + struct.pack(">H", 65535 - ones_sum(head)) + head[12:] + body


class Pieces:
    """Puts the fragments of IPv4 packets together (RFC 791, 3.2): what a packet says is known once all of them have come."""

    MORE, OFFSET, MOST = 0x2000, 0x1FFF, 64

    def __init__(self):
        self.waiting = {}

    def whole(self, data):
        """A whole packet and in how many pieces it came; None and 0 as long as one is missing."""
        flags = int.from_bytes(data[6:8], "big")
        if len(data) < 20 or data[0] >> 4 != 4 or not flags & (self.MORE | self.OFFSET):
            return data, 1
        header, total = 4 * (data[0] & 15), int.from_bytes(data[2:4], "big")
        key = data[12:20] + data[4:6] + data[9:10]
        pieces = self.waiting.setdefault(key, {})
        pieces[8 * (flags & self.OFFSET)] = data[:header], data[header:total], bool(flags & self.MORE)
        body, has_more = b"", True
        while has_more and len(body) in pieces:
            _, piece, has_more = pieces[len(body)]
            if not piece:
                break
            body += piece
        if has_more:
            # A packet that never becomes whole makes way for others.
            while len(self.waiting) > self.MOST:
                self.waiting.pop(next(iter(self.waiting)))
            return None, 0
        del self.waiting[key]
        head = pieces[0][0]
        head = head[:2] + struct.pack(">HHH", len(head) + len(body), int.from_bytes(data[4:6], "big"), 0) + head[8:10] + b"\0\0" + head[12:]
        return head[:10] + struct.pack(">H", 65535 - ones_sum(head)) + head[12:] + body, len(pieces)


def read_packet(data, is_damaged=False):
    """The TCP segment of a whole IPv4 packet; None where it has none. ValueError where what it has is no segment, unless that may be so."""
    if len(data) < 20 or data[0] >> 4 != 4 or data[9] != TCP:
        return None
    (total,) = struct.unpack(">H", data[2:4])
    header = 4 * (data[0] & 15)
    if not is_damaged and not is_segment(data[header:total]):
        raise ValueError(f"what is sent as TCP is no segment: {data[header:total].hex() or 'nothing'}")
    segment = read_segment(data[header:total])
    segment.source, segment.target, segment.ttl, segment.service, segment.ip_options = data[12:16], data[16:20], data[8], data[1], data[20:header]
    return segment


def is_segment(raw):
    """Whether a header is there, as long as it says."""
    return len(raw) >= 20 and 20 <= 4 * (raw[12] >> 4) <= len(raw)


def read_segment(raw):
    sport, dport, seq, ack, offset, flags, window, _, urgent = struct.unpack(">HHIIBBHHH", raw[:20])
    header = 4 * (offset >> 4)
    segment = Segment(sport, dport, seq, ack, flags, window, raw[20:header], raw[header:], urgent, offset & 15)
    segment.raw = raw
    return segment


def as_sent(segment):
    """The packet of a segment that was read with the bytes that it came with, its checksum among them; of a made one that packet."""
    made = segment.packet()
    return made if segment.raw is None else made[: len(made) - len(segment.raw)] + segment.raw


def icmp_error(kind, code, about, extra=0):
    """An error of ICMP from the tester about a segment that the stack sent (RFC 792): its header and 8 bytes."""
    body = struct.pack(">BBHHH", kind, code, 0, 0, extra) + about.packet()[:28]
    body = body[:2] + struct.pack(">H", 65535 - ones_sum(body)) + body[4:]
    return packet(TESTER, STACK, body, ICMP)
