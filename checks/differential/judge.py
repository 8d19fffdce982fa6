"""A judge of one end after docs/JUDGE.md: a second program, written apart from the first.

    python3 checks/differential/judge.py [--complete] LOG

It keeps each byte of the stream by its position and the numbers of each segment that came in a set, as far as they aren't
acknowledged, and writes what `tcpjudge` writes.
"""

import struct
import sys

from end import ACK, FIN, HALF, RST, SPACE, SYN
from program import word_sum

MSS, SHIFT, PERMITTED, BLOCKS, FAST_OPEN = 2, 3, 4, 5, 34
# Its option, and those of experiments, as it was before (RFC 6994).
MAY_OPEN_FAST = {FAST_OPEN, 253, 254}
# How long the body of each is, where that is one of a few.
SIZES = {MSS: [2], SHIFT: [1], PERMITTED: [0], BLOCKS: [8, 16, 24, 32], FAST_OPEN: range(39), 253: range(39), 254: range(39)}
OF_SYNS = {MSS, SHIFT, PERMITTED}
# What a SYN with options that can't be read counts as having.
ANY_OFFER = [(SHIFT, bytes([14])), (PERMITTED, b""), (FAST_OPEN, b"")]
# Where more segments want a reset than these, none is judged.
MOST_ANSWERS = 1024
# The rule that damage on the path breaks too.
WRONG_SUM = "the checksum is wrong"
# Rules that want a log of which nothing is missing.
OF_WHOLE_LOGS = ("BeforeAck", "AfterReset", "Gap", "BehindNext", "BeyondWindow", "StrayReset", "AckBeyond", "AckBack", "Unoffered", "Unpermitted", "BlockBeyond")

UNJUDGED = "note: order, acknowledgements and blocks aren't judged, as segments may be missing\n"


class Malformed(Exception):
    """Why bytes are no segment."""


def options_of(data, end):
    """The options that a rule speaks of, each as (kind, body); the faults of all (RFC 9293, 3.1 and 3.2)."""
    found, at = [], 20
    while at < end and data[at] != 0:
        if data[at] == 1:
            at += 1
            continue
        length = data[at + 1] if at + 1 < end else 0
        if length < 2 or at + length > end:
            raise Malformed(f"no option begins at byte {at}")
        if length - 2 in SIZES.get(data[at], []):
            found.append((data[at], data[at + 2 : at + length]))
        at += length
    for place in range(at, end):
        if data[place]:
            raise Malformed(f"the padding at byte {place} is not zero")
    return found


class Seen:
    """A segment as a judge sees it. One whose options can't be read has a fault, and counts as one that offers what a SYN may."""

    def __init__(self, source, target, data):
        if len(data) < 20:
            raise Malformed("a segment has at least 20 bytes")
        if len(data) > 65515:
            raise Malformed("a segment has at most 65515 bytes")
        if word_sum(source, target, data) % 65535:
            raise Malformed(WRONG_SUM)
        end = 4 * (data[12] >> 4)
        if not 20 <= end <= len(data):
            raise Malformed("the data offset is wrong")
        self.ports = struct.unpack(">HH", data[:4])
        self.seq, self.ack = struct.unpack(">II", data[4:12])
        self.flags, self.text = data[13], data[end:]
        self.window = int.from_bytes(data[14:16], "big")
        try:
            self.options, self.fault = options_of(data, end), None
        except Malformed as fault:
            self.options, self.fault = ANY_OFFER, fault
        self.kinds = {kind for kind, _ in self.options}

    def has(self, flag):
        return bool(self.flags & flag)

    def numbers(self):
        """SEG.LEN: the numbers of SYN, text and FIN (RFC 9293, 3.4)."""
        return len(self.text) + self.has(SYN) + self.has(FIN)


class Judge:
    """What one end has said and heard so far. Each rule is a method that answers its line, or None."""

    def __init__(self):
        self.send_nothing()
        # whether the end's SYN was acknowledged, and whether a reset came
        self.is_acked = self.is_reset = False
        # whether a SYN had the option of TCP Fast Open, or text (RFC 7413)
        self.is_fast = False
        # whether the end reset the connection
        self.is_ended = False
        self.segments, self.syns, self.offered = [], [], set()
        # the acknowledgement that went, the furthest one
        self.told = None
        # the ports of the last SYN that went, unless a reset came behind it
        self.ports = None
        # the furthest position that was acknowledged; the greatest window in bytes, and the greatest shift
        self.acked, self.window, self.shift = 0, 0, 0
        # the number of each reset that answers what came, and what it acknowledges; and how many segments want one
        self.answers, self.unanswered = set(), 0

    def send_nothing(self):
        """No SYN, no byte and no FIN went."""
        self.initial, self.fin = None, None
        # the position of the last byte that is acknowledged, and the byte at each behind it, as far as none is missing
        self.released, self.stream = 0, {}

    def last(self):
        """The position of the last byte that went without a gap."""
        return self.released + len(self.stream)

    def nearest(self, number, initial):
        """The position of a number that is the nearest to that."""
        ahead = (number - initial - self.last()) % SPACE
        return max(0, self.last() + (ahead if ahead < HALF else ahead - SPACE))

    def next(self):
        """SND.NXT as a position, as far as it is known."""
        return self.last() + 1 + (self.fin is not None)

    def opens_fast(self, seen):
        return seen.has(SYN) and not seen.has(RST) and (not seen.kinds.isdisjoint(MAY_OPEN_FAST) or len(seen.text) > 0)

    def came(self, seen):
        if self.ports not in (None, seen.ports[::-1]):
            return
        self.await_reset(seen)
        self.widen(seen)
        if seen.has(RST) and not self.is_acked:
            self.send_nothing()
        elif self.initial is not None and seen.has(ACK) and not seen.has(RST):
            self.release(self.nearest(seen.ack, self.initial))
        self.is_reset |= seen.has(RST)
        if seen.has(RST):
            self.ports = None
        else:
            self.hear(seen)

    def is_own(self, number):
        """Whether a number is from the initial one up to SND.NXT."""
        return (number - self.initial) % SPACE <= self.next()

    def await_reset(self, seen):
        """Keeps the reset that answers a segment, unless this is one itself or acknowledges an own number (RFC 9293, 3.5.2)."""
        if self.initial is None or seen.has(RST):
            return
        if not seen.has(ACK):
            self.answers.add((0, (seen.seq + seen.numbers()) % SPACE))
            self.unanswered += 1
        elif not self.is_own(seen.ack):
            self.answers.add((seen.ack, None))
            self.unanswered += 1

    def widen(self, seen):
        """What a segment allows of the stream (RFC 9293, 3.8.6). The window of a SYN isn't scaled (RFC 7323, 2.2)."""
        if seen.has(RST):
            return
        if seen.has(ACK) and self.initial is not None and (position := self.nearest(seen.ack, self.initial)) <= self.next():
            self.acked = max(self.acked, position)
        self.window = max(self.window, seen.window if seen.has(SYN) else seen.window << min(14, self.shift))
        if seen.has(SYN):
            self.shift = max([self.shift, *(body[0] for kind, body in seen.options if kind == SHIFT)])

    def hear(self, seen):
        """What came with a segment that is no reset."""
        self.segments.append({(seen.seq + i) % SPACE for i in range(seen.numbers())})
        if seen.has(SYN):
            self.offered |= seen.kinds
            if self.told is None or self.is_reset:
                self.syns.append(seen.seq)
        self.is_fast |= self.opens_fast(seen)

    def release(self, position):
        """Forgets the bytes before the position that is acknowledged, unless that is beyond all that went."""
        last = self.last()
        if position <= self.next():
            self.is_acked |= position > 0
            for place in range(self.released + 1, min(position, last + 1)):
                del self.stream[place]
                self.released = place

    def went(self, seen):
        """The first rule that is broken, as (name, words), or None. The segment is known from then on."""
        place = self.place(seen)
        positions = self.initial_number, self.not_before_first, self.bytes_stay, self.fin_stays
        order = () if self.is_reset else (self.not_before_ack, self.not_after_reset, self.no_gap, self.not_ahead, self.in_window, self.not_stray)
        rules = self.form, *positions, self.acknowledgement, self.answer, self.permission, self.blocks, *order
        found = next((broken for rule in rules if (broken := rule(seen, place))), None)
        self.learn(seen, place)
        return found

    # ---- positions (RFC 9293, 3.4)

    def place(self, seen):
        """Where the text begins: the position nearest to the last byte that went. None before a SYN, in a reset and before
        position 1, that of the first byte."""
        initial = self.initial
        if initial is None and seen.has(SYN):
            initial = seen.seq
        if initial is None or seen.has(RST):
            return None
        place = self.nearest(seen.seq, initial) + seen.has(SYN)
        return place if place > 0 else None

    def learn(self, seen, place):
        is_here = self.ports in (None, seen.ports)
        if seen.has(RST) and self.is_acked and self.initial is not None and is_here and seen.seq == (self.initial + self.next()) % SPACE:
            self.is_ended = True
        if seen.has(SYN) and not seen.has(RST):
            self.is_ended, self.ports = False, seen.ports
        if self.initial is None and seen.has(SYN) and not seen.has(RST):
            self.initial = seen.seq
        if place is not None and place <= self.last() + 1 and not self.keeps_alive(seen, place):
            for position, byte in enumerate(seen.text, place):
                if position > self.released:
                    self.stream.setdefault(position, byte)
        if place is not None and seen.has(FIN):
            self.fin = place + len(seen.text)
        self.is_fast |= self.opens_fast(seen)
        if self.goes_further(seen):
            self.told, self.syns = seen.ack, []
            self.segments = [numbers for numbers in self.segments if not all(is_before(number, seen.ack) for number in numbers)]

    def goes_further(self, seen):
        """Whether it has an acknowledgement of what came that isn't less than the furthest one, or begins after a SYN."""
        if not seen.has(ACK) or seen.has(RST) or not self.is_of_came(seen.ack):
            return False
        return is_from(self.told, seen.ack) or self.begins(seen.ack)

    def is_of_came(self, number):
        """Whether what came goes on to this number from the furthest acknowledgement, or from a SYN."""
        return (self.told is not None and self.all_came(self.told, number)) or self.begins(number)

    def begins(self, number):
        """Whether each number between a SYN that came and this one came."""
        return any(self.all_came((syn + 1) % SPACE, number) for syn in self.syns)

    def keeps_alive(self, seen, place):
        """Whether it is one byte right before SND.NXT (RFC 9293, 3.8.4)."""
        return len(seen.text) == 1 and place == self.next() - 1 and not seen.has(SYN) and not seen.has(FIN)

    # ---- rules

    def form(self, seen, place):
        if seen.kinds & OF_SYNS and not seen.has(SYN):
            return "SynOption", "an option of SYNs in another segment (RFC 9293, 3.2)"
        if any(kind == SHIFT and body[0] > 14 for kind, body in seen.options):
            return "GreatShift", "a shift above 14 (RFC 7323, 2.3)"
        if not seen.flags & (ACK | SYN | RST):
            return "NoAck", "no ACK (RFC 9293, 3.1)"
        return None

    def initial_number(self, seen, place):
        if self.initial in (None, seen.seq) or not seen.has(SYN) or seen.has(RST):
            return None
        return "OtherInitial", f"a SYN at {seen.seq}, and the first at {self.initial} (RFC 9293, 3.4)"

    def not_before_first(self, seen, place):
        takes = len(seen.text) > 0 or seen.has(FIN)
        if self.initial is None or seen.has(RST) or place is not None or not takes or self.keeps_alive(seen, 0):
            return None
        return "BeforeFirst", f"text or FIN before the first byte of the stream, at {seen.seq} (RFC 9293, 3.4)"

    def bytes_stay(self, seen, place):
        if place is None or self.keeps_alive(seen, place) or all(self.stream.get(position, byte) == byte for position, byte in enumerate(seen.text, place)):
            return None
        return "OtherByte", f"another byte where one went before, in the text at {seen.seq} (RFC 9293, 3.4)"

    def fin_stays(self, seen, place):
        if place is None or self.keeps_alive(seen, place):
            return None
        end, behind = place + len(seen.text), self.last() + 1
        if self.fin is None:
            fin = end
            is_broken = seen.has(FIN) and end < behind
            end = behind
        else:
            fin = self.fin
            is_broken = (len(seen.text) > 0 and end > fin) or (seen.has(FIN) and end != fin)
        return ("BeyondFin", f"text or FIN up to position {end}, and the FIN at {fin} (RFC 9293, 3.4)") if is_broken else None

    def not_before_ack(self, seen, place):
        if place is None or self.is_acked or self.is_fast or seen.has(SYN) or not seen.text:
            return None
        return "BeforeAck", f"text before the SYN is acknowledged, at {seen.seq} (RFC 9293, 3.10.2)"

    def not_after_reset(self, seen, place):
        if place is None or not self.is_ended or not (seen.text or seen.has(FIN)):
            return None
        return "AfterReset", f"text or FIN after the end's own reset, at {seen.seq} (RFC 9293, 3.10.5)"

    def no_gap(self, seen, place):
        if place is None or place <= self.next() or not (seen.text or seen.has(FIN)):
            return None
        return "Gap", f"text or FIN behind a gap in what was sent, at {seen.seq} (RFC 9293, 3.4)"

    def not_ahead(self, seen, place):
        if place is None or place <= self.next() or seen.numbers():
            return None
        return "BehindNext", f"a segment without text behind all that was sent, at {seen.seq} (RFC 9293, 3.10.7.4)"

    def in_window(self, seen, place):
        if place is None or not seen.text or seen.has(SYN) or 0 in (self.acked, self.window):
            return None
        if place + len(seen.text) <= self.acked + self.window:
            return None
        return "BeyondWindow", f"text beyond the window, at {seen.seq} (RFC 9293, 3.8.6)"

    def not_stray(self, seen, place):
        is_elsewhere = self.ports not in (None, seen.ports) or self.unanswered > MOST_ANSWERS
        if not seen.has(RST) or self.initial is None or is_elsewhere or self.is_own(seen.seq) or (seen.seq, None) in self.answers:
            return None
        if seen.has(ACK) and (seen.seq, seen.ack) in self.answers:
            return None
        return "StrayReset", f"a reset at {seen.seq}, which was neither sent nor acknowledged (RFC 9293, 3.5.2)"

    def acknowledgement(self, seen, place):
        if not seen.has(ACK) or seen.has(RST):
            return None
        if self.is_of_came(seen.ack):
            return None
        if not is_from(self.told, seen.ack):
            return "AckBack", f"an acknowledgement of {seen.ack}, and one of {self.told} before it (RFC 9293, 3.10.7.4)"
        return "AckBeyond", f"an acknowledgement of {seen.ack}, up to which not all came (RFC 9293, 3.4)"

    def all_came(self, start, end):
        return all(any((start + i) % SPACE in numbers for numbers in self.segments) for i in range((end - start) % SPACE))

    def answer(self, seen, place):
        if not (seen.has(SYN) and seen.has(ACK)) or SHIFT not in seen.kinds - self.offered:
            return None
        return "Unoffered", "a SYN answers with a window scale that no SYN offered (RFC 7323, 2.2)"

    def permission(self, seen, place):
        if BLOCKS not in seen.kinds or PERMITTED in self.offered:
            return None
        return "Unpermitted", "blocks, which no SYN that came permitted (RFC 2018, 4)"

    def blocks(self, seen, place):
        told = seen.ack if self.goes_further(seen) else self.told
        for body in (body for kind, body in seen.options if kind == BLOCKS):
            for left, right in struct.iter_unpack(">II", body):
                if not is_from(left, right) or (is_from(told, left) and not self.all_came(left, right)):
                    return "BlockBeyond", f"a block from {left} to {right}, of which not all came (RFC 2018, 3)"
        return None


def is_from(first, number):
    """Whether a number is this one or less than 2^31 ahead of it; any is where there is none."""
    return first is None or (number - first) % SPACE < HALF


def is_before(number, other):
    """Whether the other is 1 to 2^31 - 1 ahead of it."""
    return 0 < (other - number) % SPACE < HALF


def octets(word):
    return bytes(map(int, word.split(".")))


def broken_by(judge, word, source, target, data):
    """The rule that a segment breaks, as (name, words), or None. What came breaks none."""
    try:
        seen = Seen(source, target, data)
        if word == "went" and seen.fault:
            raise seen.fault
    except Malformed as fault:
        return ("Unreadable", f"no segment: {fault} (RFC 9293, 3.1)") if word == "went" else None
    return judge.went(seen) if word == "went" else judge.came(seen)


def judged(lines, is_complete=True):
    """Of each segment of a log that breaks a rule its line, the rule's name and its words; the lines of wrong checksums that are a
    note; and how many segments there are, and how many of them went."""
    judge, found, notes, count, sent = Judge(), [], [], 0, 0
    for number, line in enumerate(lines, 1):
        if line == "" or line.startswith("#"):
            continue
        count += 1
        word, source, target, digits = line.split(" ")
        sent += word == "went"
        data = b"" if digits == "-" else bytes.fromhex(digits)
        broken = broken_by(judge, word, octets(source), octets(target), data)
        if broken and not is_complete and WRONG_SUM in broken[1]:
            notes.append(number)
        elif broken and (is_complete or broken[0] not in OF_WHOLE_LOGS):
            found.append((number, *broken))
    return found, notes, count, sent


def findings(lines, is_complete=True):
    """The findings of a log alone, and how many segments there are."""
    found, _, count, _ = judged(lines, is_complete)
    return found, count


def report(lines, is_complete=True):
    """What `tcpjudge` writes of a log, and its status."""
    found, notes, count, sent = judged(lines, is_complete)
    # The first of each rule has its line.
    firsts = {rule: f"line {number}: {words}\n" for number, rule, words in reversed(found)}
    text = "".join(firsts[rule] for rule in dict.fromkeys(rule for _, rule, _ in found))
    if notes:
        text += f"note: wrong checksums: {len(notes)}, the first in line {notes[0]} (RFC 9293, 3.1)\n"
    if not is_complete:
        text += UNJUDGED
    return f"{text}segments {count} findings {len(found)}\n", int(bool(found)) if sent else 2


if __name__ == "__main__":
    with open(sys.argv[-1], encoding="ascii") as log:
        told, status = report(log.read().split("\n"), "--complete" in sys.argv)
    sys.stdout.write(told)
    sys.exit(status)
