"""What is broken about a stack, so that a row is seen to fail: a fault stands between the stack and the tester. It alters what the stack
says, what the stack hears, or what the stack's user is told; so the two together are a stack that breaks one rule."""

from calls import Gone
from segments import ACK, FIN, NOP, RST, SYN, Segment, ahead, mss


class Fault:
    """Nothing is broken."""

    def begin(self, lab):
        """A row begins."""
        self.lab = lab

    def came(self, segment):
        """What of a segment to the stack arrives there."""
        return [segment]

    def went(self, segment):
        """What of a segment of the stack leaves it."""
        return [segment]

    def due(self, now):
        """What the stack is made to say without a cause, by now."""
        return []

    def calls(self, name, words, wishes):
        """What a user's call becomes."""
        return words, wishes

    def answers(self, name, words, answer):
        """What a user is told."""
        return answer


class Says(Fault):
    """Segments of the stack are altered: `how` changes one in place, or answers those that go out for it."""

    def __init__(self, how, when=lambda segment: True, after=0):
        self.how, self.when, self.after = how, when, after

    def begin(self, lab):
        super().begin(lab)
        self.left = self.after

    def went(self, segment):
        if not self.when(segment):
            return [segment]
        if self.left > 0:
            self.left -= 1
            return [segment]
        made = self.how(segment)
        segment.raw = None
        return [segment] if made is None or made is segment else made


class Hears(Fault):
    """The same of segments to the stack."""

    def __init__(self, how, when=lambda segment: True, after=0):
        self.how, self.when, self.after = how, when, after

    def begin(self, lab):
        super().begin(lab)
        self.left = self.after

    def came(self, segment):
        if not self.when(segment):
            return [segment]
        if self.left > 0:
            self.left -= 1
            return [segment]
        made = self.how(copied(segment))
        return [made] if isinstance(made, Segment) else made


class Told(Fault):
    """The user is told something else: `how` makes it of a call's answer."""

    def __init__(self, call, how):
        self.call, self.how = call, how

    def answers(self, name, words, answer):
        return self.how(answer) if name == self.call else answer


class Called(Fault):
    """A user's call becomes another one."""

    def __init__(self, call, how):
        self.call, self.how = call, how

    def calls(self, name, words, wishes):
        return self.how(words, wishes) if name == self.call else (words, wishes)


class All(Fault):
    """Several at once."""

    def __init__(self, *faults):
        self.faults = faults

    def begin(self, lab):
        for fault in self.faults:
            fault.begin(lab)

    def came(self, segment):
        return through([segment], [fault.came for fault in self.faults])

    def went(self, segment):
        return through([segment], [fault.went for fault in self.faults])

    def due(self, now):
        return [segment for fault in self.faults for segment in fault.due(now)]

    def calls(self, name, words, wishes):
        for fault in self.faults:
            words, wishes = fault.calls(name, words, wishes)
        return words, wishes

    def answers(self, name, words, answer):
        for fault in self.faults:
            answer = fault.answers(name, words, answer)
        return answer


def through(segments, stages):
    for stage in stages:
        segments = [made for one in segments for made in stage(one)]
    return segments


def copied(segment):
    made = Segment()
    made.__dict__.update(segment.__dict__)
    made.raw = None
    return made


def sets(**fields):
    """A change of these fields: each is a value, or a function of the old value."""

    def change(segment):
        for name, value in fields.items():
            setattr(segment, name, value(getattr(segment, name)) if callable(value) else value)
        return segment

    return change


def drops(_):
    return []


def without(kind):
    """A change that puts NOPs in the place of a kind of option."""

    def change(segment):
        options, at = bytearray(segment.options), 0
        while at < len(options) and options[at] != 0:
            length = 1 if options[at] == NOP else max(2, options[at + 1]) if at + 1 < len(options) else 1
            if options[at] == kind:
                options[at : at + length] = bytes([NOP]) * length
            at += length
        segment.options = bytes(options)
        return segment

    return change


def is_syn(segment):
    return bool(segment.flags & SYN)


def is_reset(segment):
    return bool(segment.flags & RST)


def has_text(segment):
    return len(segment.text) > 0 and not segment.flags & SYN


def is_alone(segment):
    """An acknowledgement alone."""
    return segment.flags & (SYN | FIN | RST) == 0 and not segment.text and bool(segment.flags & ACK)


def has_fin(segment):
    return bool(segment.flags & FIN)


class Again(Fault):
    """Of what the stack sends a second time nothing leaves it, once so many of those have; `of` says which segments are looked at."""

    def __init__(self, after=0, of=has_text):
        self.after, self.of = after, of

    def begin(self, lab):
        super().begin(lab)
        self.seen, self.left = set(), self.after

    def went(self, segment):
        if not self.of(segment):
            return [segment]
        if segment.seq in self.seen:
            self.left -= 1
            return [segment] if self.left >= 0 else []
        self.seen.add(segment.seq)
        return [segment]


class Later(Fault):
    """From so many seconds after the row's begin on, nothing that `of` holds of leaves the stack, or arrives there."""

    def __init__(self, seconds, of=lambda segment: True, hears=False):
        self.seconds, self.of, self.hears = seconds, of, hears

    def is_past(self, segment):
        return self.lab.now() - self.lab.began > self.seconds and self.of(segment)

    def went(self, segment):
        return [] if not self.hears and self.is_past(segment) else [segment]

    def came(self, segment):
        return [] if self.hears and self.is_past(segment) else [segment]


class AcknowledgesItself(Fault):
    """All text that the stack sends, behind the first segments of it, is acknowledged at once by somebody else, so that it sends more than
    its peer asked for."""

    def __init__(self, window=65535, after=0):
        self.window, self.after = window, after

    def begin(self, lab):
        super().begin(lab)
        self.left = self.after

    def went(self, segment):
        self.left -= has_text(segment)
        if has_text(segment) and self.left < 0:
            self.lab.stack.write(reply(segment, ACK, window=self.window).packet())
        return [segment]


class Bursts(Fault):
    """Where text goes out again all that went before goes out with it."""

    def begin(self, lab):
        super().begin(lab)
        self.kept = {}

    def went(self, segment):
        if not has_text(segment):
            return [segment]
        if segment.seq in self.kept:
            return [copied(one) for one in self.kept.values()]
        self.kept[segment.seq] = segment
        return [segment]


class Splits(Fault):
    """Text leaves the stack in pieces."""

    def __init__(self, size=100):
        self.size = size

    def went(self, segment):
        if len(segment.text) <= self.size:
            return [segment]
        head, tail = copied(segment), copied(segment)
        head.text, tail.text, tail.seq = segment.text[: self.size], segment.text[self.size :], segment.seq + self.size
        return [head, tail]


class Repeats(Fault):
    """What the stack says is said again and again, so many seconds later each."""

    def __init__(self, every, of=has_text, times=1000):
        self.every, self.of, self.times = every, of, times

    def begin(self, lab):
        super().begin(lab)
        self.last, self.at, self.left = None, 0.0, self.times

    def went(self, segment):
        if self.of(segment):
            self.last, self.at = copied(segment), self.lab.now() + self.every
        return [segment]

    def due(self, now):
        if self.last is None or now < self.at or self.left == 0:
            return []
        self.at, self.left = now + self.every, self.left - 1
        made = copied(self.last)
        made.raw = made.bytes()
        return [made]


class Answers(Fault):
    """The stack is made to answer each segment of a kind at once by an acknowledgement of so many numbers more."""

    def __init__(self, of, more=0):
        self.of, self.more, self.last = of, more, None

    def went(self, segment):
        self.last = segment
        return [segment]

    def came(self, segment):
        if self.of(segment) and self.last is not None:
            made = copied(self.last)
            made.seq, made.flags, made.text, made.options = self.last.end(), ACK, b"", b""
            made.ack = segment.seq + self.more
            made.raw = made.bytes()
            self.lab.deliver(made)
        return [segment]


class GivesUp(Fault):
    """The user is told after so many seconds that the connection has failed."""

    def __init__(self, seconds):
        self.seconds = seconds

    def answers(self, name, words, answer):
        return Gone("timeout") if name == "receive" and self.lab.now() - self.lab.began > self.seconds else answer


def reply(segment, flags, **fields):
    """A segment of the tester's that answers one of the stack's."""
    made = Segment(segment.dport, segment.sport, segment.ack, segment.end() if flags & ACK else 0, flags, fields.get("window", 65535))
    made.source, made.target = segment.target, segment.source
    return made


def kills(segment):
    """A segment becomes a reset that ends the connection: one that begins at the number that is expected, where it does."""
    segment.flags, segment.text, segment.options = RST, b"", b""
    return segment


def is_behind(number, segment):
    return ahead(segment.seq, number) > 0


GREATER_MSS = sets(options=lambda _: mss(1460))
