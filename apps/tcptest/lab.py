"""The tester's hand: segments to and from a stack, by hand, and the user of the stack. A row is a function of a Lab."""

from calls import Gone, NotSeen
from segments import ACK, FIN, PSH, RST, SPACE, SYN, TESTER, TIMES, Pieces, Segment, ahead, mss, read_packet, times

__all__ = ["Gone", "Lab", "NotMet", "NotSeen", "Peer", "TooLate", "by_timeouts", "given", "need", "timely"]

# How long a row waits for what has to come, and for what may not come, in seconds.
SOON, SILENCE = 2.0, 0.12
# The first timeout of stacks that are older than RFC 6298, in seconds (RFC 1122, 4.2.3.1), and how much longer is waited, since clocks
# go on by ticks.
FIRST_TIMEOUT, MARGIN = 3.0, 1.3


class NotMet(Exception):
    """The stack doesn't do what a row asks for."""


class TooLate(NotMet):
    """It does so at another time: where the clock is the machine's, that may have been the machine's load."""


def need(is_so, words):
    """What a row asks for."""
    if not is_so:
        raise NotMet(words)


def timely(is_so, words):
    """What a row asks for, by time."""
    if not is_so:
        raise TooLate(words)


def given(is_so, words):
    """What a row stands on: where that isn't so, nothing can be seen of what it asks for."""
    if not is_so:
        raise NotSeen(words)


def by_timeouts(count):
    """By when a segment that isn't acknowledged has gone out again so many times: the first timeout of RFC 6298 is of 1 s, and of older
    stacks of 3 s, and it doubles (RFC 6298, 2.1 and 5.5)."""
    return MARGIN * FIRST_TIMEOUT * (2**count - 1)


class Lab:
    """A stack, what is broken about it (broken.py) and the peers that the tester plays."""

    ports = 20000

    def __init__(self, stack, fault=None):
        self.stack, self.fault, self.peers, self.strays, self.called, self.story = stack, fault, [], [], [], []
        self.began, self.serial, self.pieces = stack.now(), 0, Pieces()
        if fault is not None:
            fault.begin(self)

    def now(self):
        return self.stack.now()

    def number(self):
        """Of events in their order."""
        self.serial += 1
        return self.serial

    def peer(self, port=None):
        """A new peer, with a port of its own; the stack's is new, too, if none is named."""
        Lab.ports = Lab.ports + 1 if Lab.ports < 39000 else 20001
        made = Peer(self, Lab.ports, port or Lab.ports + 20000)
        self.peers.append(made)
        return made

    def write(self, segment):
        """A segment arrives at the stack. What the stack sent before is read first, so that the log has their order."""
        self.read()
        for one in [segment] if self.fault is None else self.fault.came(segment):
            self.stack.write(one.packet())

    def read(self):
        """Takes all that the stack has sent to the peers."""
        for data in self.stack.read():
            whole, count = self.pieces.whole(data)
            try:
                segment = None if whole is None else read_packet(whole)
            except ValueError as why:
                raise NotMet(str(why)) from why
            if segment is not None:
                segment.pieces = count
                self.pass_on(segment)
        if self.fault is not None:
            for segment in self.fault.due(self.now()):
                self.deliver(segment)

    def pass_on(self, segment):
        for one in [segment] if self.fault is None else self.fault.went(segment):
            self.deliver(one if one.raw is not None and one is segment else read_packet(one.packet()))

    def deliver(self, segment):
        segment.when = self.now()
        for peer in self.peers:
            if (segment.sport, segment.dport) == (peer.port, peer.own) and segment.target == TESTER:
                peer.note("went", segment)
                peer.arrived.append(segment)
                return
        self.strays.append(segment)
        self.story.append((self.now() - self.began, "went", segment, segment.words(), self.number()))

    def wait(self, seconds, until=lambda: False):
        """Lets time pass, up to what ends the wait. Answers whether that came."""
        end = self.now() + seconds
        while True:
            self.read()
            if until():
                return True
            left = end - self.now()
            if left <= 1e-9:
                return False
            self.stack.pass_time(left if self.fault is None or self.stack.has_clock else min(left, 0.01))

    def call(self, name, *words, **wishes):
        """A user's call."""
        self.read()
        if self.fault is not None:
            words, wishes = self.fault.calls(name, words, wishes)
        answer = getattr(self.stack, name)(*words, **wishes)
        if self.stack.has_clock:
            self.stack.ask("run", 0)
        self.called.append((self.number(), self.now() - self.began, name, words, wishes, answer))
        return answer if self.fault is None else self.fault.answers(name, words, answer)

    def skip(self, seconds, until=lambda: False):
        """Lets a long time pass, which only a stack with the tester's clock can."""
        if not self.stack.has_clock:
            raise NotSeen(f"takes {seconds:.0f} s, and the stack's clock is the machine's")
        return self.wait(seconds, until)


class Peer:
    """A peer of one connection: the tester's port, the stack's, and both sides' next numbers."""

    def __init__(self, lab, own, port):
        self.lab, self.own, self.port = lab, own, port
        self.arrived, self.log, self.story = [], [], []
        self.iss, self.irs = (3_000_000_000 + own * 7919) % SPACE, 0
        self.nxt, self.rcv, self.window = self.iss, 0, 65535
        self.answer, self.user = None, None
        # Once both SYNs had timestamps all segments have them (RFC 7323, 3.2): the stack's last one.
        self.stamps, self.stamp = False, None
        # How late a SYN,ACK is answered; and whether the log is one that the judge can read (docs/JUDGE.md).
        self.delay, self.is_judged = 0.0, True

    def note(self, word, segment):
        ends = segment.source, segment.target
        raw = segment.raw if segment.raw is not None else segment.bytes()
        self.log.append(f"{word} {'.'.join(map(str, ends[0]))} {'.'.join(map(str, ends[1]))} {raw.hex()}")
        own, other = (self.irs, self.iss) if word == "went" else (self.iss, self.irs)
        if word == "went" and segment.flags & SYN:
            own = self.irs = segment.seq
        if word == "went" and segment.option(TIMES):
            self.stamp = segment.option(TIMES)[:4]
        self.story.append((self.lab.now() - self.lab.began, word, segment, segment.words(own, other), self.lab.number()))

    # Segments to the stack.
    def put(self, flags, seq=None, ack=None, **fields):
        """Sends a segment, at the next number where none is named."""
        seq = self.nxt if seq is None else seq
        ack = (self.rcv if flags & ACK else 0) if ack is None else ack
        options = fields.pop("options", b"")
        if self.stamps and self.stamp and not flags & (SYN | RST):
            options = times(int(1000 * self.lab.now()) % SPACE, int.from_bytes(self.stamp, "big")) + options
        self.stamps |= bool(flags & SYN) and options.find(bytes([TIMES, 10])) >= 0
        segment = Segment(self.own, self.port, seq, ack, flags, fields.pop("window", self.window), options, fields.pop("text", b""))
        for name, value in fields.items():
            setattr(segment, name, value)
        self.lab.read()
        self.note("came", segment)
        self.lab.write(segment)

    def text(self, data, at=0, **fields):
        """Sends text, `at` bytes behind the next number. The next number stays: `went_on` moves it."""
        self.put(fields.pop("flags", ACK | PSH), self.nxt + at, text=data, **fields)

    def went_on(self, count):
        self.nxt = (self.nxt + count) % SPACE

    def acknowledge(self, segment=None, **fields):
        """Acknowledges all up to a segment's end, or again what was acknowledged."""
        if segment is not None:
            self.rcv = segment.end()
        self.put(ACK, **fields)

    # Segments from the stack.
    def take(self, wait=SOON):
        self.lab.wait(wait, lambda: bool(self.arrived))
        return self.arrived.pop(0) if self.arrived else None

    def all(self, wait=0.05):
        """All that comes until nothing has come for so long."""
        found = []
        while (segment := self.take(wait)) is not None:
            found.append(segment)
        return found

    def until(self, holds, wait=SOON):
        """The first that this holds of, and None where none comes; the ones before it are passed over."""
        end = self.lab.now() + wait
        while (left := end - self.lab.now()) > -1e-9:
            segment = self.take(max(left, 0))
            if segment is None or holds(segment):
                return segment
        return None

    def silent(self, words, wait=SILENCE):
        found = self.take(wait)
        need(found is None, f"{words}: {self.said(found)}")

    def said(self, segment):
        return "nothing" if segment is None else segment.words(self.irs, self.iss)

    def answered(self, wait=SOON, check=need):
        """What comes has to be an acknowledgement of the next number alone."""
        found = self.take(wait)
        is_answer = found is not None and found.flags & ~PSH == ACK and found.ack == self.nxt and not found.text
        check(is_answer, f"answered by {self.said(found)}")
        return found

    def refused(self, seq, ack=None):
        """What comes has to be this reset (RFC 9293, 3.10.7.1)."""
        found = self.take()
        need(found is not None and found.flags & RST and not found.flags & SYN, f"answered by {self.said(found)}")
        need(found.seq == seq % SPACE and (ack is None or (found.flags & ACK and found.ack == ack % SPACE)), f"the reset is {self.said(found)}")
        return found

    # Openings. Most rows stand on one; of those that ask about it `check` is `need`.
    def syn(self, options=mss(1460), **fields):
        self.put(SYN, self.iss, options=options, **fields)
        self.nxt = (self.iss + 1) % SPACE

    def syn_answered(self, check=given):
        """Takes the SYN,ACK."""
        found = self.answer = self.until(lambda one: one.flags & (SYN | RST))
        is_answer = found is not None and found.flags & (SYN | ACK | RST) == SYN | ACK and found.ack == self.nxt
        check(is_answer, f"the SYN is answered by {self.said(found)}")
        self.irs, self.rcv = found.seq, (found.seq + 1) % SPACE
        return found

    def open(self, options=mss(1460), window=65535, syn_window=None, check=given, **wishes):
        """The stack listens, and the tester connects. Answers the stack's user."""
        self.lab.call("listen", self.port, **wishes)
        return self.join(options, window, syn_window, check)

    def join(self, options=mss(1460), window=65535, syn_window=None, check=given):
        self.window = window
        self.syn(options, window=window if syn_window is None else syn_window)
        self.syn_answered(check)
        self.lab.wait(self.delay)
        self.put(ACK)
        return self.accept(check)

    def open_asked(self, *words, **how):
        """Opens where the row asks about the SYN."""
        return self.asked(self.open, *words, **how)

    def asked(self, opens, *words, **how):
        """What a row asks about an opening isn't to blame where a plain SYN to another port opens nothing either."""
        try:
            return opens(*words, check=need, **how)
        except NotMet:
            self.lab.peer().open()
            raise

    def accept(self, check=given):
        def is_there():
            self.user = self.lab.call("accept", self.port)
            return self.user is not None

        check(self.lab.wait(SOON, is_there), "the stack's user isn't given the connection")
        return self.user

    def connected(self, check=given, **wishes):
        """The stack's user connects. Answers the SYN."""
        self.user = self.lab.call("connect", self.port, self.own, **wishes)
        found = self.take()
        check(found is not None and found.flags & (SYN | ACK) == SYN, f"the stack's user connects, and what comes is {self.said(found)}")
        self.irs, self.rcv = found.seq, (found.seq + 1) % SPACE
        return found

    def open_by_stack(self, options=mss(1460), window=65535, check=given, **wishes):
        """The stack connects, and the tester answers."""
        first = self.connected(check, **wishes)
        self.lab.wait(self.delay)
        self.window = window
        self.put(SYN | ACK, self.iss, options=options)
        self.nxt = (self.iss + 1) % SPACE
        found = self.take()
        check(found is not None and found.flags & ACK and found.ack == self.nxt, f"the SYN,ACK is answered by {self.said(found)}")
        return first

    # The stack's user.
    def send(self, text, **how):
        return self.lab.call("send", self.user, text, **how)

    def receive(self, most=1 << 16):
        return self.lab.call("receive", self.user, most)

    def got(self, wait=0.5, most=1 << 16):
        """What the user is handed, once anything is."""
        found = []

        def is_there():
            found.append(self.receive(most))
            return found[-1] is not None

        self.lab.wait(wait, is_there)
        return found[-1]

    def is_told(self, text, wait=SOON, check=need):
        """The user has to be handed just this text."""
        whole, end = b"", self.lab.now() + wait
        while len(whole) < len(text) and self.lab.now() < end:
            piece = self.got(0.05)
            check(piece is None or (piece and not isinstance(piece, Gone)), f"the user is told {heard(piece)}")
            whole += piece or b""
        check(whole == text, f"the user is handed {whole[:60]!r}, of {len(whole)} bytes")

    def is_told_nothing(self, words="the user is handed text"):
        found = self.receive()
        need(found is None, f"{words}: {found!r}")

    def is_gone(self, wait=SOON):
        """The user has to be told that the connection failed."""
        end = self.lab.now() + wait
        found = None
        while self.lab.now() < end and (found is None or (isinstance(found, bytes) and found)):
            found = self.got(0.05)
        need(isinstance(found, Gone), f"the user is told {heard(found)}")
        return found

    def quit(self):
        """Ends the connection from both sides."""
        if self.user is not None and not isinstance(self.user, Gone):
            self.lab.stack.leave(self.user)
        if self.nxt != self.iss:
            self.put(RST, self.nxt)

    def bytes_of(self, segments):
        """The text of segments by their numbers, whatever was sent again; counted from the byte behind the SYN."""
        whole = {}
        for one in segments:
            at = ahead(one.seq, self.irs) - 1
            whole.update({at + place: byte for place, byte in enumerate(one.text)})
        return whole


def heard(answer):
    """What a user is told, in words."""
    return {None: "nothing", b"": "the end of the stream"}.get(answer) or repr(answer)


def lasts(segments):
    """The furthest number behind the text and FIN of these."""
    furthest = segments[0].end()
    for one in segments[1:]:
        if ahead(one.end(), furthest) > 0:
            furthest = one.end()
    return furthest


def is_text(segment):
    return bool(segment.text) and not segment.flags & (SYN | FIN | RST)
