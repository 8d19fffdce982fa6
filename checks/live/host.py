"""One end in user space with real timers, and the user on either side of the connection."""

import time
from collections import namedtuple

from tcpcore import REORDER, RETRANSMIT, TIME_WAIT, Refused, Rule
from wire import OURS


class Times(namedtuple("Times", "retransmit longest reorder time_wait")):
    """Seconds. The retransmission timeout doubles at each run-out, up to `longest`; TIME-WAIT is shortened."""


# Where nothing is lost the first is long, so that a machine under load resends nothing. Where segments are lost TIME-WAIT is
# longer than the kernel waits for its next FIN.
QUIET = Times(0.5, 1.0, 0.01, 0.3)
LOSSY = Times(0.1, 1.0, 0.01, 1.5)


class Timers:
    """When the three timers of one end run out."""

    def __init__(self, times):
        self.times = times
        self.deadlines = [None, None, None]
        self.backoff, self.released, self.phase = times.retransmit, 0, None

    def span(self, timer):
        return (self.backoff, self.times.reorder, self.times.time_wait)[timer]

    def follow(self, bits, status):
        """Starts and stops them as `bits` says; what the peer acknowledges starts the first anew."""
        now = time.monotonic()
        if status.released != self.released or status.phase != self.phase:
            self.released, self.phase, self.backoff = status.released, status.phase, self.times.retransmit
            self.deadlines[RETRANSMIT] = None
        for timer in (RETRANSMIT, REORDER, TIME_WAIT):
            if not bits >> timer & 1:
                self.deadlines[timer] = None
            elif self.deadlines[timer] is None:
                self.deadlines[timer] = now + self.span(timer)

    def run_out(self):
        """The timers whose time is over."""
        now = time.monotonic()
        for timer, deadline in enumerate(self.deadlines):
            if deadline is not None and deadline <= now:
                if timer == RETRANSMIT:
                    self.backoff = min(2 * self.backoff, self.times.longest)
                self.deadlines[timer] = now + self.span(timer)
                yield timer

    def wait(self):
        """How long until one runs out, or None."""
        running = [deadline for deadline in self.deadlines if deadline is not None]
        return max(0.0, min(running) - time.monotonic()) if running else None


class Traffic:
    """What a user sends and what it is to be handed. Where it echoes, it sends what it was handed and no more."""

    def __init__(self, outgoing=b"", wanted=b"", echoes=False):
        self.outgoing, self.wanted, self.echoes = outgoing, wanted, echoes
        self.sent = self.got = 0
        self.reads, self.ended = True, False

    def ready(self, most=1 << 16):
        """The next bytes that may be sent."""
        limit = min(len(self.outgoing), self.got) if self.echoes else len(self.outgoing)
        return self.outgoing[self.sent : min(limit, self.sent + most)]

    def take(self, bytes_):
        """Compares what was handed over with what was sent."""
        if self.wanted[self.got : self.got + len(bytes_)] != bytes_:
            raise AssertionError(f"other bytes than were sent, behind byte {self.got}")
        self.got += len(bytes_)

    def done(self):
        return self.sent == len(self.outgoing) and self.got == len(self.wanted)


class Host:
    """Our end: its user, its timers and the segments that it emits into the relay."""

    came = 0  # segments that came past the guard, in all cases

    def __init__(self, end, relay, traffic, times):
        self.end, self.relay, self.traffic = end, relay, traffic
        self.timers = Timers(times)
        self.path = []

    def guarded(self, src, dst, segment):
        """A segment of the kernel's comes past the guard, which keeps none out. What that keeps out counts as unacceptable, and but
        for an acknowledgement that is due nothing changes: so such a segment comes once more, without a guard, and has to be
        unacceptable then, too."""
        Host.came += 1
        _, report = self.end.arrive_by(src, dst, segment)
        if report.rule == Rule.UNACCEPTABLE:
            _, report = self.end.arrive_by(src, dst, segment, guard=None)
            if report.rule != Rule.UNACCEPTABLE:
                raise AssertionError("the guard keeps out a segment of the kernel's")

    def arrive(self, src, dst, segment):
        # The second program has no guard.
        if hasattr(self.end, "arrive_by"):
            self.guarded(src, dst, segment)
        else:
            self.end.arrive(src, dst, segment)
        if self.turn():
            # In TIME-WAIT only a repeated FIN is answered, and starts the time anew (RFC 9293, 3.10.7.4).
            self.timers.deadlines[TIME_WAIT] = None
            self.timers.follow(self.end.timers(), self.end.status())

    def turn(self):
        """The user reads and writes, and what is due goes out; whether anything was."""
        self.use()
        count = 0
        while (due := self.end.emit()) is not None:
            self.relay.take(OURS, *due)
            count += 1
        status = self.end.status()
        if self.path[-1:] != [status.phase]:
            self.path.append(status.phase)
        self.timers.follow(self.end.timers(), status)
        return count > 0

    def use(self):
        """Reads what is there and sends what fits, until neither moves."""
        traffic = self.traffic
        try:
            while traffic.reads and not traffic.ended and (found := self.end.receive()) is not None:
                traffic.take(found)
                traffic.ended = found == b""
            while (text := traffic.ready()) and (taken := self.end.send(text)):
                traffic.sent += taken
        except Refused:
            # Not open yet, or ended: the case looks at the phase.
            pass

    def tick(self):
        """Tells the end which timers have run out."""
        for timer in self.timers.run_out():
            self.end.timer(timer)
            self.turn()
