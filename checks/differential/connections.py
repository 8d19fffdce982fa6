"""The scripted world of two connections written a second time: the second program's end (end.py, reports.py) with the second driver's times
(driver.py), under the loop of c/tcpcore/tests/world.py. `python3 checks/differential/connections.py` compares its trace with the one of
checks/programs/test_connections, line by line.
"""

import contextlib
import copy
import difflib
import io
import pathlib
import sys

from driver import LAST, Second
from end import FIN, RST, SYN, Segment
from program import TOP
from reports import Reporting
from times import SECOND, Estimator, Watch

sys.path.insert(0, f"{TOP}/c/tcpcore/tests")
import world  # noqa: E402
from tcpcore import Answer, Brought, Emission, Ending, Lent, Phase, Refused, Rule, Status, Timer, packed  # noqa: E402

CRATE = pathlib.Path(TOP) / "checks" / "programs" / "test_connections"
TIMERS = {"retransmit": Timer.RETRANSMIT, "reorder": Timer.REORDER, "time-wait": Timer.TIME_WAIT, "user": Timer.USER}
# Segments of the connection, as far as TIME-WAIT and the limit of FIN-WAIT-2 ask.
OF_CONNECTION = (Rule.UNACCEPTABLE, Rule.TAKEN, Rule.TAKEN_SHUT)


def micros(time):
    return None if time is None else round(1e6 * time)


def is_last_fin(segment, rcv_nxt):
    """Whether it has the FIN whose number is the one before RCV.NXT (RFC 9293, 3.10.7.4, eighth)."""
    return segment.has(FIN) and (segment.seq + len(segment.text) + 1) % 2**32 == rcv_nxt


class Wired:
    """The second program's end by the names that the second driver has for what it asks of one."""

    def __init__(self, config):
        self.end = Reporting(config)
        self.written = None

    una = property(lambda self: (self.end.snd_una - self.end.iss) % 2**32)
    nxt = property(lambda self: (self.end.snd_nxt - self.end.iss) % 2**32)
    rests = property(lambda self: self.end.phase == "TIME-WAIT")

    def wants(self):
        names = {timer: timer.replace("-", "") for timer in ("retransmit", "reorder", "time-wait")}
        wanted = {timer for timer, name in names.items() if self.end.timer_rule(name) is not None}
        return wanted | ({"fin-wait-2"} if self.end.phase == "FIN-WAIT-2" and not self.end.unread else set())

    def told(self, written):
        """The position of a segment, and how many numbers it takes."""
        self.written = written
        if written is None:
            return None
        s = Segment(written[1])
        return (0, 0) if s.has(RST) else ((s.seq - self.end.iss) % 2**32, len(s.text) + s.has(SYN) + s.has(FIN))

    def due(self):
        return self.told(copy.copy(self.end).emit())

    def transmit(self):
        return self.told(self.end.emit())

    def answers(self):
        return self.end.owes_ack and not self.end.owes_syn and not self.end.reset

    def emit_acknowledgement(self):
        return self.told(self.end.emit_acknowledgement())

    def expire(self, timer):
        self.end.abort() if timer == "user" else self.end.timer(timer.replace("-", ""))


class SecondConnection(Second):
    """The second driver around such an end, by the names of tcpcore.Connection."""

    def __init__(self, config, rules):
        words = {"addr": packed(config.addr), "send": config.send_capacity, "recv": config.recv_capacity, "shift": config.window_shift}
        self.end = Wired({**config._asdict(), **words})
        self.estimator = Estimator(*map(micros, rules[:5]))
        self.time_wait, self.handshake, self.user, self.fin_wait_2 = map(micros, rules[5:9])
        self.suspect, self.watch, self.window = rules.suspect_after, Watch(), None
        self.clock = self.una = 0
        self.deadlines, self.sent = {}, set()
        self.since, self.expiries, self.patience, self.bursts = None, 0, self.estimator.rto, False
        self.shut, self.left, self.postponed = False, None, False

    @classmethod
    def connect(cls, now, config, addr, port, rules, room):
        made = cls(config, rules)
        made.end.end.connect((packed(addr), port))
        made.follow()
        return made

    @classmethod
    def listen(cls, now, config, rules, room):
        made = cls(config, rules)
        made.end.end.listen()
        return made

    def poll_at(self):
        at = min(self.all_deadlines().values(), default=None)
        return None if at is None else at / 1e6

    def timeout(self, now):
        return TIMERS.get(super().timeout(micros(now)))

    def transmit(self, now):
        told = super().emit(micros(now), LAST if self.window is None else self.window)
        if told == "-":
            return None
        to, data = self.end.written
        return Emission(to, len(data), *map(int, told.split()[1:])), data

    def arrive_with_report(self, now, src, dst, data):
        end, rests = self.end.end, self.end.rests
        flags, waits = data[13], end.phase in ("CLOSING", "LAST-ACK") and end.unread
        assert not self.bursts
        if flags & RST and (rests or waits):
            return Answer.WITHHELD, end.report
        self.passes(micros(now))
        words = end.arrive(packed(src), packed(dst), data)
        report = end.report
        if rests and report.rule in OF_CONNECTION and is_last_fin(Segment(data), end.rcv_nxt):
            self.deadlines.pop("time-wait", None)
        if report.rule in OF_CONNECTION and (report.brought != Brought.NOTHING or report.window_taken):
            self.left = None
        self.measure(end.snd_wnd if report.window_taken else None)
        self.follow()
        return {"processed": Answer.DONE, "dropped": Answer.DROPPED, "not-mine": Answer.NOT_MINE}[words], report

    def measure(self, window):
        """What an acknowledgement and a window that was taken say of the path (RFC 6298, 3 and 5.7; RFC 9293, 3.8.6.1)."""
        if self.una == 0 and self.end.una > 0 and self.expiries > 0:
            self.estimator.syn_resent()
        trip = self.watch.acked(self.end.una, self.clock)
        if trip != "-":
            self.estimator.sample(int(trip))
        if window is not None:
            if self.shut and window > 0:
                self.estimator.window_opened()
                self.deadlines.pop("retransmit", None)
            if window == 0 and self.end.una > 0:
                self.since, self.expiries = None, 0
            self.shut = window == 0

    def made(self, now, call, *words):
        """What a call of the user's answers: refusals are numbers, or numbers alone in a tuple where a count is wanted."""
        self.passes(micros(now))
        found = getattr(self.end.end, call)(*words)
        self.follow()
        refusal = found[0] if isinstance(found, tuple) else found if call in ("close", "abort") else None
        if refusal is not None:
            raise Refused(refusal)
        return found

    def send(self, now, text):
        return self.made(now, "send", text)

    def consume(self, now, count):
        found = self.made(now, "receive", count)
        return len(found) if isinstance(found, bytes) else 0

    def receive(self, now):
        found = self.made(now, "receive", 1 << 20)
        return {"nothing": None, "end": b""}.get(found, found) if isinstance(found, str) else found

    def peek(self):
        beside = copy.copy(self)
        beside.end = copy.copy(self.end)
        beside.end.end = copy.copy(self.end.end)
        beside.follow = lambda: None
        text = beside.receive(0.0)
        return None if text is None else Lent(text, self.end.end.fin_taken)

    def acknowledge(self, now):
        self.made(now, "acknowledge")

    def close(self, now):
        self.made(now, "close")

    def abort(self, now):
        self.made(now, "abort")

    def status(self):
        end = self.end.end
        room = min(end.config["send"] - len(end.queue), end.limit - end.accepted)
        # What the trace doesn't show is 0.
        counts = len(end.unread), end.released, end.ordered, 0, 0, room, len(end.queue), end.flight()
        return Status(Phase(end.phase), Ending(end.ending), *counts, *[0] * 10)


def main():
    wanted = (CRATE / "stdout").read_text().splitlines()
    with open(CRATE / "stdin") as script, contextlib.redirect_stdout(io.StringIO()) as printed:
        world.run(script, SecondConnection)
    found = printed.getvalue().splitlines()
    if found != wanted:
        print("\n".join(list(difflib.unified_diff(wanted, found, "test_connections", "the second program", lineterm="", n=2))[:40]))
        sys.exit("connections.py: another world")
    assert len(found) > 1000 and SECOND == 1_000_000
    print(f"connections.py: a trace of {len(found)} lines is the same")


if __name__ == "__main__":
    main()
