"""One end's timers written a second time, from RFC 6298, RFC 9293 (3.8.3, 3.8.6.1 and 3.10.8), RFC 1337 and RFC 5681 (3.1), around the small end
of crates/test_driver: `python3 checks/differential/driver.py` writes the calls of that program (stdin) and what they answer (stdout). The calls
come of a loop over a wire that takes 20 ms each way and loses segments. `--check N [SEED]` makes N random calls, runs them through the built
program and compares.
"""

import pathlib
import random
import sys

from times import SECOND, STANDARD, Estimator, Watch, compared, stored

CRATE = pathlib.Path(__file__).resolve().parents[2] / "crates" / "test_driver"
LAST = 2**62
MOST = 2**64 - 1
WAY = 20_000


class Small:
    """The end: it sends numbers, one in a segment."""

    def __init__(self, first):
        self.una = self.nxt = self.accepted = first
        self.again, self.unread = [], 0
        self.gap = self.owed = self.rests = self.closed = self.over = False

    def wants(self):
        wanted = {"retransmit": self.una < self.nxt, "reorder": self.gap, "time-wait": self.rests,
                  "fin-wait-2": self.closed and self.una == self.accepted and not self.rests and not self.unread}  # fmt: skip
        return {timer for timer, is_wanted in wanted.items() if is_wanted and not self.over}

    def due(self):
        if self.over:
            return None
        if self.again:
            return self.again[0], 1
        return (self.nxt, 1) if self.nxt < self.accepted else (self.nxt, 0) if self.owed else None

    def transmit(self):
        due = self.due()
        if due and self.again:
            self.again.pop(0)
        elif due:
            self.nxt += due[1]
        self.owed = self.owed and self.over
        return due

    def answers(self):
        return self.owed and not self.over

    def emit_acknowledgement(self):
        due = (self.nxt, 0) if self.answers() else None
        self.owed = False
        return due

    def acknowledge(self):
        self.owed = True
        return "asked"

    def arrive(self, ack, gap, fin):
        before, self.una = self.una, max(self.una, min(self.nxt, ack))
        self.again = [number for number in self.again if number >= self.una]
        self.gap = gap == 1
        if fin == 1:
            self.owed, self.unread = True, 1
            self.rests = self.rests or self.una == self.nxt
        return self.una - before

    def expire(self, timer):
        if timer == "retransmit":
            self.again, self.gap = list(range(self.una, self.nxt)), False
        elif timer == "reorder":
            self.again = [self.una]
        else:
            self.over = True

    def resend_first(self):
        can = self.una < self.nxt and not self.over
        if can:
            self.again = [self.una]
        return can

    def resend(self, start, stop):
        """What is in flight from the first of these numbers on and before the other goes out again; whether anything is."""
        between = [number for number in range(self.una, self.nxt) if start <= number < stop]
        if not between or self.over:
            return False
        self.again = between
        return True

    def send(self, count):
        can = not self.closed and not self.over
        self.accepted += min(count, 100) if can else 0
        return can

    def close(self):
        can = self.send(1)
        self.closed = self.closed or can
        return can

    def abort(self):
        can, self.over = not self.over, True
        return can


class Second:
    """What answers a line."""

    is_patient = False

    def new(self, now, first, time_wait, suspect, handshake, user, fin_wait_2):
        self.end, self.estimator, self.watch = Small(first), Estimator(*STANDARD), Watch()
        self.clock, self.una = min(LAST, now), first
        self.time_wait, self.suspect, self.handshake, self.user = time_wait, suspect, handshake, user
        self.deadlines, self.sent = {}, set()
        self.since, self.expiries, self.patience, self.bursts = None, 0, self.estimator.rto, False
        self.shut, self.fin_wait_2, self.left = False, fin_wait_2, None
        self.postponed, self.is_patient = False, False
        self.follow()
        return "new"

    def passes(self, now):
        self.clock = max(self.clock, min(LAST, now))

    def follow(self):
        """RFC 6298, 5.1 to 5.3: a timer is started when it isn't running, and anew when something is acknowledged."""
        wanted, is_news = self.end.wants(), self.end.una != self.una
        self.una = self.end.una
        if is_news:
            trip = self.estimator.srtt
            # RFC 6298, 2: no time below the clock's granularity can be told from none.
            least = max(1, self.estimator.granularity)
            self.patience = self.estimator.rto if trip is None or self.is_patient else min(max(least, trip), self.estimator.rto)
        spans = {"retransmit": self.estimator.rto, "reorder": min(self.patience, self.estimator.rto), "time-wait": min(LAST, self.time_wait)}
        for timer, span in spans.items():
            if timer not in wanted:
                self.deadlines.pop(timer, None)
            elif timer not in self.deadlines or (is_news and timer != "time-wait"):
                self.deadlines[timer] = self.clock + span
        if "fin-wait-2" not in wanted:
            self.left = None
        elif self.left is None:
            self.left = self.clock
        if "retransmit" not in wanted or is_news:
            self.postponed = False
        if "retransmit" not in wanted:
            self.since, self.expiries = None, 0
        elif self.since is None or is_news:
            self.since, self.expiries = self.clock, 0 if is_news else self.expiries

    def given_up_at(self):
        """RFC 9293, 3.8.3: behind the first threshold, and after the time of the second."""
        limit = self.handshake if self.una == 0 else self.user
        times = []
        if self.expiries >= self.suspect and self.since is not None and limit is not None:
            times.append(self.since + min(LAST, limit))
        # The standard has no limit for FIN-WAIT-2; where the user sets one it counts from the last that came of the peer.
        if self.left is not None and self.fin_wait_2 is not None:
            times.append(self.left + min(LAST, self.fin_wait_2))
        return min(times, default=None)

    def all_deadlines(self):
        at = self.given_up_at()
        return {**({} if at is None else {"user": at}), **self.deadlines}

    def arrive(self, now, ack, gap, fin, window, flags):
        if self.bursts:
            return "emit-first"
        if self.end.rests and flags & 4:
            return "withheld"
        self.passes(now)
        if self.end.rests and fin == 1:
            # RFC 9293, 3.10.7.4, eighth: the peer's FIN again starts TIME-WAIT anew.
            self.deadlines.pop("time-wait", None)
        if fin == 1 or window > 0:
            # What is the peer's has a FIN here, or an open window.
            self.left = None
        acked = self.end.arrive(ack, gap, fin)
        if self.una == 0 and self.end.una > 0 and self.expiries > 0:
            self.estimator.syn_resent()
        trip = self.watch.acked(self.end.una, self.clock)
        if trip != "-":
            self.estimator.sample(int(trip))
        if self.shut and window > 0:
            # RFC 9293, 3.8.6.1: what expired were probes, so that what is sent into the window has a timeout of its own.
            self.estimator.window_opened()
            self.deadlines.pop("retransmit", None)
        self.shut = window == 0
        if window == 0 and self.end.una > 0:
            self.since, self.expiries = None, 0
        self.follow()
        return f"taken {acked}"

    def emit(self, now, window):
        self.passes(now)
        due = self.end.due()
        is_past = due is not None and due[0] > self.end.una and due[1] > 0 and due[0] + due[1] > self.end.una + window
        # What was sent before waits for an acknowledgement that is owed, which goes at SND.NXT.
        is_again = due is not None and due[0] < self.end.nxt
        out = self.end.emit_acknowledgement() if is_past or (is_again and self.end.answers()) else self.end.transmit()
        if out is None:
            self.bursts = False
        else:
            if out[1] and out[0] < max(self.sent, default=-1) + 1:
                self.deadlines.pop("reorder", None)
                if out[0] == self.una and not self.postponed:
                    # RFC 6298, 5: a segment isn't sent again earlier than a timeout after it went out. Once for each SND.UNA.
                    self.deadlines.pop("retransmit", None)
                    self.postponed = True
            self.watch.sent(*out, self.clock)
            self.sent.update(range(out[0], out[0] + out[1]))
        self.follow()
        return "-" if out is None else f"sent {out[0]} {out[1]}"

    def timeout(self, now):
        self.passes(now)
        passed = [timer for timer, at in self.all_deadlines().items() if at <= self.clock]
        order = [timer for timer in ("user", "retransmit", "reorder", "time-wait") if timer in passed]
        if self.bursts or not order:
            return "-"
        timer = order[0]
        self.deadlines.pop(timer, None)
        self.bursts = True
        if timer == "retransmit":
            self.expiries += 1
            self.estimator.expired()
        elif timer == "reorder":
            self.patience = min(self.estimator.rto, 2 * min(self.patience, self.estimator.rto))
        elif timer == "user":
            self.since, self.expiries, self.left = None, 0, None
        self.end.expire(timer)
        self.follow()
        return timer

    def uses(self, word, now, *count):
        self.passes(now)
        if word == "receive":
            answer, self.end.unread = self.end.unread, 0
        else:
            answer = getattr(self.end, word.replace("-", "_"))(*count)
        self.follow()
        return str(answer).lower()

    def answer(self, line):
        word, *words = line.split(" ")
        numbers = [None if word == "-" else int(word) for word in words]
        if word == "user-timeout":
            self.user, answer = numbers[0], "set"
        elif word == "patience":
            self.is_patient, answer = numbers[0] == 1, "set"
        elif word in ("new", "arrive", "emit", "timeout"):
            answer = getattr(self, word)(*numbers)
        else:
            answer = self.uses(word, *numbers)
        at = min(self.all_deadlines().values(), default="-")
        suspect = " suspect" if self.expiries >= self.suspect else ""
        return f"{answer} {at} {self.estimator.rto} {self.end.nxt - self.end.una}{suspect}"


class Turns:
    """The caller's loop, a wire that loses the segments that `lost` has, counted from 0, and a peer that keeps what comes early."""

    def __init__(self, first, limits, window, lost=(), shown=9, way=WAY):
        self.second, self.lines, self.window, self.lost, self.shown, self.way = Second(), [], window, set(lost), shown, way
        self.expired = []
        self.now, self.count, self.next, self.early, self.coming = 0, 0, first, set(), []
        self.call(f"new 0 {first} {limits}")

    def call(self, line):
        self.lines.append(line)
        answer = self.second.answer(line).split(" ")
        if line.startswith("timeout ") and answer[0] != "-":
            self.expired.append(answer[0])
        return answer

    def emits(self):
        while (answer := self.call(f"emit {self.now} {self.window}"))[0] == "sent":
            start, count = int(answer[1]), int(answer[2])
            if self.count not in self.lost and count:
                self.early.add(start)
                while self.next in self.early:
                    self.next += 1
                gap = int(any(number > self.next for number in self.early))
                self.coming.append((self.now + 2 * self.way, f"{self.next} {gap} 0 {self.shown} 0"))
            self.count += 1

    def turn(self, *calls):
        for call in calls:
            word, *rest = call.split(" ")
            self.call(" ".join([word, str(self.now), *rest]))
        self.emits()

    def runs(self, most):
        """Until nothing is to come, or so many turns have passed."""
        for _ in range(most):
            deadlines = list(self.second.all_deadlines().values())
            times = [at for at, _ in self.coming] + deadlines
            if not times:
                return
            self.now = max(self.now, min(times))
            while self.coming and self.coming[0][0] <= self.now:
                self.call(f"arrive {self.now} {self.coming.pop(0)[1]}")
            self.turn("timeout")


LIMITS = "240000000 3 180000000 300000000 -"


def worked():
    # Nothing is lost, three numbers at a time: SYN, eight of text, FIN; then the peer's FIN, which comes again; a reset in TIME-WAIT.
    orderly = Turns(0, LIMITS, 3)
    orderly.turn("send 1")
    orderly.runs(2)
    orderly.turn("send 8", "close", "send 1", "resend-first")
    orderly.runs(9)
    for fin in ("10 0 1 9 0", "10 0 1 9 0", "10 0 1 9 4", "10 0 0 9 4"):
        orderly.now += SECOND
        orderly.turn(f"arrive {fin}", "receive")
    orderly.runs(3)
    # The third of nine is lost, and lost again: the peer reports the gap, and the time for reordering doubles.
    gap = Turns(1, LIMITS, MOST, lost=(2, 9))
    gap.turn("send 9")
    gap.runs(9)
    # The same of a path that takes no time: what the clock can't tell from none is no time for reordering. And of a caller that finds
    # losses by time: the peer's gap is given a timeout.
    near, patient = Turns(1, LIMITS, MOST, lost=(2, 9), way=0), Turns(1, LIMITS, MOST, lost=(2, 9))
    patient.call("patience 1")
    for turns in (near, patient):
        turns.turn("send 9")
        turns.runs(9)
    assert near.expired == ["reorder", "reorder"] and near.now == 3000, (near.expired, near.now)
    assert patient.expired[0] == "retransmit", patient.expired
    patient.call("patience 0")
    # 600 ms there and back, where a timeout takes a second: a segment is lost within a window, and goes out again in time. Where it is lost
    # for good the timeout expires all the same.
    far, cut = (Turns(1, LIMITS, MOST, lost=lost, way=300_000) for lost in ((11,), (11, *range(24, 99))))
    for turns in (far, cut):
        for _ in range(9):
            turns.turn("send 1")
            turns.runs(3)
        turns.turn("send 15")
        turns.runs(9)
    assert far.expired == ["reorder"] and far.second.end.una == 25, far.expired
    assert "retransmit" in cut.expired, cut.expired
    # The SYN is lost twice, so that text begins with 3 s; then the last of three numbers three times.
    late = Turns(0, LIMITS, 9, lost=(0, 1, 5, 6, 7))
    late.turn("send 1")
    late.runs(4)
    late.turn("send 3")
    late.runs(9)
    # Nothing arrives: the path is suspect, and the end is given up once a user timeout is set. So is a SYN.
    silent = Turns(1, "240000000 3 180000000 - -", 4, lost=range(99))
    silent.turn("send 6")
    silent.runs(6)
    silent.lines.append("user-timeout 100000000")
    silent.second.answer(silent.lines[-1])
    silent.runs(9)
    unanswered = Turns(0, LIMITS, 4, lost=range(99))
    unanswered.turn("send 1")
    unanswered.runs(12)
    # A peer with a shut window answers: it is there.
    shut = Turns(1, "1000000 2 1000000 5000000 -", 4, lost=range(99))
    shut.turn("send 1")
    for _ in range(4):
        shut.runs(2)
        shut.turn("arrive 1 0 0 0 0")
    shut.runs(6)
    # It opens after the probes have backed the timeout off. What goes out again waits for an acknowledgement that is owed.
    opened = Turns(1, LIMITS, 9)
    opened.turn("send 2")
    opened.runs(9)
    opened.turn("arrive 3 0 0 0 0", "send 1")
    opened.lost = range(99)
    for _ in range(5):
        opened.runs(1)
    opened.turn("arrive 3 0 0 7 0", "acknowledge")
    opened.runs(2)
    opened.turn("send 2", "acknowledge")
    opened.turn("arrive 3 0 1 7 0", "resend-first")
    opened.runs(3)
    # TIME-WAIT begins anew with the peer's FIN again, and with nothing else that comes or goes out.
    resting = Turns(1, LIMITS, 9)
    resting.turn("send 1", "close")
    resting.runs(9)
    resting.turn("arrive 3 0 1 9 0")
    for stray in ("3 0 0 9 0", "3 1 0 9 0", "3 0 1 9 0", "3 0 0 0 0", "3 0 0 9 4"):
        resting.now += 70 * SECOND
        resting.turn(f"arrive {stray}", "acknowledge", "timeout")
    resting.runs(3)
    # FIN-WAIT-2 has a limit, which counts anew when something comes, and ends once the peer has closed.
    alone = Turns(1, "1000000 3 180000000 300000000 60000000", 9)
    alone.turn("send 1", "close")
    alone.runs(9)
    gone = Turns(1, "1000000 3 180000000 300000000 60000000", 9)
    gone.turn("send 1", "close")
    gone.runs(1)
    gone.now += 50 * SECOND
    gone.turn("arrive 3 0 1 9 0")
    gone.runs(3)
    # A peer that is heard is there, and while something is unread nothing is asked of it.
    heard = Turns(1, "1000000 3 180000000 300000000 60000000", 9)
    heard.turn("send 1", "close")
    heard.runs(1)
    for coming in ("3 0 0 9 0", "3 0 0 0 0"):
        heard.now += 40 * SECOND
        heard.turn(f"arrive {coming}")
    heard.runs(3)
    assert heard.expired == ["user"] and heard.now == 2 * WAY + 100 * SECOND, (heard.expired, heard.now)
    unread = Turns(1, "1000000 3 180000000 300000000 60000000", 9)
    unread.turn("send 1", "close")
    unread.turn("arrive 1 0 1 9 0")
    unread.runs(9)
    assert not unread.expired and unread.second.end.una == 3, unread.expired
    unread.now += 90 * SECOND
    unread.turn("timeout", "receive")
    unread.runs(9)
    assert unread.expired == ["user"], unread.expired
    # Nothing is taken in a burst, no timer expires, and time doesn't go back.
    burst = ["new 7 1 5 3 - - -", "send 7 4", "emit 7 100", "emit 6 100", "timeout 1000006", "timeout 1000007", "arrive 1000008 2 0 0 9 0", "timeout 9000000",
             "send 9000000 1", "emit 8000000 100", "arrive 9000000 2 0 1 9 0", "emit 9000000 1", "emit 9000000 1", "arrive 9000000 2 0 1 9 0",
             "emit 9000000 0", "resend-first 9000001", "emit 9000001 0", "emit 9000001 0", f"timeout {MOST}", f"emit {MOST} 3", f"abort {MOST}",
             f"abort {MOST}", "emit 9000002 3", "close 9000003", f"timeout {MOST}"]  # fmt: skip
    # The second and third of five numbers go out again, then a part of what is in flight, and nothing of what isn't.
    stretch = ["new 0 1 5000000 3 - - -", "send 0 5", *["emit 0 9"] * 6, "resend 1000 1 3", *["emit 1000 9"] * 3, "arrive 2000 2 1 0 9 0",
               "resend 2000 0 4", "timeout 2000", *["emit 2000 9"] * 3, "resend 3000 5 9", "resend 3000 3 3", "resend 3000 0 2", "emit 3000 9",
               f"resend 4000 4 {MOST}", *["emit 4000 9"] * 2, "abort 5000", "resend 5000 0 9"]  # fmt: skip
    turns = (orderly, gap, near, patient, far, cut, late, silent, unanswered, shut, opened, resting, alone, gone, heard, unread)
    return [line for turn in turns for line in turn.lines] + burst + stretch


def random_calls(draw, count):
    now = 0
    for number in range(count):
        now += draw.choice((0, 1, 1000, draw.randrange(40_000), draw.randrange(2 * SECOND), draw.randrange(100 * SECOND)))
        at = draw.choice((now, now, now, max(0, now - 5000)))
        kind = draw.randrange(20)
        if kind == 0 or number == 0:
            limits = [draw.choice(("-", draw.randrange(200 * SECOND), MOST)) for _ in range(3)]
            time_wait = draw.choice((draw.randrange(100 * SECOND), MOST))
            yield f"new {at} {draw.choice((0, 1, 5))} {time_wait} {draw.randrange(4)} {limits[0]} {limits[1]} {limits[2]}"
        elif kind < 9:
            yield f"emit {at} {draw.choice((0, 1, 2, 5, MOST))}"
        elif kind < 12:
            flags = draw.choice((0, 16, 20, 4))
            yield f"arrive {at} {draw.randrange(12)} {draw.randrange(2)} {draw.choice((0, 0, 1))} {draw.choice((0, 9))} {flags}"
        elif kind < 16:
            yield f"timeout {at}"
        elif kind == 16:
            yield draw.choice((f"user-timeout {draw.randrange(100 * SECOND)}", "user-timeout -", "patience 0", "patience 1"))
        elif kind < 19:
            yield f"send {at} {draw.randrange(4)}"
        else:
            yield draw.choice((f"receive {at}", f"acknowledge {at}", f"close {at}", f"resend-first {at}", f"abort {at}"))


def answers_of(lines):
    second = Second()
    return [second.answer(line) for line in lines]


def check(count, seed):
    lines = list(random_calls(random.Random(seed), count))
    compared(CRATE, lines, answers_of(lines), seed, "a driver")


if __name__ == "__main__":
    if sys.argv[1:2] == ["--check"]:
        check(int(sys.argv[2]), int(sys.argv[3]) if len(sys.argv) > 3 else 1)
    else:
        lines = worked() + list(random_calls(random.Random(1), 120))
        stored(CRATE, lines, answers_of(lines))
