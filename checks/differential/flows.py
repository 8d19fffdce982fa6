"""One end with its times under a congestion window, written a second time: the driver of driver.py, with the windows of windows.py, told as RFC
5681 and RFC 6582 have it, around the small end of crates/test_flow. `python3 checks/differential/flows.py` writes the calls of that program
(stdin) and what they answer (stdout), which come of a loop over a wire that takes 20 ms each way and loses segments. `--check N [SEED]` makes
N random calls, runs them through the built program and compares.
"""

import pathlib
import random
import sys

import driver
import windows
from times import SECOND, compared, stored

CRATE = pathlib.Path(__file__).resolve().parents[2] / "crates" / "test_flow"
RULES = {"none": None, "reno": windows.Reno, "cubic": windows.Cubic}
STANDARD = (240 * SECOND, 3, 180 * SECOND, 300 * SECOND, None)


def path_of(rule, smss, limit):
    return RULES[rule] and RULES[rule](smss, limit)


class Flow:
    """What answers a line. A number is a segment of a byte."""

    def begin(self, rule, now, first, limit):
        self.driver = driver.Second()
        self.driver.new(now, first, *STANDARD)
        self.path, self.is_shut, self.sent_at, self.reported = path_of(rule, 1, limit), False, now, 0
        self.drops, self.repeats = 0, 0

    def choose(self, rule, smss, limit):
        self.path, self.is_shut = path_of(rule, int(smss), int(limit)), False
        self.settle()
        return "chosen"

    def settle(self):
        """The window is of the segments that both SYNs agreed on, here of one number: RFC 6928, 2; RFC 5681, 3.1 where a SYN was lost."""
        if self.path is None or self.end.una == 0 or self.path.smss == 1:
            return
        is_one = self.path.cwnd == self.path.smss
        self.path.begins_with(1)
        if is_one:
            self.path.syn_lost()

    @property
    def end(self):
        return self.driver.end

    @property
    def flight(self):
        return self.end.nxt - self.end.una

    def arrive(self, now, ack, gap, fin, window, flags):
        before, is_duplicate = self.end.una, ack == self.end.una
        answer = self.driver.arrive(now, ack, min(gap, 1), fin, window, flags)
        if not answer.startswith("taken"):
            return answer
        was, self.reported = self.reported, gap
        if self.path is None:
            return answer
        # RFC 6937, 2: DeliveredData is by how much SND.UNA and what blocks report have grown.
        self.told(now, before, max(0, self.end.una - before + gap - was), is_duplicate, window)
        if self.path.fast_recovery:
            self.path.keep_pipe(self.reported)
        self.settle()
        return answer

    def told(self, now, before, delivered, is_duplicate, window):
        self.is_shut = window == 0
        una, blocks = self.end.una, "reorder" in self.end.wants()
        # By what blocks report it grows where losses are found by time: else a gap is found lost a round trip later.
        if not self.driver.is_patient:
            delivered = una - before
        if una == before and delivered and not self.path.fast_recovery:
            self.path.delivered(delivered, self.flight, now, self.driver.estimator.srtt or 0)
        if una > before:
            said = self.progress(now, una - before, delivered, blocks)
        elif is_duplicate and self.is_shut:
            # RFC 9293, 3.8.6.1: it answers a probe.
            return
        elif is_duplicate and blocks:
            # RFC 6675, 4: in recovery what blocks report counts, and not how often.
            said = "" if self.path.fast_recovery else self.path.reported()
        elif is_duplicate and self.path.fast_recovery and self.drops == 2:
            # RFC 5681, 4.3: of all that was sent again something was lost.
            self.repeats = min(3, self.repeats + 1) if self.repeats != 2 else self.all_again(now, self.path.lost_again())
            return
        elif is_duplicate:
            said = self.path.duplicate(una, self.flight, self.end.nxt)
        else:
            return
        # RFC 6582, 3.2: the first segment goes out again, unless blocks say what is lost; all to a peer that keeps nothing out of order.
        if said.endswith("again") and not blocks:
            if self.drops == 2:
                self.repeats = self.all_again(now)
            else:
                self.driver.uses("resend-first", now)

    def progress(self, now, acked, delivered, blocks):
        """What is acknowledged in a recovery says whether the peer keeps what comes out of order, where no blocks say so."""
        recovering, cwnd = self.path.fast_recovery, self.path.cwnd
        said = self.path.acknowledged(acked if recovering else delivered, self.end.una, self.flight, now, self.driver.estimator.srtt or 0)
        if recovering and not blocks:
            if said.endswith("again"):
                self.drops = 0 if acked > 2 * self.path.smss else min(2, self.drops + 1)
            elif self.drops < 2 or self.repeats == 3 and acked > cwnd:
                self.drops = 0
        self.repeats = 0
        return said

    def all_again(self, now, _=None):
        """All that is in flight goes out again; three duplicates are behind that."""
        self.driver.uses("resend", now, self.end.una, self.end.nxt)
        self.path.finds_by_time()
        return 3

    def emit(self, now, window):
        if self.path is None:
            return self.driver.emit(now, window)
        # RFC 5681, 4.1: nothing was sent for longer than the timeout.
        if self.flight == 0 and now - self.sent_at > self.driver.estimator.rto:
            self.path.idle()
        answer = self.driver.emit(now, min(window, self.lets_out()))
        if answer.startswith("sent") and not answer.endswith(" 0"):
            self.sent_at = now
        return answer

    def lets_out(self):
        """RFC 6675, 4 and 5, 3: before a loss is found, in congestion avoidance, what blocks report has left the network, and goes out beside cwnd;
        where losses are found by time, and not a round trip behind a gap."""
        is_avoiding = self.path.cwnd >= self.path.ssthresh
        if self.reported and self.driver.is_patient and is_avoiding and self.path.is_new_loss(self.end.una):
            return self.path.cwnd + self.reported
        return int(self.path.room(0))

    def timeout(self, now):
        una, nxt, flight = self.end.una, self.end.nxt, self.flight
        timer = self.driver.timeout(now)
        if timer == "retransmit":
            self.reported = 0
        if self.path is None:
            return timer
        if timer == "retransmit" and una == 0:
            self.path.syn_lost()
        elif timer == "retransmit" and not self.is_shut:
            self.path.timed_out(flight, nxt)
        elif timer == "reorder":
            self.path.lost(una, flight, nxt)
        return timer

    def lose(self, what):
        """A loss that the caller has found (RFC 5681, 4.3); recovery of one that is repaired already is over with the next acknowledgement (RFC 8985,
        7.4.2)."""
        if self.path is None:
            return
        if what == "again":
            self.path.lost_again()
        else:
            self.path.lost(self.end.una, self.flight, self.end.una if what == "repaired" else self.end.nxt)
            self.path.finds_by_time()

    @property
    def next(self):
        return min(self.driver.all_deadlines().values(), default="-")

    def answer(self, line):
        word, *words = line.split(" ")
        if word in RULES:
            answer = self.begin(word, *map(int, words)) or ""
        elif word == "choose":
            answer = self.choose(*words)
        elif word == "user-timeout":
            self.driver.user, answer = None if words[0] == "-" else int(words[0]), "set"
        elif word == "patience":
            self.driver.is_patient, answer = words[0] == "1", "set"
        elif word == "lose":
            answer = self.lose(words[0]) or "told"
        elif word == "tick":
            answer = f"{self.timeout(int(words[0]))} {self.next}"
        elif word in ("arrive", "vouched", "emit", "train", "timeout"):
            # A device that sums, or cuts what is one segment, changes nothing here.
            answer = getattr(self, {"vouched": "arrive", "train": "emit"}.get(word, word))(*map(int, words))
        else:
            answer = self.driver.uses(word, *map(int, words))
        shown = self.path.shown() if self.path else f"{windows.HIGH} {windows.HIGH}"
        suspect = " suspect" if self.driver.expiries >= self.driver.suspect else ""
        return f"{answer} {self.next} {shown} {self.flight}{suspect}"


class Turns(driver.Turns):
    """The caller's loop of driver.py over a flow, to which it passes a window, too."""

    blocks, emits_by, expires_by = True, "emit", "timeout"

    def __init__(self, rule, first, limit, lost=(), way=driver.WAY, window=driver.MOST):
        self.second, self.lines, self.lost, self.shown, self.way, self.window = Flow(), [], set(lost), 9, way, window
        self.expired, self.now, self.count, self.next, self.early, self.coming = [], 0, 0, first, set(), []
        self.call(f"{rule} 0 {first} {limit}")

    def emits(self):
        while (answer := self.call(f"{self.emits_by} {self.now} {self.window}"))[0] == "sent":
            start, count = int(answer[1]), int(answer[2])
            if self.count not in self.lost and count:
                self.early.add(start)
                while self.next in self.early:
                    self.next += 1
                gap = min(255, sum(number > self.next for number in self.early)) if self.blocks else 0
                self.coming.append((self.now + 2 * self.way, f"{self.next} {gap} 0 {self.shown} 0"))
            self.count += 1

    def runs(self, most):
        for _ in range(most):
            times = [at for at, _ in self.coming] + list(self.second.driver.all_deadlines().values())
            if not times:
                return
            self.now = max(self.now, min(times))
            while self.coming and self.coming[0][0] <= self.now:
                self.call(f"arrive {self.now} {self.coming.pop(0)[1]}")
            self.turn(self.expires_by)


def worked():
    """Each rule, with blocks and without: text of 200 numbers of which some are lost, an idle time, a shut window, and a lost SYN."""
    all_turns = []
    for rule in ("reno", "cubic"):
        for blocks, lost in ((True, (14, 40, 41, 77)), (False, (14, 40, 41, 77)), (True, range(50, 58)), (False, range(30, 45))):
            turns = Turns(rule, 1, 2, lost)
            turns.blocks = blocks
            turns.turn("send 100", "send 80")
            turns.runs(90)
            turns.now += 20 * SECOND
            turns.turn("send 40", "close")
            turns.runs(60)
            assert turns.second.end.una == 222, (rule, blocks, turns.second.end.una)
            all_turns.append(turns)
        late = Turns(rule, 0, 1, lost=(0, 1, 8))
        late.turn("send 30")
        late.runs(30)
        late.turn("arrive 30 0 0 0 0", "send 3")
        late.lost = range(999)
        late.runs(3)
        late.turn("arrive 30 0 0 9 0", "receive", "acknowledge")
        late.runs(2)
        late.turn("abort")
        all_turns.append(late)
        all_turns.append(chosen(rule))
        all_turns.append(found(rule))
        all_turns.append(repeated(rule))
        all_turns.append(probed(rule))
    none = Turns("none", 1, 1, (5,))
    none.turn("send 60")
    none.runs(30)
    all_turns.append(none)
    return [line for turns in all_turns for line in turns.lines]


def found(rule):
    """A caller finds losses by time: one, what was sent again of it, the same once more before that is acknowledged, and one that a probe has
    repaired."""
    turns = Turns(rule, 1, 2, lost=(8,))
    turns.call("patience 1")
    turns.turn("send 40")
    turns.runs(4)
    for what in ("found", "found", "again", "found"):
        turns.call(f"lose {what}")
        turns.runs(1)
    turns.runs(9)
    turns.turn("send 9")
    turns.call("lose repaired")
    turns.runs(9)
    assert turns.second.end.una == 50, turns.second.end.una
    return turns


def probed(rule):
    """A window that is shut is probed, and each probe is answered: none of these answers is a duplicate (RFC 9293, 3.8.6.1)."""
    turns = Turns(rule, 1, 2)
    turns.turn("send 9")
    turns.shown = 0
    turns.turn("send 1")
    turns.runs(20)
    turns.lost = range(999)
    turns.turn("send 1")
    for _ in range(4):
        turns.runs(1)
        turns.turn(f"arrive {turns.second.end.una} 0 0 0 0")
    assert turns.second.path.dupacks == 0 and not turns.second.end.again, turns.second.path.dupacks
    return turns


def repeated(rule):
    """A peer that reports three numbers behind a gap, and says so again and again while the loss is repaired: what it reports is let out, and no
    more (RFC 6675, 4)."""
    turns = Turns(rule, 1, 2, lost=(8,))
    turns.turn("send 90")
    turns.runs(4)
    una, path = turns.second.end.una, turns.second.path
    for _ in range(3):
        turns.call(f"arrive {turns.now} {una} 3 0 9 0")
    turns.call("lose found")
    for _ in range(20):
        turns.call(f"arrive {turns.now} {una} 3 0 9 0")
        turns.emits()
    assert path.fast_recovery and path.cwnd == path.ssthresh + 3, (path.cwnd, path.ssthresh)
    for _ in range(20):
        turns.call(f"arrive {turns.now} {una} 5 0 9 0")
    assert path.cwnd == path.ssthresh + 5, (path.cwnd, path.ssthresh)
    return turns


def chosen(rule):
    """A window that is chosen for an end that has sent nothing, before its SYN goes out, which is lost: both SYNs agree on smaller segments. It
    goes out by trains, within a window of the caller's of 12 numbers, and what comes is vouched for. Its path is suspect, and its user
    waits for it without a limit."""
    turns = Turns("none", 0, 1, lost=(0, 30, *range(60, 75)), window=12)
    turns.emits_by, turns.expires_by = "train", "tick"
    turns.call(f"choose {rule} 2 1")
    turns.call("user-timeout -")
    turns.turn("send 1")
    turns.runs(3)
    turns.turn("vouched 1 0 0 9 0", "send 80", "resend-first")
    turns.runs(60)
    assert turns.second.end.una == 81, turns.second.end.una
    return turns


def random_calls(draw, count):
    now = 0
    for number in range(count):
        now += draw.choice((0, 1, 1000, draw.randrange(40_000), draw.randrange(2 * SECOND), draw.randrange(20 * SECOND)))
        at = draw.choice((now, now, now, max(0, now - 5000)))
        kind = draw.randrange(60)
        if kind == 0 or number == 0:
            yield f"{draw.choice(tuple(RULES))} {at} {draw.choice((0, 1, 5))} {draw.choice((1, 2, 8))}"
        elif kind < 26:
            window = draw.choice((driver.MOST, driver.MOST, draw.randrange(30)))
            yield from [f"{draw.choice(('emit', 'emit', 'train'))} {at} {window}"] * draw.choice((1, 1, 5))
        elif kind < 40:
            ack = f"{draw.choice((draw.randrange(12), draw.randrange(100)))} {draw.choice((0, 0, 1, 3, 30))} {int(draw.randrange(30) == 0)}"
            yield from [f"{draw.choice(('arrive', 'arrive', 'vouched'))} {at} {ack} {draw.choice((0, 9, 9))} {draw.choice((0, 16, 20))}"] * draw.choice((1, 1, 4))
        elif kind < 48:
            yield f"{draw.choice(('timeout', 'tick'))} {at}"
        elif kind == 48:
            timeout, other = f"user-timeout {draw.choice(('-', 60 * SECOND))}", f"choose {draw.choice(tuple(RULES))} {draw.choice((1, 2, 9))} 1"
            yield draw.choice((timeout, other, f"patience {draw.randrange(2)}", *(f"lose {what}" for what in ("found", "again", "repaired"))))
        elif kind < 56:
            yield f"send {at} {draw.randrange(30)}"
        else:
            yield f"{draw.choice(('receive', 'acknowledge', 'acknowledge', 'close', 'resend-first') + ('abort',) * (number % 9 == 0))} {at}"


def answers_of(lines):
    flow = Flow()
    return [flow.answer(line) for line in lines]


def check(count, seed):
    lines = list(random_calls(random.Random(seed), count))
    compared(CRATE, lines, answers_of(lines), seed, "a flow")


if __name__ == "__main__":
    if sys.argv[1:2] == ["--check"]:
        check(int(sys.argv[2]), int(sys.argv[3]) if len(sys.argv) > 3 else 1)
    else:
        lines = worked() + list(random_calls(random.Random(1), 120))
        stored(CRATE, lines, answers_of(lines))
