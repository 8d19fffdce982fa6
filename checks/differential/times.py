"""Timeouts and round trips written a second time, in fractions, from RFC 6298, with windows.py beside: `python3
checks/differential/times.py` writes the calls of crates/test_timing (stdin) and what they answer (stdout). `--check N [SEED]` makes N
random calls, runs them through the built program and compares. SRTT and RTTVAR are kept in whole microseconds, rounded down, and every
other number as the RFC has it.
"""

import pathlib
import random
import subprocess
import sys
from fractions import Fraction

import windows

CRATE = pathlib.Path(__file__).resolve().parents[2] / "crates" / "test_timing"
SECOND = 1_000_000
LONGEST = 2**40
ALPHA, BETA, K = Fraction(1, 8), Fraction(1, 4), 4


class Estimator:
    """RFC 6298, 2 and 5: the timer's rules, with times in microseconds."""

    def __init__(self, first, least, greatest, granularity, after_syn):
        self.least, self.greatest, self.granularity = least, greatest, granularity
        self.initial, self.after_syn = first, after_syn
        self.srtt = self.rttvar = None
        self.rto = self.bounded(first)

    def bounded(self, rto):
        return min(max(rto, self.least), self.greatest)

    def sample(self, r):
        r = min(r, LONGEST)
        if self.srtt is None:
            srtt, rttvar = Fraction(r), Fraction(r, 2)
        else:
            rttvar = (1 - BETA) * self.rttvar + BETA * abs(self.srtt - r)
            srtt = (1 - ALPHA) * self.srtt + ALPHA * r
        self.srtt, self.rttvar = int(srtt), int(rttvar)
        self.rto = self.bounded(self.srtt + max(self.granularity, K * self.rttvar))

    def expired(self):
        self.rto = min(self.rto * 2, self.greatest)

    def window_opened(self):
        """RFC 9293, 3.8.6.1: what expired were probes of a window that was shut, and no loss of what was sent."""
        if self.srtt is not None:
            self.rto = self.bounded(self.srtt + max(self.granularity, K * self.rttvar))

    def syn_resent(self):
        if self.initial < self.after_syn:
            self.rto = self.bounded(self.after_syn)

    def shown(self):
        srtt, rttvar = ("-", "-") if self.srtt is None else (self.srtt, self.rttvar)
        return f"{srtt} {rttvar} {self.rto}"


def is_sound(first, least, greatest, granularity, after_syn):
    return 0 < least <= greatest <= LONGEST and granularity <= LONGEST


class Watch:
    """RFC 6298, 3: of each number how often it was sent is remembered, so that who was sent once is looked up and not concluded."""

    def __init__(self):
        self.times_sent, self.timed = {}, None

    def sent(self, start, count, now):
        numbers = range(start, start + count)
        again = any(number in self.times_sent for number in numbers)
        for number in numbers:
            self.times_sent[number] = self.times_sent.get(number, 0) + 1
        # A segment that leaves a gap is new as well, but what lies in the gap can't be new any more.
        for number in range(0, start if count and not again else 0):
            self.times_sent.setdefault(number, 0)
        if count and again:
            self.timed = None
        elif count and self.timed is None:
            self.timed = (numbers, now)
        return "sent"

    def acked(self, una, now):
        if self.timed is None or self.timed[0][-1] >= una:
            return "-"
        numbers, sent = self.timed
        assert all(self.times_sent[number] == 1 for number in numbers)
        self.timed = None
        return str(max(0, now - sent))


STANDARD = (SECOND, SECOND, 60 * SECOND, 1000, 3 * SECOND)


class Second:
    """What answers a line."""

    def __init__(self):
        self.estimator, self.watch, self.windows = Estimator(*STANDARD), Watch(), windows.Windows()

    def answer(self, line):
        word, *numbers = line.split(" ")
        numbers = [int(number) for number in numbers]
        if self.windows.knows(word):
            return self.windows.answer(word, numbers)
        if word == "watch":
            self.watch = Watch()
            return "new"
        if word in ("sent", "acked"):
            return getattr(self.watch, word)(*numbers)
        if word == "estimator" and not is_sound(*numbers):
            return "unsound"
        if word in ("estimator", "standard"):
            self.estimator = Estimator(*(numbers or STANDARD))
        else:
            getattr(self.estimator, word.replace("-", "_"))(*numbers)
        return self.estimator.shown()


# The handshake's timer expires twice, and data begin with 3 s; round trips of one length, then longer and shorter ones; eight expiries, up to
# the greatest timeout; a long round trip, and one above the longest.
WORKED = [
    "standard", "expired", "expired", "syn-resent", "sample 400000", "sample 400000", "sample 1200000", "sample 10000", "sample 10001", "sample 0",
    "sample 7", *["expired"] * 8, "sample 30000000", "sample 1099511627777", "syn-resent", "sample 5",
    # A path of a few microseconds and no bounds to speak of: the granularity is what is left. Then a first timeout of 3 s, which a SYN keeps.
    "estimator 1000 1 60000000 50 3000000", "syn-resent", "sample 3", *["sample 3"] * 12, "expired",
    "estimator 3000000 1000000 60000000 1000 3000000", "expired", "syn-resent",
    # The first timeout and 3 s are out of the bounds.
    "estimator 10 200 1000000 1 3000000", "syn-resent", "estimator 9000000 200 1000000 1 0",
    # Probes of a shut window have expired: before any measurement that changes nothing, behind one the timeout is what was measured.
    "standard", "expired", "expired", "window-opened", "sample 400000", *["expired"] * 7, "window-opened", "window-opened", "expired",
    # Each bound of sound rules, and one past it.
    "estimator 1 0 1 1 1", "estimator 1 1 1 1 1", "estimator 1 2 1 1 1", "estimator 1 1 1099511627776 1099511627776 1", "sample 1099511627776",
    "estimator 1 1 1099511627777 1 1", "estimator 1 1 1 1099511627777 1",
    # Two segments, of which the first is timed, and acknowledged by what covers it.
    "watch", "sent 0 1 1000", "acked 1 41000", "sent 1 1460 50000", "sent 1461 1460 60000", "acked 1460 90000", "acked 1461 91000", "acked 2921 92000",
    # What is sent again ends the timing, also where one number of it is, and so does a probe of the byte before.
    "sent 2921 100 100000", "sent 2921 100 200000", "acked 3021 300000", "sent 3021 100 400000", "sent 3120 10 410000", "acked 3130 500000",
    "sent 3130 5 600000", "sent 3134 1 600001", "acked 3135 600002",
    # An acknowledgement without numbers is never timed, and ends nothing.
    "sent 3135 0 700000", "acked 3135 700001", "sent 3135 2 700002", "sent 3000 0 700003", "acked 3137 700010", "acked 3137 700011",
    # The clock went back.
    "sent 3137 1 800000", "acked 3138 799999",
]  # fmt: skip


def random_calls(draw, count):
    position = acknowledged = now = 0
    for _ in range(count):
        now += draw.choice((0, 1, 1000, draw.randrange(SECOND)))
        kind = draw.randrange(10)
        if kind == 0:
            bounds = sorted(draw.choice((0, 1, 1000, SECOND, draw.randrange(100 * SECOND), LONGEST, LONGEST + 1)) for _ in range(2))
            yield "estimator " + " ".join(map(str, (draw.randrange(4 * SECOND), *bounds, draw.choice((0, 1000, draw.randrange(SECOND))), 3 * SECOND)))
        elif kind < 4:
            yield f"sample {draw.choice((0, 1, draw.randrange(1000), draw.randrange(10 * SECOND), 2**draw.randrange(62)))}"
        elif kind == 4:
            yield draw.choice(("expired", "expired", "window-opened", "syn-resent"))
        elif kind < 7:
            length = draw.choice((0, 1, 3, 10))
            yield f"sent {position} {length} {now}"
            position += length
        elif kind == 7:
            start = draw.randrange(max(0, position - 20), position + 1)
            length = draw.randrange(12)
            yield f"sent {start} {length} {now}"
            position = max(position, start + length if length else 0)
        else:
            acknowledged = draw.randrange(acknowledged, position + 1)
            yield f"acked {acknowledged} {now}"


def answers_of(lines):
    second = Second()
    return [second.answer(line) for line in lines]


def compared(crate, lines, wanted, seed, what):
    """What the built program of a crate answers to these lines is compared with what is wanted; the first that differs ends all."""
    program = crate / "out" / crate.name
    if not program.exists():
        sys.exit(f"build it first: (cd {crate} && rt run </dev/null)")
    text = "".join(line + "\n" for line in lines)
    out = subprocess.run([program], input=text, capture_output=True, text=True)
    for number, (call, right, got) in enumerate(zip(lines, wanted, out.stdout.splitlines()), 1):
        if right != got:
            sys.exit(f"seed {seed}, call {number}: {call}\n  {got}\n  wanted {right}")
    if len(out.stdout.splitlines()) != len(lines) or out.returncode != 0:
        sys.exit(f"seed {seed}: status {out.returncode}, {len(out.stdout.splitlines())} answers in place of {len(lines)}")
    print(f"{len(lines)} calls of {what}, no difference")


def stored(crate, lines, answers):
    """The calls and their answers become the stored rows of a crate."""
    for name, texts in (("stdin", lines), ("stdout", answers)):
        (crate / name).write_text("".join(text + "\n" for text in texts))


def check(count, seed):
    draw = random.Random(seed)
    lines = [*random_calls(draw, count), *windows.random_calls(draw, count)]
    compared(CRATE, lines, answers_of(lines), seed, "timeouts, round trips and windows")


if __name__ == "__main__":
    if sys.argv[1:2] == ["--check"]:
        check(int(sys.argv[2]), int(sys.argv[3]) if len(sys.argv) > 3 else 1)
    else:
        rows = [*WORKED, *windows.WORKED]
        stored(CRATE, rows, answers_of(rows))
