"""Losses by time written a second time, plainly, from RFC 8985, 5 to 7: `python3 checks/differential/recovery.py` answers the calls of
crates/test_recovery, which were chosen by hand (stdin), and writes what they answer (stdout). `--check N [SEED]` makes N random calls, runs
them through the built program and compares.
"""

import pathlib
import random
import sys
from dataclasses import dataclass, replace

import times

CRATE = pathlib.Path(__file__).resolve().parents[2] / "crates" / "test_recovery"
MOST = 64


@dataclass
class Stretch:
    """RFC 8985, 5.2: what it keeps of a segment, of several that were sent at nearly one time. The first of these times is 0 where it
    isn't known."""

    start: int
    end: int
    first: int
    last: int
    again: bool


class Rack:
    """RFC 8985, 6.2."""

    def __init__(self):
        self.stretches = []
        self.nxt = 0
        self.xmit_ts = self.end_seq = self.fack = 0
        self.rtt = None
        self.reordering_seen = False
        self.mult, self.persist, self.round = 1, 16, 0

    def parts(self, start, end):
        cut = (replace(s, start=max(s.start, start), end=min(s.end, end)) for s in self.stretches)
        return [s for s in cut if s.start < s.end]

    def fit(self):
        """The two neighbours nearest in time are joined, until there are few enough."""
        while len(self.stretches) > MOST:
            pairs = list(zip(self.stretches, self.stretches[1:]))
            at = min(range(len(pairs)), key=lambda i: max(s.last for s in pairs[i]) - min(s.first for s in pairs[i]))
            a, b = pairs[at]
            first = min(a.first, b.first) if a.end == b.start else 0
            self.stretches[at : at + 2] = [Stretch(a.start, b.end, first, max(a.last, b.last), a.again or b.again)]

    def sent(self, start, count, now, min_rtt):
        if count == 0:
            return
        end = start + count
        last = self.stretches[-1] if self.stretches else None
        if start < self.nxt:
            above = max(end, self.nxt)
            self.stretches = self.parts(0, start) + [Stretch(start, end, now, now, True)] + self.parts(end, above)
        elif last and last.end == start and not last.again and now - last.first <= min_rtt // 64:
            last.end, last.first, last.last = end, min(last.first, now), max(last.last, now)
        else:
            self.stretches.append(Stretch(start, end, now, now, False))
        self.nxt = max(self.nxt, end)
        self.fit()

    def received(self, start, end, now, min_rtt):
        end = min(end, self.nxt)
        for part in self.parts(start, end):
            self.delivered(part, now, min_rtt)
        self.settled(start, end)

    def delivered(self, part, now, min_rtt):
        """6.2, steps 2 to 4, of a segment that is newly acknowledged. One of an unknown time may have come before: nothing is learnt."""
        if part.first == 0:
            return
        if part.again and now - part.last < min_rtt:
            # It came late, and wasn't lost.
            self.reordering_seen = True
            if self.round <= part.start:
                self.mult, self.persist, self.round = min(MOST, self.mult + 1), 16, self.nxt
        else:
            self.rtt = now - part.first
            if (self.xmit_ts, self.end_seq) < (part.first, part.end):
                self.xmit_ts, self.end_seq = part.first, part.end
        if self.fack < part.end:
            self.fack = part.end
        elif part.end < self.fack and not part.again:
            self.reordering_seen = True

    def settled(self, start, end):
        end = min(end, self.nxt)
        if start < end:
            self.stretches = self.parts(0, start) + self.parts(end, self.nxt)
            self.fit()

    def recovered(self):
        self.persist = max(0, self.persist - 1)
        if self.persist == 0:
            self.mult = 1

    def window(self, srtt, min_rtt, certain):
        return 0 if certain and not self.reordering_seen else min(srtt, self.mult * min_rtt // 4)

    def losses(self, window):
        """Each stretch that is lost, and when: none before a round trip is known."""
        for s in self.stretches if self.rtt is not None else []:
            if (s.last, s.end) < (self.xmit_ts, self.end_seq) or (not s.again and s.end < self.fack):
                yield s, s.last + self.rtt + window

    def lost(self, window, now):
        return next((f"{s.start} {s.end}" for s, at in self.losses(window) if at <= now), "-")

    def resent(self, at):
        """When the first outstanding segment from a position on was sent last, if it was sent again."""
        later = self.parts(at, self.nxt)
        return str(later[0].last) if later and later[0].again else "-"

    def deadline(self, window):
        return str(min((at for _, at in self.losses(window)), default="-"))

    def shown(self):
        told = f"{self.xmit_ts} {self.end_seq} {self.rtt or 0} {self.fack} {self.mult}"
        return told + (" reordered" if self.reordering_seen else "")


class Probe:
    """RFC 8985, 7."""

    def __init__(self):
        self.at = self.end_seq = None
        self.is_retrans = self.has_sample = False

    def start(self, now, srtt, one, rto_at):
        """7.2. The two conditions of 7.3 are asked here, and not when the timer fires."""
        pto = 2 * srtt + 200_000 * one if srtt else 1_000_000
        self.at = None
        if self.end_seq is None and self.has_sample:
            self.at = min(now + pto, rto_at)

    def stop(self):
        self.at = None

    def recovering(self):
        """7.1 and 7.2."""
        self.at = self.end_seq = None
        self.is_retrans = False

    def measured(self):
        self.has_sample = True

    def probed(self, nxt, again):
        self.at, self.end_seq, self.is_retrans = None, nxt, bool(again)
        self.has_sample = False

    def acked(self, una, both_came):
        """7.4.2, TLP_process_ack. By a DSACK of TLP.end_seq, or a duplicate acknowledgement of it without blocks, both came."""
        end = self.end_seq
        if end is None or una < end:
            return False
        if not self.is_retrans:
            self.end_seq = None
        elif both_came:
            self.end_seq = None
        elif una > end:
            self.end_seq = None
            return True
        return False


def answers(lines):
    rack, probe = Rack(), Probe()
    for line in lines:
        word, *numbers = line.split()
        numbers = [int(number) for number in numbers]
        if word in ("window", "lost", "deadline", "resent"):
            yield str(getattr(rack, word)(*numbers))
        elif word in ("probe", "start", "stop", "recovering", "measured", "probed", "acked"):
            probe = Probe() if word == "probe" else probe
            is_repaired = word != "probe" and getattr(probe, word)(*numbers)
            yield ("-" if probe.at is None else str(probe.at)) + (" repaired" if is_repaired else "")
        else:
            rack = Rack() if word == "rack" else rack
            if word != "rack":
                getattr(rack, word)(*numbers)
            yield rack.shown()


def random_lines(count, rng):
    """Calls as a sender makes them, and blocks of any kind; time doesn't go back, and begins with 1."""
    now, nxt = 1, 0
    for _ in range(count):
        now += rng.choice((0, 0, 10, 300, 1_500, 5_000, 20_000))
        min_rtt, window = rng.choice((0, 20_000, 100_000)), rng.choice((0, 1_000, 25_000))
        any_start = rng.randint(0, nxt + 3)
        kind = rng.choices(range(9), (40, 15, 14, 6, 3, 2, 20, 3, 12))[0]
        if kind == 0 or (kind == 1 and nxt == 0):
            length = rng.choice((0, 1, 10, 100))
            yield f"sent {nxt} {length} {now} {min_rtt}"
            nxt += length
        elif kind == 1:
            start, length = rng.randrange(nxt), rng.randint(1, 60)
            yield f"sent {start} {length} {now} {min_rtt}"
            nxt = max(nxt, start + length)
        elif kind == 2:
            yield f"received {any_start} {any_start + rng.randint(0, 80)} {now} {min_rtt}"
        elif kind == 3:
            yield f"received 0 {rng.randint(0, max(1, nxt - 500))} {now} {min_rtt}"
        elif kind == 4:
            yield f"settled {any_start} {any_start + rng.randint(0, 20)}"
        elif kind == 5:
            yield rng.choice(("recovered", f"window {rng.choice((50_000, 200_000))} {min_rtt} {rng.randint(0, 1)}"))
        elif kind == 6:
            yield rng.choice((f"lost {window} {now}", f"deadline {window}", f"resent {any_start}"))
        elif kind == 7 and rng.random() < 0.05:
            nxt = 0
            yield "rack"
        else:
            una = rng.randint(0, 4)
            yield rng.choice(
                (
                    f"start {now} {rng.choice((0, 40_000))} {rng.randint(0, 1)} {now + rng.choice((50_000, 2_000_000))}",
                    f"start {now} {rng.choice((0, 40_000))} {rng.randint(0, 1)} {now + rng.choice((50_000, 2_000_000))}",
                    "measured",
                    "measured",
                    rng.choice(("stop", "recovering")),
                    f"probed {una} {rng.randint(0, 1)}",
                    f"acked {una} {rng.randint(0, 1)}",
                    f"acked {una} {rng.randint(0, 1)}",
                )
            )


def check(count, seed):
    lines = list(random_lines(count, random.Random(seed)))
    times.compared(CRATE, lines, list(answers(lines)), seed, "losses by time")


def write():
    lines = (CRATE / "stdin").read_text().splitlines()
    times.stored(CRATE, lines, list(answers(lines)))


if __name__ == "__main__":
    if sys.argv[1:2] == ["--check"]:
        check(int(sys.argv[2]), int(sys.argv[3]) if len(sys.argv) > 3 else 1)
    elif sys.argv[1:]:
        sys.exit(__doc__)
    else:
        write()
