"""The values of crates/tcp_congestion written a second time, plainly, from the RFCs: what times.py, beside this, compares with them.
Segments that were sent, answers that went out and text that came are kept one by one, and what a rule says is looked up among them.
"""

from fractions import Fraction

from hystart import HyStart

HIGH = 2**40


class Reno:
    """RFC 5681, 3 and 4, with RFC 6582, 3.2, RFC 3042, RFC 3465, RFC 6928, by the names of these."""

    def __init__(self, smss, limit=1):
        self.limit = limit
        self.begins_with(smss)

    def begins_with(self, smss):
        self.smss = smss
        self.cwnd = self.iw = min(10 * smss, max(2 * smss, 14600))
        self.ssthresh = HIGH
        self.recover = 0
        self.fast_recovery = self.is_found = self.resent_by_timer = self.lost_before = False
        self.dupacks = self.bytes_acked = 0
        self.pipe = 0
        self.start = HyStart()

    def slow_start(self, acked):
        # RFC 3465, 2.2 and 2.3, and RFC 9406, 4.3: L and HyStart++ are for the first slow start.
        is_later = self.lost_before or self.ssthresh < HIGH
        self.cwnd = min(HIGH, self.cwnd + (min(acked, self.smss) if is_later else self.start.growth(acked, self.smss, self.limit)))

    def measured(self, trip, una, nxt):
        """RFC 9406, 4.2, in the first slow start."""
        if not self.fast_recovery and self.ssthresh == HIGH and self.start.measured(trip, una, nxt):
            self.ssthresh = max(self.cwnd, 2 * self.smss)
        return self.shown()

    def grow(self, acked, now, rtt):
        if self.cwnd < self.ssthresh:
            self.slow_start(acked)
            return
        self.bytes_acked += min(acked, self.cwnd)
        if self.bytes_acked >= self.cwnd:
            self.bytes_acked -= self.cwnd
            self.cwnd = min(HIGH, self.cwnd + self.smss)

    def unused(self, now):
        pass

    def shrink(self, flight):
        """Equation 4."""
        self.ssthresh = max(min(flight, self.cwnd) // 2, 2 * self.smss)

    def acknowledged(self, acked, una, flight, now=0, rtt=0):
        self.dupacks, self.resent_by_timer = 0, False
        self.pipe = max(0, self.pipe - acked)
        if not self.fast_recovery:
            return self.grows(acked, acked + flight, now, rtt)
        if una >= self.recover:
            self.cwnd = min(self.ssthresh, max(flight, self.smss) + self.smss)
            self.fast_recovery, self.bytes_acked = False, 0
            return self.shown()
        self.cwnd = max(0, self.cwnd - acked)
        if acked >= self.smss:
            self.cwnd += self.smss
        self.cwnd = max(self.cwnd, self.smss)
        # RFC 6582, 1: where losses are found by time, that says what else is lost.
        return self.shown("" if self.is_found else "again")

    def delivered(self, count, flight, now=0, rtt=0):
        """RFC 6937, 2: DeliveredData is what is acknowledged, and what blocks report more, which is still in flight (RFC 5681, 2: FlightSize)."""
        return self.shown() if self.fast_recovery else self.grows(count, max(count, flight), now, rtt)

    def grows(self, count, was_in_flight, now, rtt):
        """RFC 7661, 4.3: the window grows where half of it was in flight."""
        if Fraction(was_in_flight, self.cwnd) < Fraction(1, 2):
            self.unused(now)
        else:
            self.grow(count, now, rtt)
        return self.shown()

    def begin_recovery(self, left, flight, nxt):
        """RFC 5681, 3.2, 2 and 3, with so many segments that have left the network."""
        self.lost_before, self.is_found = True, False
        self.shrink(flight)
        self.cwnd = self.ssthresh + left * self.smss
        self.recover, self.fast_recovery, self.bytes_acked = nxt, True, 0
        self.dupacks = self.pipe = 0

    def reported(self):
        if self.fast_recovery:
            self.cwnd = min(HIGH, self.cwnd + self.smss)
        else:
            self.dupacks += 1
        return self.shown()

    def duplicate(self, una, flight, nxt):
        if self.fast_recovery or self.dupacks != 2 or una <= self.recover:
            return self.reported()
        self.begin_recovery(3, flight, nxt)
        return self.shown("again")

    def is_new_loss(self, una):
        """RFC 5681, 4.3: once for a window of data."""
        return not self.fast_recovery and una >= self.recover

    def lost(self, una, flight, nxt):
        if not self.is_new_loss(una):
            return self.shown()
        self.begin_recovery(min(self.dupacks, 3), flight, nxt)
        return self.shown("shrinks")

    def finds_by_time(self):
        self.is_found = True
        return self.shown()

    def keep_pipe(self, reported):
        # RFC 6675, 4 and 5: what was reported isn't in the pipe, and cwnd - pipe may be sent. Without reports it is RFC 6582.
        if self.fast_recovery and (self.is_found or reported):
            self.cwnd = min(HIGH, self.ssthresh + reported)
        return self.shown()

    # Of a window what is left where it shrinks.
    KEPT = Fraction(1, 2)

    def lost_again(self):
        """RFC 5681, 4.3: the loss of a retransmission is a second sign of congestion, for cwnd and ssthresh."""
        self.lost_before = True
        base = min(self.cwnd, self.ssthresh)
        self.ssthresh = max(int(base * self.KEPT), 2 * self.smss)
        self.cwnd = max(self.smss, self.cwnd - max(0, base - self.ssthresh))
        self.bytes_acked = 0
        return self.shown()

    def timed_out(self, flight, nxt):
        self.lost_before = True
        if not self.resent_by_timer:
            before, in_recovery = self.ssthresh, self.fast_recovery
            self.shrink(flight)
            if in_recovery:  # a loss has lowered it already, and what is in flight has what was reported in it
                self.ssthresh = min(self.ssthresh, before)
        self.cwnd, self.bytes_acked, self.dupacks, self.pipe = self.smss, 0, 0, 0
        self.recover, self.fast_recovery, self.resent_by_timer = nxt, False, True
        return self.shown()

    def resent(self, count):
        self.pipe += count
        return self.shown()

    def may_resend(self):
        return "true" if self.pipe < self.cwnd else "false"

    def syn_lost(self):
        self.cwnd = self.smss
        return self.shown()

    def idle(self):
        # RFC 5681, 4.1: what was acknowledged before says nothing of the window that begins here.
        self.cwnd, self.bytes_acked = min(self.iw, self.cwnd), 0
        return self.shown()

    def room(self, flight):
        beyond = 0 if self.fast_recovery else min(self.dupacks, 2) * self.smss
        return str(max(0, self.cwnd + beyond - flight))

    def shown(self, said=""):
        return " ".join(filter(None, (str(self.cwnd), str(self.ssthresh), "recovering" if self.fast_recovery else "", said)))


# RFC 9438, 4.1 to 4.6: windows are segments there, and times seconds.
C, BETA = Fraction(2, 5), Fraction(7, 10)
ALPHA = 3 * (1 - BETA) / (1 + BETA)


def down(value, unit):
    """A value in whole units of it, rounded down."""
    return value // unit * unit


def cubic_root(value):
    """The greatest whole number whose cube is at most the value."""
    low, high = 0, 1
    while high**3 <= value:
        high *= 2
    while high - low > 1:
        middle = (low + high) // 2
        low, high = (middle, high) if middle**3 <= value else (low, middle)
    return low


class Cubic(Reno):
    """RFC 9438 by its names, in segments and seconds. K and t - K are whole milliseconds, W_cubic is whole bytes, and of what a window grows
    by for each byte acknowledged, and of W_est, the parts are 2^-23."""

    MS, PART = Fraction(1, 1000), Fraction(1, 2**23)
    LONGEST, FARTHEST = 2000, 2**31
    KEPT = BETA

    def lost_again(self):
        self.stage = None
        return super().lost_again()

    def __init__(self, smss, limit=1):
        super().__init__(smss, limit)
        self.stage, self.w_max, self.cwnd_prior, self.fraction = None, Fraction(0), Fraction(0), Fraction(0)

    def segments(self, size):
        return Fraction(size) / self.smss

    def shrink(self, flight):
        """4.6 and 4.7."""
        self.ssthresh = max(int(min(flight, self.cwnd) * BETA), 2 * self.smss)
        less = self.cwnd < self.w_max * self.smss
        self.w_max = self.segments(int(self.cwnd * (1 + BETA) / 2) if less else self.cwnd)
        self.cwnd_prior, self.stage = self.segments(self.cwnd), None

    def timed_out(self, flight, nxt):
        shown = super().timed_out(flight, nxt)
        self.w_max = Fraction(0)  # 4.8: the next stage begins at W_max, with K = 0
        return shown

    def idle(self):
        self.stage = None
        return super().idle()

    def unused(self, now):
        if self.stage:
            self.stage["counted"] = now  # 5.8

    def grow(self, acked, now, rtt):
        if self.cwnd <= self.ssthresh:
            self.slow_start(acked)
            return
        epoch = self.segments(self.cwnd)
        if self.stage is None:
            apart = min(max(self.w_max - epoch, 0), self.FARTHEST)
            # The root of a fraction's whole part is the fraction's, since cubes are whole.
            k = cubic_root(apart / C / self.MS**3) * self.MS
            self.stage = {"k": k, "w_est": epoch, "t": Fraction(0), "counted": now}
            self.w_max, self.fraction = max(self.w_max, epoch), Fraction(0)
        stage = self.stage
        passed = Fraction(max(0, now - stage["counted"]), 10**6)
        stage["t"], stage["counted"] = min(self.LONGEST, stage["t"] + passed), now
        counted = min(acked, self.cwnd)
        alpha = 1 if stage["w_est"] >= self.cwnd_prior else ALPHA
        # For each byte, and then for all that are acknowledged.
        stage["w_est"] = self.segments(min(HIGH, stage["w_est"] * self.smss + down(alpha / epoch, self.PART) * counted))
        w_est = stage["w_est"] * self.smss
        if self.w_cubic(stage["t"]) < int(w_est):
            if int(w_est) > self.cwnd:
                self.cwnd, self.fraction = int(w_est), w_est % 1
            return
        target = min(max(self.w_cubic(stage["t"] + Fraction(rtt, 10**6)), self.cwnd), self.cwnd + self.cwnd // 2)
        wide = self.fraction + down(Fraction(target - self.cwnd, self.cwnd), self.PART) * counted
        self.cwnd, self.fraction = min(HIGH, self.cwnd + int(wide)), wide % 1

    def w_cubic(self, t):
        """4.2, in bytes, at a time of the stage."""
        distance = down(t, self.MS) - self.stage["k"]
        change = int(C * min(abs(distance), self.LONGEST) ** 3 * self.smss)
        w_max = int(self.w_max * self.smss)
        return max(0, w_max - change if distance < 0 else w_max + change)


class Delayed:
    """RFC 5681, 4.2, and RFC 9293, 3.8.6.3: what came since the last acknowledgement, a segment each."""

    def __init__(self, rmss, delay):
        self.rmss, self.delay, self.came = rmss, delay, []

    def arrived(self, count, urgent, now):
        self.came.append((count, urgent, now))
        return self.shown()

    def answered(self):
        self.came = []
        return self.shown()

    def deadline(self):
        if any(urgent for _, urgent, _ in self.came) or sum(count for count, _, _ in self.came) >= 2 * self.rmss:
            return 0
        return next((now + self.delay for count, _, now in self.came if count), None)

    def due(self, now):
        deadline = self.deadline()
        return "true" if deadline is not None and now >= deadline else "false"

    def shown(self):
        deadline = self.deadline()
        return "-" if deadline is None else str(deadline)


class Sws:
    """RFC 9293, 3.8.6.2.1: the four conditions under which data are sent, of which Nagle's brackets are those of 3.7.4."""

    def __init__(self, mss, nagle, timeout):
        self.mss, self.nagle, self.timeout = mss, bool(nagle), timeout
        self.windows, self.waiting_since = [0], None

    def window(self, wnd):
        self.windows.append(wnd)
        return "taken"

    def segment(self, d, u, flight, now):
        least = min(d, u)
        bracket = flight == 0 or not self.nagle
        override = self.waiting_since is not None and now - self.waiting_since >= self.timeout
        conditions = (least >= self.mss, bracket and d <= u, bracket and least >= Fraction(1, 2) * max(self.windows), override)
        if any(conditions) or least == 0:
            self.waiting_since = None
        elif self.waiting_since is None:
            self.waiting_since = now
        length = min(least, self.mss) if any(conditions) else 0
        return f"{length} {'-' if self.waiting_since is None else self.waiting_since + self.timeout}"


class Limiter:
    """RFC 5961, 7: no two answers within an interval."""

    def __init__(self, interval):
        self.interval, self.times = interval, []

    def grant(self, now):
        if any(now < time + self.interval for time in self.times):
            return "false"
        self.times.append(now)
        return "true"


class Windows:
    """What answers a line on one of these."""

    MADE = {"reno": Reno, "cubic": Cubic, "delayed": Delayed, "sws": Sws, "limiter": Limiter}
    CALLS = {
        **dict.fromkeys(
            ("acknowledged", "delivered", "duplicate", "reported", "lost", "lost-again", "finds-by-time", "keep-pipe", "timed-out", "resent", "measured", "may-resend", "syn-lost", "idle", "room"), "path"
        ),
        **dict.fromkeys(("arrived", "answered", "due"), "delayed"),
        **dict.fromkeys(("window", "segment"), "sws"),
        "grant": "limiter",
    }

    def __init__(self):
        self.values = {}

    def knows(self, word):
        return word in self.MADE or word in self.CALLS

    def answer(self, word, numbers):
        if word in self.CALLS:
            return getattr(self.values[self.CALLS[word]], word.replace("-", "_"))(*numbers)
        is_path = word in ("reno", "cubic")
        is_refused = word != "limiter" and not 0 < numbers[0] <= 65535 or word == "delayed" and numbers[1] >= 500_000
        if is_refused or is_path and not 0 < (*numbers, 1)[1] <= 8:
            return "refused"
        made = self.values["path" if is_path else word] = self.MADE[word](*numbers)
        return "new" if word in ("sws", "limiter") else made.shown()


def curve(smss, start, rounds, rtt):
    """Windows of data that are acknowledged, one each round trip."""
    return [f"acknowledged {20 * smss + n * smss // 2} 130001 {20 * smss} {start + n * rtt} {rtt}" for n in range(1, rounds + 1)]


def longer(smss, trips):
    """Rounds of nine acknowledgements, each of which measures the round trip of its round."""
    lines, una = [], 1
    for trip in trips:
        for _ in range(9):
            una += smss
            lines += [f"acknowledged {smss} {una} {1000 * smss}", f"measured {trip} {una} {una + 9 * smss}"]
    return lines


# In segments of 100 bytes: slow start, a loss that the third duplicate finds with a partial acknowledgement and a full one, congestion
# avoidance, duplicates of what was sent again, and two timeouts in a row.
WORKED = [
    "reno 0", "reno 65536", "reno 1", "reno 1460", "reno 2190", "reno 8000", "reno 65535", "reno 100",
    "room 0", "room 400", "room 2000", "acknowledged 100 101 900", "acknowledged 200 301 900", "acknowledged 50 351 900", "acknowledged 100 451 100",
    "duplicate 451 1250 1701", "room 1250", "duplicate 451 1350 1801", "room 1450", "duplicate 451 1450 1901", "room 1450", "duplicate 451 1450 1901",
    "acknowledged 100 551 1350", "acknowledged 50 601 1300", "acknowledged 900 1501 400", "acknowledged 400 1901 200", "room 200",
    "duplicate 1901 300 2201", "duplicate 1901 300 2201", "duplicate 1901 300 2201", "room 300", "acknowledged 100 2001 250",
    "duplicate 2001 300 2301", "duplicate 2001 300 2301", "duplicate 2001 300 2301", "acknowledged 300 2301 0",
    "acknowledged 100 2401 300", "acknowledged 100 2501 300", "acknowledged 100 2601 300", "acknowledged 700 3301 300", "acknowledged 100 3401 10",
    "may-resend", "timed-out 1000 4401", "may-resend", "resent 99", "may-resend", "resent 1", "may-resend", "timed-out 1000 4401", "resent 100",
    "may-resend", "duplicate 3401 1000 4401", "duplicate 3401 1000 4401", "duplicate 3401 1000 4401", "room 0",
    "acknowledged 100 3501 900", "may-resend", "resent 200", "may-resend", "acknowledged 900 4401 0", "may-resend", "acknowledged 100 4501 300", "timed-out 500 5001", "acknowledged 100 4601 400", "timed-out 400 5001",
    # What congestion avoidance had counted before an idle time doesn't count behind it.
    "reno 1000", "timed-out 4000 5001", "acknowledged 1000 6001 4000", "acknowledged 1500 7501 4000", "idle", "acknowledged 600 8101 4000",
    "acknowledged 1400 9501 4000",
    "syn-lost", "idle", "reno 1000", *["acknowledged 1000 1001 10000"] * 3, "idle", "syn-lost", "duplicate 10001 5000 15001",
    # L of two segments until a loss is found, the least and the greatest L; a loss that blocks found, and no second one until all that was in
    # flight is acknowledged; what they report; one behind a timeout.
    "reno 1000 0", "reno 1000 9", "reno 1000 8", "acknowledged 9000 9001 10000", "reno 1000 2", "acknowledged 1500 1501 10000",
    "acknowledged 3000 4501 10000", "reported", "room 9000", "reported", "reported", "room 9000", "reported", "lost 4501 12000 16501", "reported",
    "lost 4501 12000 16501", "acknowledged 4000 8501 8000", "lost 8501 8000 16501", "duplicate 8501 8000 16501", "acknowledged 8000 16501 6000",
    "lost 16501 6000 22501", "acknowledged 6000 22501 0", "timed-out 4000 26501", "lost 22501 4000 26501", "acknowledged 2000 24501 2000",
    "acknowledged 2000 26501 2000", "lost 26501 2000 28501", "reno 1000 2", "lost 1 500 501", "reno 1000", "reported", "duplicate 1 3000 3001",
    "duplicate 1 3000 3001", "reported", "duplicate 1 3000 3001",
    # Round trips that become longer end the first slow start, unless they become shorter again; neither in a recovery nor behind one.
    "reno 1000", *longer(1000, (50_000, 60_000, 70_000, 80_000, 90_000, 100_000, 110_000, 120_000)), "reno 1000 2",
    *longer(1000, (50_000, 50_000, 57_000, 50_000, 54_000, 55_000, 62_000)), "cubic 1000", *longer(1000, (20_000, 40_000, 30_000, 60_000, 60_000, 60_000, 60_000, 60_000)),
    "reno 1000", "lost 1 20000 20001", *longer(1000, (50_000, 60_000, 70_000)), "cubic 1000 8", "measured 0 1 1", "acknowledged 20000 20001 20000",
    "measured 4611686018427387904 20001 40001", "timed-out 20000 40001", *longer(1000, (50_000, 60_000)),
    # What was sent again was lost again, and once more: each time the window shrinks, and the recovery lasts until what is in flight then is
    # acknowledged.
    "reno 1000 8", "acknowledged 9000 9001 30000", "reported", "lost 9001 30000 39001", "finds-by-time", "reported", "lost-again", "reported", "lost-again",
    "acknowledged 20000 29001 12000", "acknowledged 12000 41001 0", "cubic 1000", "lost 1 20000 20001", "lost-again", "acknowledged 22000 22001 0",
    # As many as ssthresh are under way beside what blocks report: not before a loss is found, nor where they report nothing and losses aren't found
    # by time.
    "reno 1000", "keep-pipe 3000", "lost 1 20000 20001", "keep-pipe 0", "keep-pipe 7000", "acknowledged 12000 12001 8000", "keep-pipe 0",
    "keep-pipe 2500", "keep-pipe 2305843009213693952", "finds-by-time", "keep-pipe 0", "lost-again", "keep-pipe 1", "acknowledged 9000 21001 0", "keep-pipe 9",
    "cubic 1000", "lost 1 20000 20001", "keep-pipe 4000", "timed-out 20000 20001", "keep-pipe 4000",
    # What blocks report more lets the window grow as what is acknowledged does: in slow start and past ssthresh, but not in a recovery, nor
    # where half of the window isn't used.
    "reno 1000", "delivered 1000 9000 1000 0", "delivered 4000 9000 1000 0", "delivered 1000 3000 1000 0", "lost 1 20000 20001",
    "delivered 1000 20000 2000 0", "acknowledged 20000 20001 9000", "delivered 9000 9000 3000 0", "acknowledged 3000 23001 9000",
    "cubic 1000", "delivered 1000 9000 1000 0", "lost 1 20000 20001", "delivered 1000 9000 2000 0", "acknowledged 20000 20001 9000 3000 50000",
    "delivered 8000 9000 60000 50000", "delivered 8000 9000 120000 50000", "delivered 100 200 180000 50000",
    # CUBIC: up to ssthresh and past it by slow start, below W_max by the curve, past it, with a second loss below the first one's window;
    # a path so short that Reno's window is greater; half of a window in use, an idle time, and a timeout, behind which W_max is the window.
    "cubic 0", "cubic 1460 9", "cubic 65535 8", "cubic 1000 2", *curve(1000, 0, 20, 100_000), "lost 40001 40000 90001", "acknowledged 50000 90001 28000 2100000 100000",
    *curve(1000, 2_100_000, 80, 100_000), "duplicate 90001 40000 130001", "reported", "duplicate 90001 40000 130001",
    "acknowledged 40000 130001 0 10200000 100000", *curve(1000, 10_200_000, 60, 100_000), "acknowledged 10 130001 10 16300000 100000",
    "acknowledged 30000 130001 30000 26300000 100000", "acknowledged 30000 130001 30000 26400000 100000", "idle", *curve(1000, 26_500_000, 40, 100_000),
    "timed-out 30000 190001", "timed-out 30000 190001", *curve(1000, 40_000_000, 60, 10_000), "syn-lost", "may-resend", "resent 1000", "may-resend",
    "cubic 1460 1", "lost 1 14600 14601", "acknowledged 14600 14601 14600 1 0", *curve(1460, 100, 60, 500),
    # Numbers as great as there are: a curve that is past its longest time, times that go back, a window at its bound.
    "cubic 65535 8", *["acknowledged 4611686018427387904 1 4611686018427387904"] * 40, "lost 1 4611686018427387904 100",
    "acknowledged 4611686018427387904 100 4611686018427387904 5 0", "acknowledged 4611686018427387904 100 4611686018427387904 6 4611686018427387904",
    "acknowledged 4611686018427387904 100 4611686018427387904 4611686018427387904 7", "acknowledged 4611686018427387904 100 4611686018427387904 8 9",
    # Both segments of a pair, a single one, one that can't wait with text and without, half segments, and none; no delay, the longest.
    "delayed 1000 500000", "delayed 0 1", "delayed 65536 1", "delayed 65535 499999", "due 0", "delayed 1000 40000", "arrived 1000 0 100", "due 40099",
    "due 40100", "arrived 999 0 200", "due 201", "arrived 1 0 300", "due 0", "answered", "due 999999", "arrived 0 0 400", "arrived 10 1 500", "answered",
    "arrived 0 1 600", "due 600", "answered", "arrived 500 0 700", "arrived 500 0 800", "arrived 500 0 900", "arrived 500 0 1000", "answered",
    "arrived 4611686018427387904 0 1100", "answered", "delayed 1000 0", "arrived 1 0 1200", "due 1199", "due 1200",
    # A full segment, all that is queued, half of the greatest window and a byte less, nothing to send, no room; the override timeout; Nagle.
    "sws 0 0 1", "sws 65536 0 1", "sws 1000 0 500000", "window 4001", "segment 5000 1000 0 10", "segment 5000 999 0 20", "window 1000",
    "segment 5000 999 4000 500019", "segment 5000 999 4000 500020", "segment 5000 999 4000 500021", "segment 0 4000 0 500022", "segment 5000 0 0 500023",
    "segment 10 10 4000 500024", "segment 10 9 0 500025", "segment 3000 2001 0 500026", "sws 1000 1 200000", "window 1500", "segment 10 1500 1 10",
    "segment 10 1500 0 11", "segment 999 1500 1 12", "segment 1000 1500 1 13", "segment 900 750 1 14", "segment 900 750 0 15", "segment 900 749 0 16",
    # An interval, to the microsecond; a clock that goes back; no limit.
    "limiter 500000", "grant 10", "grant 11", "grant 500009", "grant 500010", "grant 20", "grant 1000010", "limiter 0", "grant 5", "grant 5",
]  # fmt: skip


def random_calls(draw, count):
    """Sums of bytes are as a connection would have them, times go on, and now and then a number is anything."""
    una, nxt, now = 1, 1, 0
    yield from ("reno 1000", "delayed 1000 40000", "sws 1000 1 500000", "limiter 500000")
    for _ in range(count):
        now += draw.choice((0, 1, 1000, draw.randrange(300_000)))
        kind = draw.randrange(24)
        size = draw.choice((0, 1, 500, 1000, 2000, draw.randrange(20_000)))
        if kind == 0:
            una, nxt = 1, 1
            yield f"{draw.choice(('reno', 'cubic', 'cubic'))} {draw.choice((1, 536, 1000, 1460, 9000, 65535))}{draw.choice(('', ' 2', ' 8', ' 9'))}"
        elif kind < 6:
            for _ in range(draw.choice((1, 1, 1, 30))):
                now += draw.choice((0, 1000, 50_000, draw.randrange(2_000_000)))
                nxt += size
                acked = draw.choice((nxt - una, min(1000, nxt - una), draw.randrange(nxt - una + 1)))
                una += acked
                rtt = draw.choice((0, 500, 50_000, 2**draw.randrange(62)))
                yield f"acknowledged {acked} {una} {nxt - una} {draw.choice((now,) * 30 + (2**draw.randrange(62),))} {rtt}"
                if draw.randrange(2):
                    yield f"measured {draw.choice((20_000, 30_000, 40_000, 2**draw.randrange(62)))} {una} {nxt}"
        elif kind < 10:
            yield from [draw.choice((f"duplicate {una} {nxt - una} {nxt}", "reported", f"delivered {size} {nxt - una} {now} 0", f"lost {una} {nxt - una} {nxt}"))] * draw.randrange(1, 6)
        elif kind == 10:
            yield draw.choice((f"timed-out {nxt - una} {nxt}", f"timed-out {nxt - una} {nxt}", "lost-again", "finds-by-time", f"keep-pipe {size}", f"resent {size}", "may-resend", "syn-lost", "idle"))
            yield from ("may-resend", f"resent {draw.choice((size, 2**61))}", "may-resend")
        elif kind == 11:
            yield f"room {draw.choice((nxt - una, size, 2**draw.randrange(62)))}"
        elif kind == 12:
            yield draw.choice((f"delayed {draw.choice((1, 1000, 65535))} {draw.choice((0, 40000, 499999))}", f"limiter {draw.choice((0, 1, 500000))}"))
        elif kind < 15:
            yield f"arrived {size} {draw.randrange(8) // 7} {now}"
        elif kind < 17:
            yield draw.choice(("answered", f"due {now}"))
        elif kind == 17:
            yield draw.choice((f"sws {draw.choice((1, 1000, 65535))} {draw.randrange(2)} {draw.choice((0, 100000, 500000))}", f"window {4 * size}"))
        elif kind < 22:
            yield f"segment {draw.choice((size, draw.randrange(4000)))} {draw.randrange(4000)} {draw.choice((0, size))} {now}"
        else:
            yield f"grant {now}"
