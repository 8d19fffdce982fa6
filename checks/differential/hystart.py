"""HyStart++ of crates/tcp_congestion written a second time from the pseudocode of RFC 9406, 4.2, by its names: for windows.py, beside this.
The round trips of a round are kept one by one, and infinity is infinite.
"""

import math
from fractions import Fraction

MIN_RTT_THRESH, MAX_RTT_THRESH, MIN_RTT_DIVISOR, N_RTT_SAMPLE, CSS_GROWTH_DIVISOR, CSS_ROUNDS, L = 4000, 16000, 8, 8, 4, 5, 8

# No round trip counts for more microseconds.
LONGEST = 2**32 - 2


class HyStart:
    """Times are microseconds. CSS is Conservative Slow Start, whose rounds are counted with the one in which it began."""

    def __init__(self):
        self.window_end = 0
        self.last_round_min_rtt = self.css_baseline_min_rtt = math.inf
        self.rtts = []
        self.css_rounds = 0

    def is_measured(self):
        return bool(self.rtts)

    def is_conservative(self):
        return self.css_rounds > 0

    def measured(self, rtt, una, nxt):
        """Whether slow start is over: ssthresh = cwnd. Then all begins anew."""
        if una >= self.window_end:
            if self.css_rounds == CSS_ROUNDS:
                self.__init__()
                return True
            self.window_end = nxt
            self.last_round_min_rtt = min(self.rtts, default=math.inf)
            self.rtts = []
            if self.is_conservative():
                self.css_rounds += 1
        self.rtts.append(min(rtt, LONGEST))
        if len(self.rtts) >= N_RTT_SAMPLE:
            (self.in_css if self.is_conservative() else self.in_slow_start)(min(self.rtts))
        return False

    def in_slow_start(self, current_round_min_rtt):
        if self.last_round_min_rtt == math.inf:
            return
        # In whole microseconds, rounded down.
        rtt_thresh = max(MIN_RTT_THRESH, min(self.last_round_min_rtt // MIN_RTT_DIVISOR, MAX_RTT_THRESH))
        if current_round_min_rtt >= self.last_round_min_rtt + rtt_thresh:
            self.css_baseline_min_rtt, self.css_rounds = current_round_min_rtt, 1

    def in_css(self, current_round_min_rtt):
        if current_round_min_rtt < self.css_baseline_min_rtt:
            self.css_baseline_min_rtt, self.css_rounds = math.inf, 0

    def growth(self, acked, smss, limit):
        """By how much cwnd grows, where `limit` is L as long as no round trip was measured."""
        counted = min(acked, (L if self.is_measured() else limit) * smss)
        return int(Fraction(counted, CSS_GROWTH_DIVISOR)) if self.is_conservative() else counted
