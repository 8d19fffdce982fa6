"""Random settings of two ends, and random events of a world."""

from end import HALF, SPACE
from program import hexadecimal

KINDS = ["send", "receive", "timer", "emit", "deliver", "damage", "close", "abort", "open"]
WEIGHTS = [25, 8, 8, 28, 29, 4, 1.6, 0.08, 0.2]
# A resend fills gaps, so there are few where more than sixteen runs are to be held.
WEIGHTS_FOR_GAPS = [30, 2, 0.3, 35, 32, 1, 0.05, 0.01, 0.01]


def random_config(rng, has_gaps):
    values = {
        "isn": [SPACE - 1, SPACE - 2, SPACE - 40, 0, HALF, HALF - 3, rng.randrange(SPACE)],
        "mss": [64, 65, 100, 1460],
        "send": [1, 2, 5, 70, 200, 65536],
        "recv": [1, 2, 3, 7, 40, 150, 65536, 70000],
        "shift": [None, 0, 1, 2, 7, 14],
        "sack": [True, True, True, False],
    }
    keys = ["isn", "shift"] if has_gaps else [key for key in values if rng.random() < 0.7]
    return {key: rng.choice(values[key]) for key in keys}


def random_number(rng, count, has_gaps):
    """The number of a segment: mostly a late one, an odd one where there are to be gaps; now and then none."""
    if count == 0 or rng.random() < 0.02:
        return count
    k = count - 1 - min(count - 1, int(rng.expovariate(0.1 if has_gaps else 0.3)))
    return k | 1 if has_gaps and k + 1 < count and rng.random() < 0.98 else k


def random_words(rng, world, longest, has_gaps):
    """One event's words."""
    side = rng.choice("AAB")
    count = len(world.parties[side].sent)
    kind = rng.choices(KINDS, WEIGHTS_FOR_GAPS if has_gaps else WEIGHTS)[0]
    if kind == "send":
        return f"send {side} {hexadecimal(rng.randbytes(rng.choice([0, 1, 1, 2, rng.randrange(longest)])))}"
    if kind == "receive":
        return f"receive {side} {rng.choice([0, 1, 2, 5, 50, 1000])}"
    if kind == "timer":
        return f"timer {side} {rng.choice(['retransmit', 'retransmit', 'reorder', 'timewait'])}"
    if kind == "open":
        return f"{rng.choice(['connect', 'listen'])} {side}"
    if kind in ("emit", "close", "abort"):
        return f"{kind} {side}"
    k = random_number(rng, count, has_gaps)
    if kind == "deliver":
        return f"deliver {side} {k}"
    return f"damage {side} {k} {rng.randrange(30)} {rng.choice([0, 1, 128, 255, rng.randrange(256)])}"


def setting(value):
    return {None: "none", True: "on", False: "off"}.get(value, value) if not isinstance(value, int) or isinstance(value, bool) else value
