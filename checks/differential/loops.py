"""Loops that aren't turns: worlds that such a loop never brings on, however often it goes round, and an end that is reset. Each is a
function that tells what came of it.
"""

import random

from end import SPACE
from turn import Network, take_turns
from walk import Broken, Walk

ROUNDS = 1000
HANDSHAKE = ["listen B", "connect A", "emit A", "deliver A 0", "emit B", "deliver B 0", "emit A", "deliver A 1"]


def opened(*events, a=None, b=None):
    """A world behind the handshake and these events."""
    return Walk({"A": a or {}, "B": b or {}}).all_happen(*HANDSHAKE, *events)


def wants(condition, what):
    if not condition:
        raise Broken(what)


def serve(walk, side):
    """A side's timeout, and all that is due: what went out."""
    walk.happen(f"timer {side} retransmit")
    return walk.emit_all(side)


def under_turns(walk):
    """What comes of the same world by as many turns as something is left, and one."""
    walk.is_watched = True
    network = Network(walk, random.Random(1))
    bound = walk.left() + 1
    take_turns(walk, network, bound)
    walk.is_watched = False
    walk.all_happen("timer A timewait", "timer B timewait")
    return "through" if walk.is_settled() else "not through"


def goes_round(walk, one_round):
    """A thousand rounds of a loop, in which nothing but calm events happens, and then turns."""
    before, walk.is_watched = walk.left(), True
    wants(before > 0, "nothing was left")
    for _ in range(ROUNDS):
        walk.read_all()
        one_round(walk)
    left = "as much is left" if walk.left() == before else "less is left"
    return f"{left}; then turns: {under_turns(walk)}"


def shut_window():
    """Between the timeout and the emission an old window arrives, which is shut, and the open one before the next timeout: A emits nothing.

    B, with four bytes, told a window of 0 in its segment 1 and one of 4 in its segment 2, which bear the same numbers; six of A's bytes wait.
    """
    told_both = ["send A 30313233343536373839", "emit A", "deliver A 2", "emit B", "receive B 4", "emit B", "deliver B 1"]

    def one_round(walk):
        walk.all_happen("deliver B 2", "timer A retransmit", "deliver B 1")
        wants(walk.emit_all("A") == [], "A emitted something")
        for side, k in serve(walk, "B"):
            walk.happen(f"deliver {side} {k}")

    walk = opened(*told_both, b={"recv": 4})
    wants([walk.segment("B", k).window for k in (1, 2)] == [0, 4], "B told other windows")
    return goes_round(walk, one_round)


def each_timed():
    """The timeout comes before each single emission: each side has the other's text, whose acknowledgement is lost, and sends its own again."""
    crossed = ["send A 61", "emit A", "send B 62", "emit B", "deliver A 2", "deliver B 1"]

    def one_round(walk):
        for side in "ABAB":
            walk.happen(f"timer {side} retransmit")
            k = walk.emit(side)
            wants(k is not None, "nothing was due")
            walk.happen(f"deliver {side} {k}")

    return goes_round(opened(*crossed), one_round)


def one_served():
    """B alone is served; A emits what is due without a timeout. A's text was lost, and all that goes out later arrives."""
    def one_round(walk):
        out = walk.emit_all("A") + serve(walk, "B")
        while out:
            for side, k in out:
                walk.happen(f"deliver {side} {k}")
            out = walk.emit_all("A") + walk.emit_all("B")

    return goes_round(opened("send A 6162636465", "emit A"), one_round)


# Both closed, A is in TIME-WAIT, and its acknowledgement of B's FIN, the segment 3, is lost.
BOTH_CLOSED = [
    "close A", "emit A", "deliver A 2", "emit B", "deliver B 1", "close B", "emit B", "deliver B 2", "emit A", "receive A 0", "receive B 0",
]


def cut_short():
    """TIME-WAIT runs out at A before B's FIN is acknowledged; the FIN comes again, and A, which knows of no connection, answers it."""
    wants(under_turns(opened(*BOTH_CLOSED)) == "through", "turns don't come through")
    walk = opened(*BOTH_CLOSED, "timer A timewait")
    for sent in serve(walk, "B"):
        walk.happen(f"deliver {sent[0]} {sent[1]}")
    wants(walk.emit_all("A") == [] and walk.is_reset("A", 4), "A doesn't answer by a reset")
    walk.happen("deliver A 4")
    return f"A {walk.end('A').ending}, B {walk.end('B').ending}"


# A was closed when B's first SYN came, and answered it by a reset, its segment 0, which is late. A's first byte has the number 0.
LATE_RESET = [
    "connect B", "emit B", "deliver B 0", "emit A", "listen A", "timer B retransmit", "emit B", "deliver B 1", "emit A", "deliver A 1",
    "emit B", "deliver B 2", "send B 6162", "send A 63",
]


def reset_late():
    """The reset comes when its number, 0, is the one that B wants next."""
    settings = {"A": {"isn": SPACE - 1}, "B": {}}
    wants(under_turns(Walk(settings).all_happen(*LATE_RESET)) == "through", "turns don't come through")
    walk = Walk(settings).all_happen(*LATE_RESET)
    wants(walk.end("B").ending == "not-ended", "B ended before")
    walk.happen("deliver A 0")
    return f"A {walk.end('A').ending}, B {walk.end('B').ending}"


WANTED = {
    shut_window: "as much is left; then turns: through",
    each_timed: "as much is left; then turns: through",
    one_served: "as much is left; then turns: through",
    cut_short: "A orderly, B reset",
    reset_late: "A not-ended, B reset",
}


def failed_rows():
    """Runs all rows and tells of each: how many came out otherwise than wanted."""
    failed = 0
    for row, wanted in WANTED.items():
        try:
            found = row()
        except Broken as broken:
            found = str(broken)
        failed += found != wanted
        print(f"{row.__name__}: {found}" + ("" if found == wanted else f", wanted: {wanted}"))
    print(f"{len(WANTED)} rows, {failed} failed")
    return failed
