"""Walks turns of a caller's loop over random worlds of the second program: whoever is served gets through.

python3 checks/differential/turns.py [COUNT] [SEED] [--without WORD] [--show K]

Random events come first. While both ends live, or one is in SYN-SENT and the other in LISTEN or SYN-RECEIVED, calm events follow with
turns in them, one more than there is left, or three more where the connection is being opened. No calm event may leave more than was left
before it; within that many turns both ends have to be open and both ways through, down to the SYN's acknowledgement, and have to stay so; no
end may have given up; and where both users closed, both ends have to have ended in order once TIME-WAIT has run out at both. No reset is
delivered. Then come the rows of loops.py.

It tells how many worlds of each kind were met, and fails where a run of 1000 or more meets none of a kind. `--without WORD` breaks the turn, by
a word of turn.py's BREAKS, so that it can be seen that worlds fail then. `--show K` writes the script of world K.
"""

import argparse
import collections
import random
import sys

from draw import random_config, random_words, setting
from loops import failed_rows
from turn import BREAKS, Network, take_turn, take_turns
from walk import Broken, Walk

# Of so many worlds some have to be of each kind.
ENOUGH = 1000
# All turns that the law asks for are taken where these are no more; else these few, once both ways are through.
FEW_TURNS = 12
MORE_TURNS = 2


def opening_calls(rng):
    """What opens a connection: mostly the handshake, or a part of it; or a SYN comes before the other end listens, and is answered by a reset.
    Now and then something of it is lost."""
    x, y = rng.choice(["AB", "BA"])
    calls, rest = [f"listen {y}", f"connect {x}"], [f"emit {x}", f"deliver {x} 0", f"emit {y}", f"deliver {y} 0", f"emit {x}", f"deliver {x} 1"]
    kind = rng.random()
    if kind < 0.6:
        return calls + rest
    if kind < 0.84:
        steps = rng.sample(calls, 2) + rest[: rng.randrange(len(rest))]
    else:
        steps = [f"connect {x}", f"emit {x}", f"deliver {x} 0", f"emit {y}", f"listen {y}", f"timer {x} retransmit", f"emit {x}", f"deliver {x} 1"]
        steps = steps[: rng.randrange(5, 1 + len(steps))]
    return [step for step in steps if step.split(" ")[0] in ("listen", "connect") or rng.random() < 0.75]


def random_walk(rng, note):
    """Random events in a new world, from none but the first calls to some hundred behind the handshake."""
    has_gaps = rng.random() < 0.2
    settings = {side: random_config(rng, has_gaps) for side in "AB"}
    script = [f"config {side} {key} {setting(value)}" for side in "AB" for key, value in settings[side].items()]
    walk = Walk(settings, script, note)
    most, longest = rng.choice([0, 5, 30, 150, 400]), rng.choice([3, 20, 250])
    steps = opening_calls(rng)
    count = rng.choice([3, 20, 60, 150] if len(steps) == 8 else [0, 2, 6, 20])
    for step in steps:
        if rng.random() < 0.1:
            random_event(walk, rng, most, longest, has_gaps)
        walk.happen(step)
    closing = {rng.randrange(rng.choice([1 + count // 3, 1 + 2 * count])): side for side in "AB" if rng.random() < 0.6}
    for number in range(count):
        random_event(walk, rng, most, longest, has_gaps)
        if number in closing:
            walk.happen(f"close {closing[number]}")
    if rng.random() < 0.2:
        walk.happen(f"timer {rng.choice('AB')} retransmit")
    return walk


def random_event(walk, rng, most, longest, has_gaps):
    """One event of a world, unless it is a text and so much was accepted already."""
    words = random_words(rng, walk.world, longest, has_gaps)
    if not words.startswith("send ") or len(walk.accepted[words[5]]) < most:
        walk.happen(words)


def left_alone(walk, rng):
    """A world in which an end has ended or none is opened: nothing that is calm leaves more there either, resets among it."""
    walk.is_watched = True
    network = Network(walk, rng)
    for _ in range(10):
        network.between()
        side = rng.choice("AB")
        if walk.count(side) > 0:
            walk.happen(f"deliver {side} {rng.randrange(walk.count(side))}")


def through(walk, rng, run):
    """Takes turns until both ways are through, and some more."""
    left, more = walk.left(), 3 if walk.is_opening() else 1
    bound = left + more
    walk.is_watched = True
    network = Network(walk, rng, run.without, lambda name: run.network.update([name]))
    count = take_turns(walk, network, bound)
    if walk.lacks():
        raise Broken(f"{bound} turns don't come through: {'; '.join(walk.lacks())}")
    run.took(count, left, more)
    for _ in range(bound - count if bound <= FEW_TURNS else MORE_TURNS):
        network.between()
        take_turn(walk, network)
    network.between()
    if walk.lacks():
        raise Broken(f"what was through isn't: {'; '.join(walk.lacks())}")
    walk.is_watched = False
    walk.all_happen("timer A timewait", "timer B timewait")
    if not walk.is_settled():
        raise Broken(f"after TIME-WAIT A is {walk.end('A').ending}, B {walk.end('B').ending}")


class Run:
    """Worlds under turns, how many of each kind were met, and how many failed."""

    def __init__(self, seed, without):
        self.seed, self.without = seed, without
        self.kinds, self.network, self.rules = collections.Counter(), collections.Counter(), collections.Counter()
        self.failed, self.turns, self.share = 0, 0, 0

    def took(self, count, left, more):
        self.turns, self.share = max(self.turns, count), max(self.share, 100 * max(0, count - more) // max(1, left))

    def world(self, number):
        """The walk of one world, and what went wrong in it, or None."""
        rng = random.Random(f"{self.seed} {number}")
        walk = None
        try:
            while not (walk := random_walk(rng, lambda name: self.rules.update([name]))).is_served():
                self.kinds["ended, or not opened"] += 1
                left_alone(walk, rng)
            self.kinds.update({name: int(is_met) for name, is_met in walk.kinds().items()})
            through(walk, rng, self)
        except Broken as broken:
            return walk, str(broken)
        return walk, None

    def take(self, number):
        _, fault = self.world(number)
        if fault:
            self.failed += 1
            print(f"world {number} of seed {self.seed}: {fault}")

    def tell(self):
        for title, counts in (("worlds", self.kinds), ("the network", self.network), ("rules", self.rules)):
            print(f"{title} -- {'; '.join(f'{name}: {times}' for name, times in sorted(counts.items()))}")
        print(f"turns: at most {self.turns}; but for the one or three more, at most {self.share} of a hundred that the law gives")

    def unmet(self):
        """The kinds of worlds that weren't met."""
        return [name for name, times in self.kinds.items() if times == 0]


def main():
    reader = argparse.ArgumentParser()
    reader.add_argument("count", type=int, nargs="?", default=200)
    reader.add_argument("seed", type=int, nargs="?", default=1)
    reader.add_argument("--without", choices=list(BREAKS))
    reader.add_argument("--show", type=int)
    asked = reader.parse_args()
    run = Run(asked.seed, asked.without)
    if asked.show is not None:
        walk, fault = run.world(asked.show)
        print("\n".join(walk.script), f"# {fault}", sep="\n")
        sys.exit(1 if fault else 0)
    for number in range(asked.count):
        run.take(number)
    run.tell()
    rows = failed_rows()
    unmet = run.unmet() if asked.count >= ENOUGH else []
    if unmet:
        print(f"not met: {', '.join(unmet)}")
    print(f"{asked.count} worlds, {run.failed} failed")
    sys.exit(1 if run.failed or rows or unmet else 0)


if __name__ == "__main__":
    main()
