"""A turn of a caller's loop, there and back, and a network that makes it as hard as it may.

In a turn both users read; one side's retransmission timeout comes and it emits until nothing is due, then the other's; all that both sent
arrives, and both answer until nothing is due at either; and what they answered arrives. In between there is whatever is calm, but until
both have answered no timer runs out.
"""

from walk import ALL_ROOM, other

# How a turn is broken, by the words of --without. The network then adds nothing of its own, and one side comes first in all turns.
BREAKS = {
    "second": "the second side isn't served",
    "half": "half of what the timeouts brought out is lost",
    "back": "none of the answers is brought",
    "answers": "no answers are emitted",
    "timeout": "no timeout comes",
}

# What a network does of its own.
KINDS = ["old", "damage", "receive", "acknowledge", "emit", "timer"]


class Network:
    """An adversary: old segments, repeats, reorderings, damage, small reads, and emissions and timeouts where they may come."""

    def __init__(self, walk, rng, without=None, note=lambda name: None):
        self.walk, self.rng, self.without, self.note = walk, rng, without, note
        self.strength = 0 if without else rng.choice([0, 0.3, 0.8, 2])
        self.weights = [rng.choice([0, 4, 8]), rng.choice([1, 4])] + [rng.choice([0, 1, 4]) for _ in KINDS[2:]]
        self.choice = rng.choice(["any", "late", "first", "shut", "favourite"])
        self.favourite = {}
        self.first = rng.choice("AB") if without or rng.random() < 0.5 else None

    def old(self, side):
        """The number of a segment that isn't a reset, or None."""
        walk, rng = self.walk, self.rng
        numbers = [k for k in range(walk.count(side)) if not walk.is_reset(side, k)]
        if not numbers:
            return None
        choice = self.choice if rng.random() < 0.7 else "any"
        if choice == "late":
            return rng.choice(numbers[-4:])
        if choice == "first":
            return rng.choice(numbers[:3])
        if choice == "shut":
            return rng.choice([k for k in numbers if walk.is_shut(side, k)] or numbers)
        return self.favourite.setdefault(side, rng.choice(numbers)) if choice == "favourite" else rng.choice(numbers)

    def one(self, has_timers):
        """One calm event: the segment that went out at it, if any."""
        walk, rng = self.walk, self.rng
        side = rng.choice("AB")
        kind = rng.choices(KINDS, self.weights)[0]
        self.note(kind)
        if kind in ("old", "damage"):
            k = self.old(side)
            if k is not None and kind == "old":
                walk.happen(f"deliver {side} {k}")
            elif k is not None:
                walk.happen(f"damage {side} {k} {rng.randrange(30)} {rng.randrange(256)}")
        elif kind == "receive":
            walk.happen(f"receive {side} {rng.choice([0, 1, 2, 7, ALL_ROOM])}")
        elif kind == "acknowledge":
            walk.happen(f"acknowledge {side}")
        elif kind == "timer" and has_timers:
            walk.happen(f"timer {side} {rng.choice(['retransmit', 'reorder'])}")
        elif kind == "emit" and (k := walk.emit(side)) is not None and not walk.is_reset(side, k):
            return [(side, k)]
        return []

    def lose(self, side):
        """A timeout and all that is due, none of which arrives."""
        self.note("lost burst")
        self.walk.happen(f"timer {side} retransmit")
        self.walk.emit_all(side)

    def meddle(self, has_timers):
        """So many calm events as the network is strong: the segments that went out at them."""
        out = []
        while self.rng.random() < self.strength / (1 + self.strength):
            out += self.one(has_timers)
        return out

    def between(self):
        """Between two turns: what goes out may be lost."""
        for _ in range(self.rng.choice([0, 1, 4])):
            self.meddle(True)
            if self.rng.random() < self.strength / 8:
                self.lose(self.rng.choice("AB"))

    def ordered(self, due):
        """The segments in the order in which they arrive."""
        how = self.rng.choice(["as sent", "backwards", "shuffled", "A first", "B first"])
        if how == "shuffled":
            return self.rng.sample(due, len(due))
        if how == "backwards":
            return due[::-1]
        return due if how == "as sent" else sorted(due, key=lambda sent: sent[0] != how[0])

    def bring(self, due, has_timers):
        """All these segments arrive, with whatever else is calm between them: the segments that went out meanwhile and haven't come."""
        due, out = self.ordered(due), []
        while due:
            out += self.meddle(has_timers)
            side, k = due.pop(0)
            self.walk.happen(f"deliver {side} {k}")
            while out and self.rng.random() < 0.3:
                due.insert(self.rng.randrange(len(due) + 1), out.pop())
        return out + self.meddle(has_timers)


def take_turn(walk, network):
    """One turn, in which all that the law leaves open is drawn."""
    rng, without = network.rng, network.without
    walk.read_all()
    first = network.first or rng.choice("AB")
    sides = [first] if without == "second" else [first, other(first)]
    due = []
    for side in sides:
        if without != "timeout":
            walk.happen(f"timer {side} retransmit")
        due += walk.emit_all(side)
    if without == "half":
        due = rng.sample(due, len(due) // 2)
    # There, now and then with answers to answers.
    for _ in range(1 if without else rng.choice([1, 1, 2, 4])):
        due = network.bring(due, has_timers=False)
        if without != "answers":
            due += walk.emit_all(first) + walk.emit_all(other(first))
    # And back.
    if without != "back":
        network.bring(due, has_timers=True)


def take_turns(walk, network, most):
    """Turns until both ways are through, but no more than `most`, with the network between them: how many it took."""
    for count in range(most):
        if not walk.lacks():
            return count
        network.between()
        take_turn(walk, network)
    return most
