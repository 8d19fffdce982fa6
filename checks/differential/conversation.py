"""Logs of the second program's ends: what came to one and what went from it, in its order, a line each as `tcpjudge` reads them."""

import random

from draw import random_config, random_words
from end import HALF, End
from loops import HANDSHAKE
from one_end import config_of, dotted, first_call, line
from program import hexadecimal
from script import World


def watch(end):
    """The log of an end, which grows with it."""
    log, arrive, emit, own = [], end.arrive, end.emit, dotted(end.config["addr"])

    def arriving(source, target, data):
        log.append(f"came {dotted(source)} {dotted(target)} {hexadecimal(data)}")
        return arrive(source, target, data)

    def emitting():
        emitted = emit()
        if emitted is not None:
            log.append(f"went {own} {dotted(emitted[0])} {hexadecimal(emitted[1])}")
        return emitted

    end.arrive, end.emit = arriving, emitting
    return log


def end_log(rng):
    """The log of an end alone, on random calls and on segments that no end of ours sent."""
    end = End(config_of(rng))
    log = watch(end)
    first_call(rng, end)
    for _ in range(rng.choice([15, 60, 150])):
        line(rng, end)
    return log


def world_logs(rng):
    """The logs of both ends of a world under a random script."""
    has_gaps = rng.random() < 0.2
    world = World({side: random_config(rng, has_gaps) for side in "AB"}, life=rng.choice([20, 300, HALF]))
    logs = [watch(party.end) for party in world.parties.values()]
    count, longest = (600, 3) if has_gaps else (rng.choice([20, 60, 200]), rng.choice([3, 20, 250]))
    opening = HANDSHAKE if rng.random() < 0.9 else []
    for number in range(count):
        world.event(opening[number] if number < len(opening) else random_words(rng, world, longest, has_gaps))
    return logs


class Conversation:
    """Two users that send to each other over a link that loses and reorders, and then close."""

    def __init__(self, settings, seed):
        self.world, self.rng = World(settings), random.Random(seed)
        self.logs = {side: watch(party.end) for side, party in self.world.parties.items()}
        self.on_way = []

    def emit_all(self, side):
        """What goes out is lost, or late, or on its way."""
        while not (told := self.world.event(f"emit {side}")).startswith("none"):
            if self.rng.random() < 0.8:
                at = len(self.on_way) - (self.rng.random() < 0.2)
                self.on_way.insert(max(0, at), f"deliver {side} {told.split(' ')[0]}")

    def round(self, timers):
        for side in "AB":
            if timers and self.rng.random() < 0.5:
                self.world.event(f"timer {side} retransmit")
            self.emit_all(side)
        while self.on_way:
            words = self.on_way.pop(0)
            self.world.event(words)
            if self.rng.random() < 0.7:
                self.emit_all("B" if words.split(" ")[1] == "A" else "A")
        for side in "AB":
            self.world.event(f"receive {side} 100000")

    def is_over(self):
        return all(party.end.ending != "not-ended" or party.end.phase == "TIME-WAIT" for party in self.world.parties.values())

    def go(self, texts):
        """Opens, sends these texts of each side, and closes."""
        self.world.event("listen B")
        self.world.event("connect A")
        for turn in range(200):
            for side, sizes in texts.items():
                if turn < len(sizes):
                    self.world.event(f"send {side} {hexadecimal(self.rng.randbytes(sizes[turn]))}")
                elif turn == len(sizes):
                    self.world.event(f"close {side}")
            self.round(timers=turn > 0)
            if self.is_over():
                break
        return self.logs


def base_logs():
    """Three logs of different ends: one that opens and sends, with a window scale and blocks; its peer, whose numbers wrap; and one
    that answers a peer that offers nothing."""
    settings = {"A": {"isn": 1000, "mss": 200, "shift": 2}, "B": {"isn": (1 << 32) - 300, "mss": 200, "shift": 3}}
    both = Conversation(settings, 3).go({"A": [600, 300, 0, 700], "B": [0, 400, 100, 300]})
    settings = {"A": {"isn": HALF - 100, "sack": False, "shift": None}, "B": {"isn": 7, "mss": 100}}
    plain = Conversation(settings, 8).go({"A": [50, 500, 20], "B": [300, 0, 250, 900]})
    return both["A"], both["B"], plain["B"]
