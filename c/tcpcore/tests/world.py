"""One scripted world, as checks/programs/test_connections has it, by tcpcore.Connection: reads a script and prints its trace. python3 world.py <SCRIPT"""

import os
import sys

sys.path.insert(0, os.path.dirname(os.path.dirname(os.path.realpath(__file__))))
from tcpcore import Config, Connection, Ending, Phase, Refused, Rules  # noqa: E402

PHASES, ENDINGS = list(Phase), list(Ending)
ADDRS = "10.0.0.1", "10.0.0.2"


def number(word):
    """The number of a word, None where it is `-`."""
    return None if word == "-" else int(word)


def seconds(micros):
    return None if micros is None else micros / 1e6


def flags(*values):
    return " ".join(str(int(value)) for value in values)


class World:
    """A connects to B, at time 0. `kind` is what is in Connection's place."""

    def __init__(self, kind, rules, way, mss, capacity, shift, runs):
        self.micros, self.way, self.window = 0, way, None
        self.emitted, self.given, self.packets, self.fates = [0, 0], [0, 0], [], []
        a, b = (
            Config(addr, port, isn, mss, capacity, capacity, shift, runs=runs) for addr, port, isn in ((ADDRS[0], 1, 2**32 - 6), (ADDRS[1], 2, 5000))
        )
        self.ends = kind.connect(0.0, a, ADDRS[1], 2, rules, 1 << 20), kind.listen(0.0, b, rules, 1 << 20)
        print("new")
        self.turn(0)
        self.turn(1)

    @property
    def now(self):
        return self.micros / 1e6

    def poll_at(self, side):
        at = self.ends[side].poll_at()
        return None if at is None else round(at * 1e6)

    def print(self, side, text, end="\n"):
        print(self.micros, "AB"[side], text, end=end)

    def show(self, side):
        s, at = self.ends[side].status(), self.poll_at(side)
        shown = PHASES.index(s.phase), ENDINGS.index(s.ending), s.unread, s.ordered, s.released, s.room, s.queued, s.in_flight
        self.print(side, f"is {flags(*shown)} {'-' if at is None else at}")

    def arrival(self, side, count):
        """When the side's emission of this number comes, None where it is lost."""
        met = [later for of, first, length, later in self.fates if of == side and first <= count < first + length]
        return None if None in met else self.micros + self.way + sum(met)

    def emit(self, side):
        self.ends[side].window = self.window
        while (found := self.ends[side].transmit(self.now)) is not None:
            told, data = found
            at = self.arrival(side, self.emitted[side])
            self.emitted[side] += 1
            header = data[: 4 * (data[12] >> 4)].hex()
            self.print(side, f"sent {told.length} {told.position} {told.numbers} {header}" + (" lost" if at is None else ""))
            if at is not None:
                self.packets.append((at, 1 - side, data))

    def deliver(self):
        due = [packet for packet in self.packets if packet[0] <= self.micros]
        self.packets = [packet for packet in self.packets if packet[0] > self.micros]
        for _, side, data in due:
            answer, report = self.ends[side].arrive_with_report(self.now, ADDRS[1 - side], ADDRS[side], data)
            self.print(side, f"came {flags(answer, report.acked, report.at_once, report.is_duplicate, report.window_taken)}")

    def turn(self, side):
        self.emit(side)
        while (timer := self.ends[side].timeout(self.now)) is not None:
            self.print(side, f"expired {flags(timer)}")
            self.emit(side)
        self.show(side)

    def go_on(self, until):
        """Time goes on, and whatever happens by then."""
        while True:
            times = [self.poll_at(0), self.poll_at(1)] + [packet[0] for packet in self.packets]
            following = min((time for time in times if time is not None), default=None)
            if following is None or following > until:
                break
            self.micros = max(self.micros, following)
            self.deliver()
            self.turn(0)
            self.turn(1)
        self.micros = max(self.micros, until)

    def send(self, side, count):
        first = self.given[side]
        taken = self.ends[side].send(self.now, bytes((at * 7 + (at >> 8) + 3 * side) & 255 for at in range(first, first + count)))
        self.given[side] += taken
        return taken

    def receive(self, side, room):
        end = self.ends[side]
        lent = end.peek()
        if lent is None or not lent.text:
            return "answer 51" if lent is None else "answer 52"
        # `receive` hands over all that a connection's own room takes.
        text = lent.text[:room]
        if len(text) < len(lent.text):
            end.consume(self.now, room)
        elif end.receive(self.now) != text:
            sys.exit("world: receive doesn't hand over what peek does")
        total = 2166136261
        for byte in text:
            total = (total ^ byte) * 16777619 % 2**32
        return f"{len(text)} {total}"

    def peek(self, side):
        lent = self.ends[side].peek()
        return "answer 51" if lent is None else len(lent.text) if lent.text else "answer 52"

    def call(self, side, name, time, *count):
        self.go_on(time)
        self.print(side, name, end=" ")
        end = self.ends[side]
        try:
            if name in ("send", "receive", "peek"):
                answer = getattr(self, name)(side, *count)
            else:
                answer = getattr(end, name)(self.now, *count)
            print(0 if answer is None else answer)
        except Refused as refused:
            print("answer", int(refused.answer))
        self.turn(side)


def run(script, kind):
    """Prints the trace of a script."""
    rules, world = Rules(), None
    for line in script:
        word, *words = line.split()
        if word == "rules":
            *times, suspect = map(number, words)
            rules = Rules(*map(seconds, times), suspect)
        elif word == "new":
            world = World(kind, rules, *map(number, words))
        elif word in ("lose", "late"):
            side, first, count, *later = words
            world.fates.append(("AB".index(side), int(first), int(count), int(later[0]) if later else None))
        elif word == "window":
            world.window = number(words[0])
        elif word == "run":
            world.go_on(int(words[0]))
        else:
            name, *numbers = words
            world.call("AB".index(word), name, *map(number, numbers))


if __name__ == "__main__":
    run(sys.stdin, Connection)
