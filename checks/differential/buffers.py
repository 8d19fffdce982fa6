"""Both buffers of an end written a second time, plainly: `python3 checks/differential/buffers.py` writes the calls of crates/test_buffers (stdin) and what
they answer (stdout), as far as they can be followed by hand. The queue is a list of bytes with a flag for each; the reassembly is a list of places, each
with the byte that is held there and the number of the call that had news of it last. `--check N [SEED]` makes a thousand turns round both rings and N
random calls, runs them through the built program and compares.
"""

import pathlib
import random
import subprocess
import sys

CRATE = pathlib.Path(__file__).resolve().parents[2] / "crates" / "test_buffers"
GREATEST = 1048576
GREATEST_RUNS = 4096


class Queue:
    """RFC 9293, 3.3.1: the bytes that were offered and not released, the oldest first, and which of them are marked."""

    def __init__(self, capacity, most_runs=16):
        self.capacity, self.most_runs, self.bytes, self.marked = capacity, most_runs, b"", []

    def offer(self, text):
        taken = text[: self.capacity - len(self.bytes)]
        self.bytes += taken
        self.marked += [False] * len(taken)
        return str(len(taken))

    def release(self, count):
        if count > len(self.bytes):
            return "outside"
        self.bytes, self.marked = self.bytes[count:], self.marked[count:]
        return "done"

    def copy(self, at, count):
        if at + count > len(self.bytes):
            return "outside"
        return self.bytes[at : at + count].hex() or "-"

    def mark(self, start, end):
        if start >= end or end > len(self.bytes):
            return "outside"
        marked = [True if start <= place < end else flag for place, flag in enumerate(self.marked)]
        runs = sum(1 for place, flag in enumerate(marked) if flag and not (place + 1 < len(marked) and marked[place + 1]))
        if runs > self.most_runs:
            return "false"
        self.marked = marked
        return "true"

    def forget(self):
        self.marked = [False] * len(self.marked)
        return "done"

    def unmarked(self, at):
        for place in range(at, len(self.marked)):
            if not self.marked[place]:
                end = place
                while end < len(self.marked) and not self.marked[end]:
                    end += 1
                return f"{place} {end}"
        return "none"

    def last_marked(self):
        ends = [place + 1 for place, flag in enumerate(self.marked) if flag]
        return str(ends[-1]) if ends else "none"

    def state(self):
        room = self.capacity - len(self.bytes)
        return f"{len(self.bytes)} of {self.capacity}, room {room}, empty {str(not self.bytes).lower()}"


class Inbox:
    """RFC 9293, 3.10.7.4, and RFC 2018, 4: the bytes in order, and what is held at each place of the window."""

    def __init__(self, capacity, most_runs=16):
        self.capacity, self.most_runs = capacity, most_runs
        self.unread, self.places, self.calls = b"", [None] * capacity, 0

    def runs(self, places):
        runs, at = [], 0
        while at < len(places):
            if places[at] is None:
                at += 1
                continue
            end = at
            while end < len(places) and places[end] is not None:
                end += 1
            runs.append((max(news for _, news in places[at:end]), at, end))
            at = end
        return runs

    def place(self, offset, text):
        self.calls += 1
        laid, touched = list(self.places), []
        for place, byte in enumerate(text, offset):
            if 0 <= place < len(laid):
                laid[place] = (byte if laid[place] is None else laid[place][0], self.calls)
                touched.append(place)
        if not touched or (0 not in touched and len(self.runs(laid)) > self.most_runs):
            return "not kept"
        count = 0
        while count < len(laid) and laid[count] is not None:
            count += 1
        self.unread += bytes(byte for byte, _ in laid[:count])
        self.places = laid[count:]
        return f"advanced {count}" if count else "held"

    def read(self, room):
        taken = self.unread[:room]
        self.unread = self.unread[len(taken) :]
        self.places += [None] * len(taken)
        return taken.hex() or "-"

    def blocks(self):
        newest = sorted(self.runs(self.places), reverse=True)[:4]
        return " ".join(f"{start}-{end}" for _, start, end in newest) or "none"

    def clear_held(self):
        self.places = [None] * len(self.places)
        return "done"

    def clear(self):
        self.unread, self.places = b"", [None] * self.capacity
        return "done"

    def state(self):
        return f"unread {len(self.unread)} of {self.capacity}, window {len(self.places)}"


def read_hex(word):
    return b"" if word == "-" else bytes.fromhex(word)


class Second:
    """What the program answers to each line."""

    def __init__(self):
        self.buffer = None

    def begin(self, kind, capacity, most_runs=16):
        self.buffer = None
        if not 1 <= most_runs <= GREATEST_RUNS:
            return "outside"
        if not 1 <= capacity <= GREATEST:
            return "refused 21: the capacity is not from 1 to 1048576 bytes"
        self.buffer = {"queue": Queue, "inbox": Inbox}[kind](capacity, most_runs)
        return "new"

    def answer(self, line):
        word, *rest = line.split(" ")
        if word in ("queue", "inbox"):
            return self.begin(word, *map(int, rest))
        if word == "offer":
            return self.buffer.offer(read_hex(rest[0]))
        if word == "place":
            return self.buffer.place(int(rest[0]), read_hex(rest[1]))
        if word == "marked":
            return self.buffer.last_marked()
        return getattr(self.buffer, word)(*map(int, rest))


def worked(turns):
    """Calls whose answers can be followed by hand; each capacity's limits; and turns round both rings."""
    for kind in ("queue", "inbox"):
        for capacity in (0, 1, GREATEST, GREATEST + 1):
            yield f"{kind} {capacity}"
            if 1 <= capacity <= GREATEST:
                yield "state"
    yield from "queue 4,offer 616263646566,state,release 3,offer 78797a,state,copy 0 4,release 5,copy 2 3".split(",")
    yield from "queue 10,offer 30313233343536373839,mark 2 4,mark 4 5,unmarked 0,unmarked 2,marked".split(",")
    yield from "release 3,unmarked 0,marked,forget,unmarked 0,marked,mark 3 3,mark 6 8,unmarked 7,unmarked 4294967295".split(",")
    yield from ["queue 40", "offer " + "00" * 40]
    yield from (f"mark {place} {place + 1}" for place in range(0, 32, 2))
    yield from "mark 39 40,marked,mark 31 32,mark 1 2,mark 39 40,marked".split(",")
    yield "queue 4"
    for turn in range(turns):
        text = bytes((3 * turn + place) % 256 for place in range(3)).hex()
        yield from (f"offer {text}", "copy 0 3", "release 3")
    yield from "inbox 8,place 2 6364,place 3 58595a,place 0 6162,state,place 2 7a7a,read 8,state,place -3 717273,place -1 7051,read 8".split(",")
    yield from "inbox 64,place 10 61,place 20 62,place 11 63,blocks,place 20 7a,blocks".split(",")
    yield from ["place 0 " + "00" * 20, "read 21", "blocks"]
    yield "inbox 100"
    yield from (f"place {place} 78" for place in range(1, 32, 2))
    yield from "place 33 78,blocks,place 30 79,blocks,place 33 78,place 0 78,clear_held,blocks,state".split(",")
    yield from "inbox 8,place 0 6162,place 2 6566,clear,state,blocks,place 0 78,state".split(",")
    yield "inbox 8"
    for turn in range(turns):
        text = bytes((3 * turn + place) % 256 for place in range(3)).hex()
        yield from (f"place 1 {text[2:]}", f"place 0 {text}", "read 3")
    yield "state"
    yield from few_runs()
    yield from many_runs(300)


def few_runs():
    """The least and the greatest number of runs; one run, then two, and one more than that."""
    for kind in ("queue", "inbox"):
        yield from (f"{kind} 8 {most}" for most in (0, 1, GREATEST_RUNS, GREATEST_RUNS + 1))
    yield from "queue 10 1,offer 30313233343536373839,mark 2 3,mark 4 5,mark 3 5,unmarked 2,mark 7 8,release 5,mark 2 3,unmarked 0".split(",")
    yield from "queue 10 2,offer 30313233343536373839,mark 2 3,mark 4 5,mark 8 9,mark 3 4,mark 8 9,mark 6 7,forget,mark 6 7".split(",")
    yield from "inbox 10 1,place 3 61,place 5 62,place 4 63,place 5 62,place 8 64,blocks,place 0 5a,blocks,place 0 5959,read 10".split(",")
    yield from "place 2 61,clear_held,place 4 62,place 1 63,blocks".split(",")
    yield from "inbox 10 2,place 3 61,place 5 62,place 8 63,blocks,place 4 64,place 8 63,blocks,place 6 65,clear,place 6 65".split(",")


def many_runs(most):
    """As many runs as the number says, and one more; two of them joined, and then one more again."""
    length = 2 * most + 8
    yield from [f"queue {length} {most}", "offer " + "61" * length]
    yield from (f"mark {2 * k + 1} {2 * k + 2}" for k in range(most))
    yield from f"mark {2 * most + 1} {2 * most + 2},marked,mark 2 3,mark {2 * most + 1} {2 * most + 2},marked,unmarked {most},release 100".split(",")
    yield from f"unmarked 0,unmarked {most},mark {length - 101} {length - 100},marked".split(",")
    yield f"inbox {length} {most}"
    yield from (f"place {2 * k + 1} 61" for k in range(most))
    yield from f"place {2 * most + 1} 62,blocks,place 2 63,blocks,place {2 * most + 1} 62,blocks,place {2 * most + 3} 64,place 0 65".split(",")
    yield from "blocks,state,read 4,clear_held,place 7 66,blocks,state".split(",")


def queue_call(draw, queue):
    kind, length = draw.randrange(12), len(queue.bytes)
    if kind < 2:
        return "offer " + (draw.randbytes(draw.randrange(6)).hex() or "-")
    if kind == 2:
        return f"release {draw.randrange(min(length, 4) + 1)}"
    if kind == 3 and draw.randrange(16) == 0:
        return "forget"
    if kind < 8:
        start = draw.randrange(length + 1)
        return f"mark {start} {start + 1 + draw.randrange(2)}"
    at = draw.randrange(length + 1)
    return ["state", "marked", f"unmarked {at}", f"copy {at} {draw.randrange(length - at + 1)}"][kind - 8]


def inbox_call(draw, inbox, longest):
    kind = draw.randrange(100)
    if kind == 0:
        return "clear_held"
    if kind < 20:
        return f"read {draw.randrange(9)}"
    if kind < 40:
        return ["blocks", "state"][kind % 2]
    span = 8 if draw.randrange(8) == 0 else len(inbox.places) + 6
    return f"place {draw.randrange(span) - 3} " + (draw.randbytes(draw.randrange(longest + 1)).hex() or "-")


def random_calls(draw, second, count):
    for capacity, most in ((1, 1), (2, 16), (3, 2), (7, 2), (40, 1), (40, 16), (120, 16), (120, 2), (1500, 300)):
        yield f"queue {capacity} {most}"
        for _ in range(count // 12):
            yield queue_call(draw, second.buffer)
    for capacity in (1, 2, 3, 5, 8, 16, 33, 64, 100, 200):
        for longest, most in ((1, 16), (5, 16), (1, 1), (2, 2)):
            yield f"inbox {capacity} {most}"
            for _ in range(count // 40):
                yield inbox_call(draw, second.buffer, longest)


def played(calls_of):
    second, lines, answers = Second(), [], []
    for line in calls_of(second):
        lines.append(line)
        answers.append(second.answer(line))
    return "".join(line + "\n" for line in lines), "".join(answer + "\n" for answer in answers)


def check(count, seed):
    rows, drawn = played(lambda second: worked(1000)), played(lambda second: random_calls(random.Random(seed), second, count))
    calls, answers = rows[0] + drawn[0], rows[1] + drawn[1]
    program = CRATE / "out" / "test_buffers"
    if not program.exists():
        sys.exit(f"build it first: (cd {CRATE} && rt run </dev/null)")
    out = subprocess.run([program], input=calls, capture_output=True, text=True)
    for number, (call, wanted, got) in enumerate(zip(calls.splitlines(), answers.splitlines(), out.stdout.splitlines()), 1):
        if wanted != got:
            sys.exit(f"seed {seed}, call {number}: {call}\n  {got}\n  wanted {wanted}")
    if out.stdout != answers or out.returncode != 0:
        sys.exit(f"seed {seed}: {out.returncode}, {len(out.stdout)} bytes in place of {len(answers)}")
    print(f"{len(calls.splitlines())} calls, no difference")


if __name__ == "__main__":
    if sys.argv[1:2] == ["--check"]:
        check(int(sys.argv[2]), int(sys.argv[3]) if len(sys.argv) > 3 else 1)
    else:
        for name, lines in zip(("stdin", "stdout"), played(lambda second: worked(8))):
            (CRATE / name).write_text(lines)
