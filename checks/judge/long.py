"""Writes the log of a long transfer: 21,002 segments, 20 MB of text, of which 2,856 bytes are in flight at most.

    python3 checks/judge/long.py >LOG
    python3 checks/judge/long.py --held SEGMENTS >LOG
    python3 checks/judge/long.py --older SEGMENTS >LOG
    python3 checks/judge/long.py --batched SEGMENTS >LOG
    python3 checks/judge/long.py --accused SEGMENTS >LOG
    python3 checks/judge/long.py --syns SEGMENTS >LOG
    python3 checks/judge/long.py --early SEGMENTS >LOG

It is what docs/JUDGE.md measures. The end that is judged opens, and sends two texts before each acknowledgement. With --held it receives:
the first text is lost, so many of 1,460 bytes come behind it, each is answered by a block of all that came, and then the first comes.
With --older and --batched the peer is hostile and the end faulty: so many segments of one byte come, each before the last one with a gap,
and the end acknowledges one number less than before, with an option of SYNs: behind each with --older, and with --batched half as often
behind all of them. With --accused so many segments of one byte come, each right before the last one, and half as often the end
acknowledges what didn't come, another number each time. With --syns so many SYNs come instead, each with a number of its own. With --early
so many segments of one byte come in any order behind a lost one, before the end acknowledges anything, at numbers of 2^31 and more; then it
acknowledges all of them, again and again. growth.py counts what these kinds cost.
"""

import argparse
import random
import struct
import sys

import twice  # noqa: F401, which finds the second programs
from end import ACK, PSH, SYN
from program import hexadecimal, with_checksum

ROUNDS, SIZE, OWN, PEER = 7000, 1428, bytes([10, 0, 0, 1]), bytes([10, 0, 0, 2])
HELD_SIZE, PERMITTED, LARGEST = 1460, bytes([1, 1, 4, 2]), bytes([2, 4, 5, 180])


def line(word, seq, ack, flags, text=b"", options=b""):
    source, target, ports = (OWN, PEER, (1, 2)) if word == "went" else (PEER, OWN, (2, 1))
    fields = *ports, seq % 2**32, ack % 2**32, (20 + len(options)) // 4 << 4, flags, 65535, 0, 0
    segment = struct.pack(">HHIIBBHHH", *fields) + options + text
    addresses = [".".join(map(str, address)) for address in (source, target)]
    return f"{word} {addresses[0]} {addresses[1]} {hexadecimal(with_checksum(source, target, segment))}\n"


def sent():
    rng = random.Random(1)
    yield line("went", 0, 0, SYN)
    yield line("came", 0, 1, SYN | ACK)
    place = 1
    for _ in range(ROUNDS):
        for _ in range(2):
            yield line("went", place, 1, ACK | PSH, rng.randbytes(SIZE))
            place += SIZE
        yield line("came", 1, place, ACK)


def held(count):
    text, first = bytes(HELD_SIZE), 1 + HELD_SIZE
    yield line("went", 0, 0, SYN, options=PERMITTED)
    yield line("came", 0, 1, SYN | ACK, options=PERMITTED)
    yield line("went", 1, 1, ACK)
    for number in range(1, count + 1):
        place = 1 + number * HELD_SIZE
        yield line("came", place, 1, ACK, text)
        yield line("went", 1, 1, ACK, options=struct.pack(">BBBBII", 1, 1, 5, 10, first, place + HELD_SIZE))
    yield line("came", 1, 1, ACK, text)
    yield line("went", 1, 1 + (count + 1) * HELD_SIZE, ACK)


def older(count, is_batched=False):
    yield line("went", 0, 0, SYN)
    yield line("came", 0, 1, SYN | ACK)
    yield line("went", 1, 1, ACK)
    accused = line("went", 1, 0, ACK, options=LARGEST)
    for number in range(count):
        yield line("came", 1 + 2 * (count - number), 1, ACK, b"x")
        if not is_batched:
            yield accused
    if is_batched:
        yield from [accused] * (count // 2)


def batched(count):
    return older(count, is_batched=True)


def accused(count):
    yield line("went", 0, 0, SYN)
    yield line("came", 0, 1, SYN | ACK)
    yield line("went", 1, 1, ACK)
    for number in range(count):
        yield line("came", count - number, 1, ACK, b"x")
    for number in range(count // 2):
        yield line("went", 1, 2 + count + 2 * number, ACK)


def syns(count):
    yield line("went", 0, 0, SYN)
    for number in range(count):
        yield line("came", 2 * number, 0, SYN)
    for number in range(count // 2):
        yield line("went", 1, 2 * count + 2 * number, ACK)


def early(count):
    first = 3 * 2**30
    yield line("went", 0, 0, SYN)
    yield line("came", first, 1, SYN | ACK)
    for place in random.Random(1).sample(range(count), count):
        yield line("came", first + 2 + place, 1, ACK, b"x")
    yield line("went", 1, first + 1, ACK)
    for _ in range(count // 2):
        yield line("went", 1, first + 2 + count, ACK)


KINDS = {"held": held, "older": older, "batched": batched, "accused": accused, "syns": syns, "early": early}


def main():
    parser = argparse.ArgumentParser(description=__doc__, formatter_class=argparse.RawDescriptionHelpFormatter)
    kinds = parser.add_mutually_exclusive_group()
    for kind in KINDS:
        kinds.add_argument(f"--{kind}", type=int, metavar="SEGMENTS")
    words = vars(parser.parse_args())
    logs = [make(words[kind]) for kind, make in KINDS.items() if words[kind] is not None]
    sys.stdout.writelines(logs[0] if logs else sent())


if __name__ == "__main__":
    main()
