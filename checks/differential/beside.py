"""Compares two builds of the programs, an older and a newer one, on random inputs, where both are to write the same:

    python3 checks/differential/beside.py OLD NEW [COUNT]

OLD and NEW are folders with `tcpkit` and `tcpjudge`. For a change that makes them faster and nothing else: what they write, standard
error and status are compared on COUNT (1,000 where none is given) scripts, three times as many logs and a third as many listings, and on
texts with words and lines of each length from 0 to 600. A third of the logs is of ends, a third is of ends and then spoilt, and a third has
few numbers in any order: acknowledgements that go back and forth, SYNs and resets in between, blocks of what came and of what didn't.
"""

import collections
import pathlib
import random
import struct
import subprocess
import sys
import tempfile

from conversation import end_log, world_logs
from decode import case as listing
from end import ACK, FIN, PSH, RST, SPACE, SYN
from program import hexadecimal, with_checksum
from replay import HANDSHAKE, case as script

LONGEST = 600
OWN, PEER = bytes([10, 0, 0, 1]), bytes([10, 0, 0, 2])
OPENING = "".join(f"{row}\n" for row in HANDSHAKE)


def dotted(address):
    return ".".join(map(str, address))


def log_line(word, segment):
    source, target = (OWN, PEER) if word == "went" else (PEER, OWN)
    return f"{word} {dotted(source)} {dotted(target)} {hexadecimal(with_checksum(source, target, segment))}"


def any_option(rng, number):
    """An option with its padding."""
    left = number + rng.randrange(-5, 60)
    block = struct.pack(">II", left % SPACE, (left + rng.choice([-1, 0, 1, 1, 2, 5, 30])) % SPACE)
    plain = [b"\2\4\5\xb4", b"\1\3\3\2", b"\3\3\1\0", b"\1\1\4\2", b"\1\1\x08\x0a" + bytes(8)]
    return rng.choice([*plain, b"\1\1\5\x0a" + block, b"\1\1\5\x12" + block * 2])


def few_numbers(rng):
    """A log whose numbers are few, and around the last one now and then."""
    first, own, heard = rng.choice([SPACE - 30, 0, 1000, 2**31 - 20]), rng.choice([SPACE - 10, 100]), 1
    for _ in range(rng.choice([20, 60, 150])):
        word = rng.choice(["came", "came", "went"])
        flags = rng.choices([ACK, ACK | PSH, SYN, SYN | ACK, RST, FIN | ACK, 0], [40, 20, 4, 4, 2, 2, 2])[0]
        heard = max(0, heard + rng.choice([0, 0, 0, 1, 1, 2, -1, -3, rng.randrange(60)])) % 200
        near = rng.choice([0, 0, rng.randrange(80), rng.randrange(80), 2**31 - 1 + rng.randrange(3)])
        theirs, ours = (first + near) % SPACE, (own + rng.randrange(40)) % SPACE
        seq, ack = (theirs, ours) if word == "came" else (ours, (first + heard) % SPACE)
        options = any_option(rng, first + heard) if rng.random() < 0.25 else b""
        fields = 1, 2, seq, ack, (20 + len(options)) // 4 << 4, flags, 65535, 0, 0
        yield log_line(word, struct.pack(">HHIIBBHHH", *fields) + options + b"x" * rng.choice([0, 1, 1, 1, 2, 3, 9]))


def spoilt(rng, lines):
    """Lines left out, repeated, exchanged, and segments with another byte whose checksum is right again."""
    lines = list(lines)
    for _ in range(rng.randrange(1, 9) if len(lines) > 2 else 0):
        at, kind = rng.randrange(len(lines) - 1), rng.randrange(4)
        if kind == 0:
            lines.insert(rng.randrange(len(lines)), lines[at])
        elif kind == 1:
            lines[at], lines[at + 1] = lines[at + 1], lines[at]
        elif kind == 2 and len(lines) > 3:
            del lines[at]
        else:
            word, source, target, digits = lines[at].split(" ")
            segment = bytearray.fromhex(digits.replace("-", ""))
            if len(segment) >= 20:
                segment[rng.randrange(len(segment))] ^= 1 << rng.randrange(8)
                ends = [bytes(map(int, address.split("."))) for address in (source, target)]
                lines[at] = f"{word} {source} {target} {hexadecimal(with_checksum(*ends, bytes(segment)))}"
    return lines


def random_log(seed):
    rng = random.Random(seed)
    if seed % 3 == 0:
        return list(few_numbers(rng))
    lines = end_log(rng) if seed % 2 else world_logs(rng)[seed // 2 % 2]
    return lines if seed % 3 == 1 else spoilt(rng, lines)


def texts(length):
    """Texts with a word or a line of a length, and the program's words for each."""
    word, pair = "w" * length, "ab" * length
    spoilt_word = "0" * length + "g" + "0" * (LONGEST - length)
    good = log_line("came", struct.pack(">HHIIBBHHH", 1, 2, 1, 1, 80, ACK, 9, 0, 0) + bytes(length))
    for text in (
        f"#{word}\n{good[5:]}\n#{word}\n\n{good[5:]}",
        f"1.2.3.4 5.6.7.8 {pair}\n{good[5:]}\n",
        f"{good[5:]}\n1.2.3.4 5.6.7.8 {pair}a\n",
        f"1.2.3.4 5.6.7.8 {spoilt_word}\n",
        f"{word} 5.6.7.8 00\n",
        f"1.2.3.4 {word} 00\n",
        f"{good[5:]}\n#{word}\x80\n",
        f"{good[5:]}\n{word}\r\n",
    ):
        yield ["tcpkit", "decode"], text
    for event in f"send A {pair or '-'}", f"send {word} 00", word, f"receive A {'1' * length}", f"#{word}\nemit A\n#{word}":
        yield ["tcpkit", "replay"], f"{OPENING}{event}\nemit A\ndeliver A 2"
    for line in f"{word} 1.2.3.4 5.6.7.8 00", f"came {word} 5.6.7.8 00", f"#{word}", f"went 1.2.3.4 5.6.7.8 {pair or '-'}":
        yield ["tcpjudge", "--complete"], f"{good}\n{line}\n{good}\n#{word}\x80"[: -1 if length % 2 else None]


def inputs(count):
    for seed in range(count):
        yield "scripts", ["tcpkit", "replay"], script(seed)[0]
    for seed in range(3 * count):
        words = ["tcpjudge", "--complete"] if seed % 8 else ["tcpjudge"]
        yield "logs", words, "".join(f"{line}\n" for line in random_log(seed))
    for seed in range((count + 2) // 3):
        yield "listings", ["tcpkit", "decode"], listing(seed)[0]
    for length in range(LONGEST + 1):
        for words, text in texts(length):
            yield "texts", words, text


def answer(folder, words, file):
    done = subprocess.run([folder / words[0], *words[1:], file.name], capture_output=True, check=False)
    return done.returncode, done.stdout, done.stderr


def main():
    if len(sys.argv) not in (3, 4):
        raise SystemExit(__doc__)
    old, new = (pathlib.Path(word).resolve() for word in sys.argv[1:3])
    counts, statuses = collections.Counter(), collections.Counter()
    for kind, words, text in inputs(int(sys.argv[3]) if len(sys.argv) == 4 else 1000):
        with tempfile.NamedTemporaryFile() as file:
            file.write(text.encode("latin-1"))
            file.flush()
            one, other = (answer(folder, words, file) for folder in (old, new))
        if one != other:
            raise SystemExit(f"{kind} {counts[kind]}: {' '.join(words)}: {one} and {other} on\n{text[:2000]}")
        counts[kind] += 1
        statuses[f"{kind} with status {one[0]}"] += 1
    print(", ".join(f"{count} {kind}" for kind, count in counts.items()) + " are equal:")
    print(", ".join(f"{count} {kind}" for kind, count in sorted(statuses.items())))


if __name__ == "__main__":
    main()
