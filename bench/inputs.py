"""Writes what bench/figures.py gives to the programs, the same each time: inputs.py FOLDER.

These are texts, scripts, lists and logs of kinds that the workloads of bench/workloads.txt don't have: nothing but comments; short
words and lines; a script of small and of full segments; segments of all lengths with timestamps, blocks and damage; a log that breaks
rules and carries timestamps; and many small logs.
"""

import pathlib
import struct
import sys

TOP = pathlib.Path(__file__).resolve().parent.parent
sys.path.insert(0, str(TOP / "checks/judge"))

from long import ACK, LARGEST, OWN, PEER, PERMITTED, PSH, SYN, line

FIN = 1
LENGTHS = 0, 1, 60, 140, 536, 1400
SMALL_LOGS = 10


def text(number, length):
    """Bytes of many values, other ones for each number."""
    return bytes((number * 31 + place * 7) % 256 for place in range(length))


def timestamps(number):
    return struct.pack(">BBBBII", 1, 1, 8, 10, 1000 + number, 500 + number)


def blocks(*edges):
    return struct.pack(">BBBB", 1, 1, 5, 2 + 8 * len(edges)) + b"".join(struct.pack(">II", *edge) for edge in edges)


def comments():
    """Lines of 20 bytes, none of which is a segment."""
    return "".join(f"# comment {number:010}\n" for number in range(20000))


def short():
    """Words and lines of few bytes: what is no segment, comments and empty lines."""
    return "".join(f"1.2.3.4 5.6.7.8 {number % 256:02x}\n#\n\n" for number in range(4000))


def script():
    """Rounds of six events in order: 16 bytes, or each eighth time a full segment, and the acknowledgement."""
    lines = ["listen B", "connect A", "emit A", "deliver A 0", "emit B", "deliver B 0", "emit A", "deliver A 1"]
    for number in range(800):
        length = 1460 if number % 8 == 7 else 16
        lines += [f"send A {text(number, length).hex()}", "emit A", f"deliver A {number + 2}"]
        lines += [f"receive B {length}", "emit B", f"deliver B {number + 1}"]
    return "".join(f"{row}\n" for row in lines)


def listing():
    """Segments with timestamps, each third with blocks, each sixteenth damaged."""
    rows = []
    for number in range(1200):
        options = timestamps(number) + (blocks((9, 99), (999, 9999)) if number % 3 == 0 else b"")
        row = line("came", number, 1, ACK | PSH, text(number, LENGTHS[number % len(LENGTHS)]), options).split(" ", 1)[1]
        rows.append(row[:-2] + ("0" if row[-2] != "0" else "1") + "\n" if number % 16 == 15 else row)
    return "".join(rows)


def opening():
    yield line("went", 0, 0, SYN, options=LARGEST + PERMITTED)
    yield line("came", 0, 1, SYN | ACK, options=LARGEST + PERMITTED)
    yield line("went", 1, 1, ACK)


def faults():
    """An end with timestamps that sends and receives, and breaks one of six rules in each eighth round."""
    rows = list(opening())
    for number in range(400):
        place, heard = 1 + 100 * number, 1 + 50 * number
        wrong = [
            line("went", place, heard, ACK, text(number, 100), LARGEST),
            line("went", place - 50, heard, ACK, b"another text", timestamps(number)),
            line("went", place, heard, 0, text(number, 100), timestamps(number)),
            line("went", place, heard + 60, ACK, text(number, 100), timestamps(number)),
            line("went", place, heard - 1, ACK, text(number, 100), timestamps(number)),
            line("went", place, heard, ACK, b"", timestamps(number) + blocks((heard + 500, heard + 600))),
        ]
        rows += [wrong[number // 8 % len(wrong)]] if number % 8 == 7 else []
        rows.append(line("went", place, heard, ACK | PSH, text(number, 100), timestamps(number)))
        rows.append(line("came", heard, place + 100 * (number % 2), ACK | PSH, text(number, 50), timestamps(number)))
    return "".join(rows)


def small(number):
    """A log of fourteen segments."""
    rows = list(opening())
    for turn in range(4):
        rows.append(line("went", 1 + 8 * turn, 1 + 8 * turn, ACK | PSH, text(number, 8)))
        rows.append(line("came", 1 + 8 * turn, 9 + 8 * turn, ACK | PSH, text(turn, 8)))
    rows += [line("went", 33, 33, ACK | FIN), line("came", 33, 34, ACK | FIN), line("went", 34, 34, ACK)]
    return "".join(rows)


def write(folder):
    """All of them into a folder, by their names."""
    made = {"comments": comments(), "short": short(), "script": script(), "listing": listing(), "faults": faults()}
    made |= {f"small{number}": small(number) for number in range(SMALL_LOGS)}
    for name, content in made.items():
        (folder / name).write_text(content)


if __name__ == "__main__":
    if len(sys.argv) != 2:
        raise SystemExit(__doc__)
    write(pathlib.Path(sys.argv[1]))
