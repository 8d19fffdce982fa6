"""What twice as long a log costs the judge: at most 2.2 times the instructions, by callgrind; where each acknowledgement is accused at
most 4.4 times.

    growth.py TCPJUDGE

The logs are those of long.py that a peer, or a faulty end, makes long at its choice. A judge that goes over all that is kept at
each segment takes four times as many for twice the segments. For each accused acknowledgement it does, once: that takes four times as
many, and a second time for each other segment eight times. What a log without them takes is subtracted, so that the program's start
hides nothing.
"""

import argparse
import os
import re
import subprocess
import sys
import tempfile

from long import KINDS
from twice import side_by_side

# The length of the shorter log of each kind, and by how much the instructions grow at most.
LIMITS = {"held": (8000, 2.2), "older": (8000, 2.2), "batched": (8000, 2.2), "accused": (1000, 4.4), "syns": (1000, 4.4),
          "early": (500, 4.4)}
# What a log of so many segments is accused of.
ACCUSED = {"held": lambda count: 0, "older": lambda count: count}


def instructions(wanted):
    """The instructions by which a program judges a kind of log of so many segments; what it says has to be right."""
    program, kind, count = wanted
    with tempfile.NamedTemporaryFile("w", suffix=".log") as file:
        file.writelines(KINDS[kind](count))
        file.flush()
        words = ["valgrind", "--tool=callgrind", "--callgrind-out-file=/dev/null", os.path.abspath(program), "--complete", file.name]
        done = subprocess.run(words, capture_output=True, text=True, check=False, env={"PATH": os.environ["PATH"]})
    counted = re.search(r"Collected : (\d+)", done.stderr)
    if counted is None or not done.stdout.endswith(f" findings {ACCUSED.get(kind, lambda count: count // 2)(count)}\n"):
        raise OSError(f"{kind} {count}: status {done.returncode}, {done.stdout[-200:]}{done.stderr[-200:]}")
    return int(counted[1])


def growths(program):
    """Each kind of log, by how much its instructions grow where it has twice the segments, and by how much they may."""
    wanted = [(program, kind, length) for kind, (count, _) in LIMITS.items() for length in (0, count, 2 * count)]
    taken = dict(zip(wanted, side_by_side(instructions, wanted)))
    for kind, (count, most) in LIMITS.items():
        start, short, long = (taken[program, kind, length] for length in (0, count, 2 * count))
        ratio = (long - start) / (short - start)
        print(f"{kind}: {ratio:.2f} times the instructions for {2 * count:,} segments as for {count:,} (at most {most})", flush=True)
        yield kind, ratio, most


def judge_growth(cases, program):
    with cases.case("growth"):
        for kind, ratio, most in growths(program):
            cases.holds(f"growth of {kind}", ratio <= most, f"{ratio:.2f} times the instructions, and at most {most}")


if __name__ == "__main__":
    if len(sys.argv) != 2:
        raise SystemExit(__doc__)
    raise SystemExit(int(any(ratio > most for _, ratio, most in growths(sys.argv[1]))))
