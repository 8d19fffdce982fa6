#!/usr/bin/env python3
"""Checks that the checksum is summed over the lanes of std::simd (crates/tcp_numbers): `word_sum` reaches functions that compute with lanes for short and
for long inputs, and `checksum` and `checks` stand on `word_sum`. No contract says so, since a sum one word after another gives the same number, slower.

python3 checks/lanes.py prints what stands on what, and ends with 1 where something doesn't. First it plants three faults in a copy of the text, each of
which it has to find.
"""

import pathlib
import re
import sys

SRC = pathlib.Path(__file__).resolve().parents[1] / "crates" / "tcp_numbers" / "src"
FUNCTION = re.compile(r"^(?:pub(?:\([a-z]+\))? )?fn (\w+)", re.MULTILINE)
LANES = re.compile(r"\b[ui]\d+x\d+\b")
# What is to be reached, from where: for `word_sum` a function of lanes on either way.
WANTED = (("checksum", "word_sum"), ("checks", "word_sum"), ("word_sum", "short_sum"), ("word_sum", "long_sum"))
SUMS = ("short_sum", "long_sum")
# An old text in one file, and a new one by which a sum no longer stands on lanes.
PLANTED = (
    ("lanes.rt", "use std::simd::prelude::*;", "use crate::words::*;"),
    ("sums.rt", "lane_sum(", "plain_sum("),
    ("sums.rt", "let sum = word_sum(bytes) +", "let sum = plain_sum(bytes) +"),
)


def functions(files):
    """Each function's body, by name, without comments."""
    found = {}
    for text in files.values():
        text = re.sub(r"//.*", "", text)
        heads = list(FUNCTION.finditer(text))
        for head, after in zip(heads, [*heads[1:], None]):
            found[head[1]] = text[head.start() : after.start() if after else len(text)]
    return found


def reached(bodies, start):
    """The functions that a call of this one may call, itself too."""
    names, open_names = set(), [start]
    while open_names:
        name = open_names.pop()
        if name in bodies and name not in names:
            names.add(name)
            open_names += re.findall(r"\b(\w+)\(", bodies[name])
    return names


def faults(files):
    bodies = functions(files)
    lanes = {name for name in functions({"lanes.rt": files["lanes.rt"]}) if LANES.search(bodies[name])}
    if not re.search(r"^use std::simd\b", files["lanes.rt"], re.MULTILINE):
        lanes = set()
    wrong = [f"{name} doesn't stand on {other}" for name, other in WANTED if other not in reached(bodies, name)]
    return wrong + [f"{name} doesn't stand on std::simd" for name in SUMS if not lanes & reached(bodies, name)]


def main():
    files = {path.name: path.read_text() for path in sorted(SRC.glob("*.rt"))}
    for name, old, new in PLANTED:
        assert old in files[name], f"{name} has no {old!r}"
        assert faults({**files, name: files[name].replace(old, new)}), f"{new!r} in {name} isn't found"
    wrong = faults(files)
    print("\n".join(wrong) or f"lanes: checksum and checks stand on word_sum, and it on std::simd; {len(PLANTED)} planted faults found")
    sys.exit(bool(wrong))


if __name__ == "__main__":
    main()
