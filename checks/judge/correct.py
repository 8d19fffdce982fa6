"""What is noted of correct ends: each capture of a stack that was taken at the end itself, by `tcpjudge --at`. None of them has a finding.

    python3 checks/judge/correct.py TCPJUDGE [--netstack PROGRAM] [--peers FOLDER]

PROGRAM is netstack.go's, and FOLDER has the programs that checks/peers/lwip.sh builds. Prints a row for each stack: its ends, their
segments, and how many packets of how many ends have each note but those of what each end does at times. The last line is
`N ends, M accused`. judging.py does the same with its captures.
"""

import argparse
import collections
import json
import pathlib
import subprocess
import sys
import tempfile

# Notes of what each correct end does at times.
ORDINARY = {"Retransmission", "FastRetransmission", "OutOfOrder", "DuplicateAck", "ZeroWindow", "WindowFull", "KeepAlive"}


def ends_of(program, taken, address):
    """The ends at this address in a capture: each one's line, its findings and its notes, each name with how many packets."""
    done = subprocess.run([program, "--at", address, "--json", taken.path], capture_output=True, text=True, check=False)
    broken, notes = collections.Counter(), collections.defaultdict(dict)
    for line in map(json.loads, done.stdout.splitlines()):
        place = line.get("connection"), line.get("end")
        if line["kind"] == "finding":
            broken[place] += line["count"]
        if line["kind"] == "note" and line["name"] not in ORDINARY:
            notes[place][line["name"]] = line["count"]
        if line["kind"] == "end" and line["segments"] and line["end"].startswith(f"{address}:") and line["all_rules"]:
            yield line, broken[place], notes[place]


class Seen:
    """What is seen of a stack."""

    def __init__(self):
        self.ends = self.segments = self.accused = 0
        self.packets, self.noted = collections.Counter(), collections.Counter()

    def add(self, line, broken, notes):
        self.ends, self.segments, self.accused = self.ends + 1, self.segments + line["segments"], self.accused + (broken > 0)
        self.packets.update(notes)
        self.noted.update(notes.keys())

    def row(self, name):
        notes = ", ".join(f"{note}: {self.packets[note]} at {self.noted[note]}" for note in sorted(self.packets)) or "none"
        return f"| {name} | {self.ends} | {self.segments:,} | {notes} |"


def judge_correct(cases, program, captures, address_of):
    """The rows of the stacks of the captures that were taken at the end itself. `address_of` is the address of a capture's end."""
    stacks = collections.defaultdict(Seen)
    for taken in captures:
        if taken.is_whole:
            for line, broken, notes in ends_of(program, taken, address_of(taken)):
                stacks[taken.stack].add(line, broken, notes)
                cases.holds(f"{taken.stack}: {taken.path.name}, {line['end']}", broken == 0, f"{broken} findings")
    print("| Stack | Ends | Segments that they sent | Notes: packets, at so many ends |\n|---|---|---|---|")
    for name, seen in sorted(stacks.items()):
        print(seen.row(name))


def main():
    import judging

    parser = argparse.ArgumentParser(description=__doc__, formatter_class=argparse.RawDescriptionHelpFormatter)
    parser.add_argument("tcpjudge")
    parser.add_argument("--netstack")
    parser.add_argument("--peers", type=pathlib.Path)
    words, cases = parser.parse_args(), judging.Cases()
    with tempfile.TemporaryDirectory() as name:
        folder = pathlib.Path(name)
        folder.chmod(0o777)
        judge_correct(cases, words.tcpjudge, judging.captures_in(folder, words), judging.address_of)
    print(f"{cases.count} ends, {cases.failed} accused")
    return int(cases.failed > 0)


if __name__ == "__main__":
    sys.exit(main())
