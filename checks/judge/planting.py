"""Faults planted into four captures: what the judge finds of them at the end that was captured, and what tshark and tcptrace say.

    python3 checks/judge/planting.py TCPJUDGE [--kinds] [--short]
    python3 checks/judge/planting.py --everywhere

The captures are data/NAME-SIDE.pcap. Each kind of fault of checks/differential/faults.py is planted in each capture at three places where
it can be, or as many as there are, spread over it; each counts as one. `tcpjudge` judges the log by --complete, and the capture by --at.
In a capture a fault counts as found by a finding; and as noted by a note whose first packet is the one that is planted, and that the
capture without the fault hasn't, but for notes of what each correct end does. tshark finds one where it has an expert line that it hasn't
for the capture without the fault, and tcptrace where it has another line of warning. Prints the table of docs/JUDGE.md, and with --kinds a
row for each kind; what is missed is named. It wants tshark and tcptrace (Debian's); with --short it runs neither. With --everywhere each
kind is planted at each place, the second program alone judges, and there is a line for each kind that it misses somewhere.
"""

import collections
import contextlib
import functools
import json
import re
import struct
import subprocess
import sys
import tempfile

from twice import HERE, Differs, Judges, side_by_side

import capture
from correct import ORDINARY
from faults import GROUPS, planted
from judge import findings, octets
from places import places_of, read_line

PAGE = HERE.parents[1] / "docs/JUDGE.md"
NOTE, WARNING, PLACES = 4194304, 6291456, 3
COLUMNS = {"log": "Log: found", "finding": "Capture: found", "note": "Capture: found or noted", "warned": "tshark: error or warning",
           "told": "tshark: any line", "traced": "tcptrace"}
# Of 100 planted faults the judge finds at least so many in a log and in a capture, and by notes, too.
LEAST = {"log": 76, "finding": 59, "note": 95}
# So many are planted.
PLANTED = 700
WARNINGS = ["-w", "--checksum", *(f"--warn_{word}" for word in ("ooo", "printtrunc", "printbadmbz", "printbadcsum", "printbad_syn_fin_seq"))]


def base_logs():
    """The log of each capture's end, by the capture's name."""
    for path in sorted((HERE / "data").glob("*-[AB].pcap")):
        found = capture.segments(path)
        yield path.stem, [line for line in capture.judge_lines(found, None, path.stem.rsplit("-", 1)[1], False) if line]


@contextlib.contextmanager
def captured(log):
    """The file of a capture of a log, a line each 10 ms."""
    with tempfile.NamedTemporaryFile("wb", suffix=".pcap") as file:
        file.write(struct.pack("<IHHiIII", 0xA1B2C3D4, 2, 4, 0, 0, 65535, capture.RAW))
        for at, line in enumerate(log):
            _, source, target, digits = line.split(" ")
            data = capture.packet(octets(source), octets(target), bytes.fromhex(digits))
            file.write(struct.pack("<IIII", at // 100, at % 100 * 10000, len(data), len(data)) + data)
        file.flush()
        yield file.name


def told_of(program, path, address):
    """How many findings there are at the end, and its notes, each with its first packet."""
    done = subprocess.run([program, "--at", address, "--json", path], capture_output=True, text=True, check=False)
    lines = [json.loads(line) for line in done.stdout.splitlines()]
    own = [line for line in lines if line.get("end", "").startswith(f"{address}:")]
    count = sum(line["kind"] == "finding" for line in own)
    return count, {(line["name"], line["first"]) for line in own if line["kind"] == "note" and line["name"] not in ORDINARY}


def experts(path):
    """How often tshark has each expert line of a capture, by (severity, message)."""
    words = ["tshark", "-r", path, "-o", "tcp.check_checksum:TRUE", "-T", "fields", "-E", "separator=/t", "-E", "aggregator=|"]
    words += ["-e", "_ws.expert.severity", "-e", "_ws.expert.message"]
    rows = subprocess.run(words, capture_output=True, text=True, check=True).stdout.splitlines()
    counts = collections.Counter()
    for row in rows:
        severities, messages = row.split("\t") if "\t" in row else ("", "")
        if severities:
            counts.update(zip(map(int, severities.split("|")), messages.split("|")))
    return counts


def at_least(counts, severity):
    return sum(times for (found, _), times in counts.items() if found >= severity)


def warnings(path):
    """How many lines of warning tcptrace writes."""
    done = subprocess.run(["tcptrace", "-n", *WARNINGS, path], capture_output=True, text=True, errors="replace", check=False)
    return len(done.stderr.splitlines())


class Base:
    """A capture without a fault, and what is said of it."""

    def __init__(self, name, log, judges, has_others):
        self.name, self.count, self.has_others = name, len(log), has_others
        self.places = places_of([read_line(line) for line in log])
        self.address = next(line.split(" ")[1] for line in log if line.startswith("went"))
        self.is_accused = judges.accuses(log)
        with captured(log) as path:
            self.findings, self.notes = told_of(judges.program, path, self.address)
            self.experts, self.warnings = (experts(path), warnings(path)) if has_others else (collections.Counter(), 0)

    def columns(self, judges, made, new):
        """Which columns count this fault."""
        lines = [str(line) for line in made]
        row = {"planted"} | ({"log"} if judges.accuses(lines) else set())
        with captured(lines) as path:
            count, notes = told_of(judges.program, path, self.address)
            row |= {"finding", "note"} if count > self.findings else set()
            row |= {"note"} if any(first in new for _, first in notes - self.notes) else set()
            if self.has_others:
                more = experts(path) - self.experts
                row |= {"warned"} if at_least(more, WARNING) else set()
                row |= {"told"} if more else set()
                row |= {"traced"} if warnings(path) > self.warnings else set()
        return row


def kind_row(program, bases, kind):
    """How often this kind is planted and found, by each column; and where no finding or note names it."""
    row, missed, judges = collections.Counter(), [], Judges(program)
    for base in bases:
        for made, new in planted(base.places, kind, PLACES):
            found = base.columns(judges, made, new)
            row.update(found)
            missed += [] if {"log", "note"} & found else [f"{kind}, in {base.name}, line {min(new)}"]
    return row, missed, judges.count


def text_row(name, kinds, row, has_others):
    columns = list(COLUMNS) if has_others else list(LEAST)
    return f"| {name} | {kinds} | {row['planted']} | {' | '.join(str(row[column]) for column in columns)} |"


def head(has_others):
    columns = [COLUMNS[column] for column in (COLUMNS if has_others else LEAST)]
    return [f"| Rules | Kinds | Planted | {' | '.join(columns)} |", "|---" * (3 + len(columns)) + "|"]


def table(judges, shows_kinds=False, has_others=True):
    """The table's lines, the sums of its columns, and what the judge misses."""
    lines, whole, missed = head(has_others), collections.Counter(), []
    bases = [Base(name, log, judges, has_others) for name, log in base_logs()]
    for base in bases:
        accused = "accuses it" if base.is_accused or base.findings else "accuses nothing"
        warned, told = at_least(base.experts, WARNING), at_least(base.experts, NOTE)
        others = f"; tshark: {warned} errors and warnings, {told - warned} notes; tcptrace: {base.warnings} warnings" if has_others else ""
        print(f"{base.name}: {base.count} segments: the judge {accused}{others}")
    kinds = [kind for group in GROUPS.values() for kind in group]
    rows = dict(zip(kinds, side_by_side(functools.partial(kind_row, judges.program, bases), kinds)))
    for group, kinds in GROUPS.items():
        found = {kind: rows[kind] for kind in kinds}
        total = sum((row for row, _, _ in found.values()), collections.Counter())
        judges.count += sum(count for _, _, count in found.values())
        lines.append(text_row(group, len(kinds), total, has_others))
        whole, missed = whole + total, missed + [place for _, places, _ in found.values() for place in places]
        for kind, (row, _, _) in found.items() if shows_kinds else ():
            print(f"    {kind}: {text_row('', '', row, has_others)}")
    lines.append(text_row("all", sum(map(len, GROUPS.values())), whole, has_others))
    return lines, whole, missed


def plant_everywhere():
    """Prints how many faults there are with each kind at each place, how many the second program finds, and where it misses some."""
    count, missed = 0, collections.Counter()
    for name, log in base_logs():
        places = places_of([read_line(line) for line in log])
        for kind in (kind for kinds in GROUPS.values() for kind in kinds):
            for made, _ in planted(places, kind, sys.maxsize):
                count += 1
                missed[f"{kind}, in {name}"] += not findings([str(line) for line in made])[0]
    print("\n".join(f"not found {times} times: {place}" for place, times in missed.items() if times))
    print(f"planted {count} found {count - missed.total()}")


def tshark_version():
    told = subprocess.run(["tshark", "--version"], capture_output=True, text=True, check=True).stdout
    return re.search(r"[\d.]*\d", told)[0]


def judge_planted(cases, judges, shows_kinds=False, has_others=True):
    """Prints the table. Its rows have to be those of docs/JUDGE.md, with the tshark that the page names."""
    with cases.case("planted faults"):
        lines, whole, missed = table(judges, shows_kinds, has_others)
        print("\n".join([*lines, *(f"not found: {place}" for place in missed)]))
        if whole["planted"] < PLANTED or any(whole[column] * 100 < whole["planted"] * least for column, least in LEAST.items()):
            raise Differs(f"of {whole['planted']} planted faults too few are found: {dict(whole)}")
        if has_others:
            page, version = PAGE.read_text(), tshark_version()
            if f"tshark {version}" in page and "\n".join(lines) not in page:
                raise Differs(f"the table isn't that of docs/JUDGE.md, which names tshark {version}")


if __name__ == "__main__":
    if "--everywhere" in sys.argv:
        plant_everywhere()
        sys.exit()
    from judging import Cases

    every = Cases()
    judge_planted(every, Judges(sys.argv[1]), "--kinds" in sys.argv, "--short" not in sys.argv)
    sys.exit(every.failed)
