"""The judge on rows from the RFCs, on captures that are made by hand, on captures of stacks that nobody here wrote, on planted faults, on
captures that are cut, on random logs, and on logs that grow.

    judging.py TCPJUDGE [--netstack PROGRAM] [--peers FOLDER] [--short]

`tcpjudge` and the second program have to say the same of each log. PROGRAM is netstack.go's; FOLDER has the programs that
checks/peers/lwip.sh builds. --short has fewer random logs. Prints what each stack is accused of, and as its last line
`N cases, M failed`. test.sh says what it wants.
"""

import argparse
import collections
import contextlib
import functools
import io
import itertools
import os
import pathlib
import random
import subprocess
import tempfile

from twice import Differs, Judges, rules, side_by_side

import capture
import captures as captures_by_hand
import correct
import growth
import planting
import rfc_rows
import stacks
from conversation import end_log, world_logs

# What stands in the way of a clean log, by stack: the rules that it breaks in each run.
ACCUSED = {}
# Which cases of checks/peers are captured, and no capture with more segments is cut.
PEER_CASES, MOST_CUT = range(7, 1400, 97), 120


class Cases:
    """How many cases there were, and how many of them failed."""

    def __init__(self):
        self.count = self.failed = 0

    def holds(self, name, is_well, words=""):
        self.count += 1
        if not is_well:
            self.failed += 1
            print(f"FAILED: {name}: {words}")

    @contextlib.contextmanager
    def case(self, name):
        """Whatever is raised in it fails it."""
        try:
            yield
        except (Differs, OSError, subprocess.SubprocessError) as fault:
            self.holds(name, False, fault)
        else:
            self.holds(name, True)


def logs_of(taken):
    """The log of each connection of a capture, by its number."""
    found = capture.segments(taken.path)
    for stream in sorted({stream for stream, segment in capture.streams(found) if segment.lack is None}):
        with contextlib.redirect_stderr(io.StringIO()):
            lines = capture.judge_lines(found, stream, taken.side, False)
        yield stream, lines


def peer_captures(folder, programs):
    """Both sides of some cases of checks/peers: lwIP in its four builds and our own end."""
    for program in sorted(programs.glob("lwip.*[A-Z]")) + [programs / "second"]:
        for number in PEER_CASES:
            prefix = folder / f"{program.name}-{number}"
            subprocess.run([program, "--only", str(number)], env=os.environ | {"CAPTURE": str(prefix)}, stdout=subprocess.DEVNULL, check=False)
            if prefix.with_name(f"{prefix.name}.own").exists():
                opener = first_source(prefix.with_name(f"{prefix.name}.own"))
                for end, address in ("own", 1), ("peer", 2):
                    name = "our end" if end == "own" or program.name == "second" else "lwIP"
                    yield stacks.Taken(name, prefix.with_name(f"{prefix.name}.{end}"), "A" if opener == address else "B")


def address_of(taken):
    """The address of the end at which a capture was taken."""
    _, lines = next(iter(logs_of(taken)), (None, []))
    return next((line.split(" ")[1] for line in lines if line.startswith("went")), "0.0.0.0")


def captures_in(folder, words):
    """All captures of stacks."""
    captures = [taken for make in stacks.captures(words.netstack) for taken in make(folder)]
    return captures + (list(peer_captures(folder, words.peers)) if words.peers else [])


def first_source(path):
    return capture.segments(path)[0].source[3]


def all_logs_of(taken):
    return list(logs_of(taken))


def judge_log(program, log):
    """What is said of a log, and the rules that it breaks; or where the judges differ."""
    try:
        found, status = Judges(program).report(*log)
    except (Differs, OSError, subprocess.SubprocessError) as fault:
        return str(fault), None
    return found, rules(*log) if status == 1 else set()


def judge_captures(cases, judges, captures):
    """Each log of each capture by both judges. Answers the short logs that nobody accused, captured at the end itself."""
    seen, clean = collections.defaultdict(collections.Counter), []
    logs = [(taken, *log) for taken, found in zip(captures, side_by_side(all_logs_of, captures)) for log in found]
    judged = side_by_side(functools.partial(judge_log, judges.program), [(lines, taken.is_whole) for taken, _, lines in logs])
    judges.count += len(logs)
    for (taken, stream, lines), (found, broken) in zip(logs, judged):
        with cases.case(f"{taken.stack}: {taken.path.name}, connection {stream}, {taken.side}"):
            if broken is None:
                raise Differs(found)
            seen[taken.stack].update(["connections", *broken])
            seen[taken.stack]["segments"] += sum(line != "" for line in lines)
            if broken - ACCUSED.get(taken.stack, set()):
                raise Differs(found)
            lines = [line for line in lines if line]
            if taken.is_whole and not broken and len(lines) <= MOST_CUT:
                clean.append((taken, lines))
    for stack, counts in seen.items():
        accused = ", ".join(f"{rule} in {count}" for rule, count in counts.items() if rule not in ("connections", "segments"))
        print(f"{stack}: {counts['connections']} connections, {counts['segments']} segments: {accused or 'nothing is accused'}")
        cases.holds(stack, ACCUSED.get(stack, set()) <= set(counts), f"{ACCUSED.get(stack)} isn't found any more")
    return clean


def first_accused(program, logs, is_complete):
    """How many of these logs were judged up to the first that is accused, or that the judges differ on, and what is said of that one."""
    judges = Judges(program)
    try:
        for log in logs:
            found, status = judges.report(log, is_complete)
            if status == 1:
                return judges.count, f"log {judges.count} of these: {found}"
    except (Differs, OSError, subprocess.SubprocessError) as fault:
        return judges.count, f"log {judges.count} of these: {fault}"
    return judges.count, None


def judge_side_by_side(cases, judges, call, items):
    """Judges by `call`, an item a case, which is its name and what it is made of; answers how many logs there were."""
    found = side_by_side(functools.partial(call, judges.program), [made for _, made in items])
    for (name, _), (_, fault) in zip(items, found):
        cases.holds(name, fault is None, fault)
    count = sum(count for count, _ in found)
    judges.count += count
    return count


def judge_cut(program, lines):
    cuts = ((lines[at + 1 :], lines[:at], lines[:at] + lines[at + 1 :]) for at in range(len(lines)))
    return first_accused(program, itertools.chain.from_iterable(cuts), is_complete=False)


def judge_cuts(cases, judges, clean):
    """A clean log that begins later, ends earlier or lacks one segment isn't accused where it isn't said to be complete."""
    count = judge_side_by_side(cases, judges, judge_cut, [(f"{taken.stack}: {taken.path.name}, cut", lines) for taken, lines in clean])
    print(f"{len(clean)} clean logs, cut in {count} ways")


def judge_one_at_random(program, number):
    rng = random.Random(number)
    log = end_log(rng) if number % 2 else world_logs(rng)[number // 2 % 2]
    return first_accused(program, [log], is_complete=True)


def judge_random(cases, judges, count):
    """Logs of the second program's ends under random calls, on random segments and under random scripts."""
    judge_side_by_side(cases, judges, judge_one_at_random, [(f"random log {number}", number) for number in range(count)])


def read_words():
    parser = argparse.ArgumentParser(description=__doc__, formatter_class=argparse.RawDescriptionHelpFormatter)
    parser.add_argument("tcpjudge")
    parser.add_argument("--netstack")
    parser.add_argument("--peers", type=pathlib.Path)
    parser.add_argument("--short", action="store_true")
    return parser.parse_args()


def main():
    words, cases = read_words(), Cases()
    judges = Judges(words.tcpjudge)
    rfc_rows.judge_rows(cases, judges)
    captures_by_hand.judge_captures(cases, words.tcpjudge)
    with tempfile.TemporaryDirectory() as name:
        folder = pathlib.Path(name)
        folder.chmod(0o777)
        captures = captures_in(folder, words)
        clean = judge_captures(cases, judges, captures)
        correct.judge_correct(cases, words.tcpjudge, captures, address_of)
        judge_cuts(cases, judges, clean)
    planting.judge_planted(cases, judges, has_others=not words.short)
    judge_random(cases, judges, 500 if words.short else 10000)
    growth.judge_growth(cases, words.tcpjudge)
    print(f"{judges.count} logs judged twice\n{cases.count} cases, {cases.failed} failed")
    return int(cases.failed > 0 or cases.count == 0)


if __name__ == "__main__":
    raise SystemExit(main())
