"""Counts what the programs take, in instructions by callgrind, and compares it with bench/figures.txt: checks/bench.sh builds them.

    figures.py FOLDER [--kit LINE] [--compiler LINE] [--library LINE] [--only NAME..] [--write [--because REASON]]

FOLDER has the programs: bench_jobs, tcpkit and tcpjudge, proved; handed, over the C library; handed, tcpkit and tcpjudge of release/*.c,
with release_ before their names, and with portable_ where the code of no machine was taken. The three LINEs say what they were built by,
and figures stand under such a line; where one isn't given its programs are left out.
A figure is what `main` takes, with all that it calls: what loads a program doesn't count. More than 1 in 100 above it fails, and so does
more than 3 in 100 below it, until the figure is lowered. What is written to the standard output has to be the same on all machines.
Where no figures stand under a line, that alone is compared.

--write puts down what was counted: figures that are new or fell; and with --because those that rose too far, with the reason above
them, and outputs that are other ones.
"""

import argparse
import collections
import concurrent.futures
import dataclasses
import hashlib
import os
import pathlib
import re
import subprocess
import sys
import tempfile

import inputs

BENCH = pathlib.Path(__file__).resolve().parent
FIGURES, FUNCTIONS = BENCH / "figures.txt", BENCH / "functions.txt"
MORE, LESS = 1.01, 0.97
# Where a program lies changes a figure by some 5 in a million; a fall is written from 1 in 1,000 on.
SAME = 0.999
# Functions that take less than this part of a figure aren't stored, and so many are named where a figure has changed.
STORED, NAMED = 0.01, 5
# Each workload of workloads.txt at a count at which it has all its kinds, in seconds.
COUNTS = {"replay": 8, "judge": 6, "list": 1, "bulk": 2, "many": 500, "timed": 10}
# The same copies on all processors, of which none is made by one instruction that is counted for each byte.
ENVIRONMENT = {
    "PATH": "/usr/bin:/bin",
    "LD_BIND_NOW": "1",
    "GLIBC_TUNABLES": "glibc.cpu.hwcaps=-AVX2,-AVX,-ERMS,-AVX_Fast_Unaligned_Load"
    ":glibc.cpu.x86_rep_movsb_threshold=1000000000:glibc.cpu.x86_rep_stosb_threshold=1000000000",
}


@dataclasses.dataclass
class Row:
    """What is counted: runs of programs, less other runs, under the line of what built them."""

    name: str
    line: str
    runs: list
    less: list = dataclasses.field(default_factory=list)

    def output(self):
        """What it writes is the same whatever built it."""
        return self.name.split(": ")[-1]


def rows(kit, compiler, library):
    """All rows whose programs are there."""
    if kit:
        for line in (BENCH / "workloads.txt").read_text().splitlines():
            name, crate, *words = line.split()
            small = [str(COUNTS[name]) if word.isdigit() else word.replace("SEED", "1") for word in words]
            yield Row(name, kit, [[crate, *small]])
        yield from on_inputs("", kit)
        yield Row("small logs", kit, [["tcpjudge", "--complete", f"small{number}"] for number in range(inputs.SMALL_LOGS)])
    if library:
        yield from of_ends("C library: ", library)
    for prefix, before in (("release/*.c: ", "release_"), ("portable C: ", "portable_")) if compiler else ():
        yield from of_ends(prefix, compiler, before)
        yield from on_inputs(prefix, compiler, before)


def on_inputs(prefix, line, before=""):
    for name, job in {"comments": "decode", "short": "decode", "listing": "decode", "script": "replay"}.items():
        yield Row(f"{prefix}{name}", line, [[f"{before}tcpkit", job, name]])
    yield Row(f"{prefix}faults", line, [[f"{before}tcpjudge", "--complete", "faults"]])


def of_ends(prefix, line, before=""):
    """By bench/handed.c; an acknowledgement is what one for each segment takes more than one for two."""
    program = f"{before}handed"
    for mode in "in_order", "one_byte", "connection":
        yield Row(f"{prefix}{mode}", line, [[program, mode, "400"]])
    yield Row(f"{prefix}acknowledgement", line, [[program, "each_acknowledged", "400"]], [[program, "in_order", "400"]])


def plain(function):
    """A function's name, of whatever types it is and however the compiler split it."""
    return re.sub(r"::<.*|@.*|'\d+$|\.(part|constprop|isra|cold|llvm)\b.*", "", function)


def count(folder, words):
    """What a run writes, with its status, and the instructions of each function."""
    with tempfile.NamedTemporaryFile(dir=folder) as profile:
        counting = ["valgrind", "--tool=callgrind", "--toggle-collect=main", f"--callgrind-out-file={profile.name}"]
        done = subprocess.run([*counting, f"./{words[0]}", *words[1:]], cwd=folder, env=ENVIRONMENT, capture_output=True, check=False)
        if done.returncode not in (0, 1):
            raise SystemExit(f"bench: {' '.join(words)}: status {done.returncode}, {done.stderr[-500:]}")
        telling = ["callgrind_annotate", "--auto=no", "--threshold=100", profile.name]
        told = subprocess.run(telling, capture_output=True, text=True, check=True).stdout
    functions = collections.Counter()
    for number, function in re.findall(r"^ *([\d,]+) \( *[\d.]+%\)  \S*?:(\S+)", told, re.MULTILINE):
        functions[plain(function)] += int(number.replace(",", ""))
    return f"status {done.returncode}\n".encode() + done.stdout, functions


def measure(folder, row):
    """The digest of what a row's runs write, and what its functions take."""
    written, functions = hashlib.sha256(), collections.Counter()
    for words in row.runs:
        output, taken = count(folder, words)
        written.update(output)
        functions.update(taken)
    for words in row.less:
        functions.subtract(count(folder, words)[1])
    return written.hexdigest()[:16], functions


def number_of(word):
    return int(word.replace(",", ""))


class Figures:
    """What is stored. figures.txt has the outputs' digests and, under each line, figures with comments above them; functions.txt has,
    under the same lines and names, the functions that take most of each."""

    def __init__(self):
        self.front, self.outputs, self.sections, self.functions = [], {}, {}, {}
        self.read_figures()
        self.read_functions()

    def read_figures(self):
        rows, comments = None, []
        for line in FIGURES.read_text().splitlines():
            if line.startswith("== "):
                rows = self.outputs if line == "== outputs" else self.sections.setdefault(line[3:], {})
            elif rows is None:
                self.front.append(line)
            elif line.startswith("#"):
                comments.append(line)
            elif line:
                name, word = (part.strip() for part in line.rsplit(maxsplit=1))
                rows[name] = word if rows is self.outputs else (number_of(word), comments)
                comments = []

    def read_functions(self):
        for line in FUNCTIONS.read_text().splitlines() if FUNCTIONS.exists() else []:
            if line.startswith("== "):
                section = self.functions.setdefault(line[3:], {})
            elif line.startswith(" "):
                number, function = line.split(maxsplit=1)
                functions[function] = number_of(number)
            elif line and not line.startswith("#"):
                functions = section.setdefault(line, {})

    def write(self):
        figures = [*self.front, "== outputs", *(f"{name:36} {digest}" for name, digest in sorted(self.outputs.items()))]
        functions = ["# The functions that take at least 1 in 100 of a figure of figures.txt. checks/bench.sh --write writes this."]
        for line, rows in sorted(self.sections.items()):
            figures += ["", f"== {line}"]
            functions += ["", f"== {line}"]
            for name, (total, comments) in rows.items():
                figures += [*comments, f"{name:36} {total:16,}"]
                functions += [name, *(f"{number:13,}  {function}" for function, number in self.functions[line][name].items())]
        FIGURES.write_text("".join(f"{line}\n" for line in figures))
        FUNCTIONS.write_text("".join(f"{line}\n" for line in functions))

    def put(self, row, digest, functions, because):
        """Stores what is new or fell; and what rose too far, or has another output, where there is a reason for it."""
        rows, total = self.sections.setdefault(row.line, {}), functions.total()
        old, comments = rows.get(row.name, (None, []))
        if because:
            self.outputs[row.output()] = digest
        is_wanted = old is None or total < SAME * old or (because and total > MORE * old)
        if self.outputs.setdefault(row.output(), digest) != digest or not is_wanted:
            return
        # A reason stays as long as the figure is above what it was before.
        comments = [comment for comment in comments if number_of(comment.split()[1]) < total]
        if old is not None and total > old:
            comments.append(f"# {old:,} before: {because}")
        rows[row.name] = (total, comments)
        most = {function: number for function, number in functions.most_common() if number >= STORED * total}
        self.functions.setdefault(row.line, {})[row.name] = most


def changes(stored, old, functions, sign):
    """The functions that took most more (sign 1) or less (-1). Of one that isn't stored only the most that it took is known."""
    least = int(STORED * stored)
    listed = {name: number for name, number in functions.items() if name in old or number >= least}
    listed |= {name: 0 for name in old if name not in functions}
    others = functions.total() - sum(listed.values())
    changed = [(number, old.get(name, least), name, "" if name in old else "at most ") for name, number in listed.items()]
    changed.append((others, stored - sum(old.values()), "all others", ""))
    for number, before, name, most in sorted(changed, key=lambda item: sign * (item[1] - item[0]))[:NAMED]:
        if sign * (number - before) > 0:
            yield f"    {name}: {number:,}, {most}{before:,} before"


def judged(figures, row, digest, functions):
    """What is to be said of a row, and whether it fails."""
    total, output = functions.total(), figures.outputs.get(row.output())
    if output != digest:
        return [f"{row.name}: FAILED: its output isn't the one that is stored: {digest}, and {output} there"], True
    if row.name not in figures.sections.get(row.line, {}):
        return [f"{row.name:36} {total:16,}  the output alone is compared"], False
    stored, _ = figures.sections[row.line][row.name]
    ratio = total / stored
    if LESS <= ratio <= MORE:
        return [f"{row.name:36} {total:16,}  {100 * (ratio - 1):+.2f} in 100"], False
    word, done = ("more", "grew") if ratio > 1 else ("less", "shrank")
    told = [f"{row.name}: FAILED: {total:,} instructions, {abs(100 * (ratio - 1)):.1f} in 100 {word} than {stored:,}. What {done} most:"]
    return told + list(changes(stored, figures.functions[row.line][row.name], functions, 1 if ratio > 1 else -1)), True


def read_words():
    parser = argparse.ArgumentParser(description=__doc__, formatter_class=argparse.RawDescriptionHelpFormatter)
    parser.add_argument("folder", type=pathlib.Path)
    for word in "--kit", "--compiler", "--library", "--because":
        parser.add_argument(word)
    parser.add_argument("--only", nargs="+", metavar="NAME")
    parser.add_argument("--write", action="store_true")
    return parser.parse_args()


def main():
    words, figures, failed = read_words(), Figures(), 0
    inputs.write(words.folder)
    wanted = [row for row in rows(words.kit, words.compiler, words.library) if not words.only or row.name in words.only]
    for line in sorted({row.line for row in wanted} - set(figures.sections)):
        print(f"bench: no figures for {line}: outputs alone are compared")
    with concurrent.futures.ThreadPoolExecutor(os.cpu_count()) as pool:
        for row, (digest, functions) in zip(wanted, pool.map(lambda row: measure(words.folder, row), wanted)):
            if words.write:
                figures.put(row, digest, functions, words.because)
            told, fails = judged(figures, row, digest, functions)
            failed += fails
            print("\n".join(told), flush=True)
    if words.write:
        figures.write()
    print(f"bench: {len(wanted)} figures, {failed} failed")
    return int(failed > 0 or not wanted)


if __name__ == "__main__":
    sys.exit(main())
