"""Runs a tcpjudge on stored cases and random logs: python3 judge_cases.py [--numbers FIRST COUNT] PROGRAM [PROVED]. The words and files of
checks/program/judge_statuses and capture_statuses have their statuses, the log of crates/tcpjudge its report, and the captures of
checks/judge/captures.py theirs, as a file and as the standard input; and on random logs, whole and with a digit of what went changed, the
program says what the second program of checks/differential does. With PROVED, the program that crates/tcpjudge is built to, both write and
answer the same to the letter on all these captures, those of checks/judge/data, spoiled ones and random words. COUNT captures are spoiled, COUNT commands
and a quarter as many logs are random, by the numbers from FIRST on: 600 from 0 on where none are given. Ends with 1 where the program
writes or answers anything else.
"""

import pathlib
import random
import subprocess
import sys
import tempfile

TOP = pathlib.Path(__file__).resolve().parents[2]
sys.path.insert(0, str(TOP / "checks/judge"))

from captures import CASES  # noqa: E402
from twice import Differs, Judges  # noqa: E402, which finds the second programs

from conversation import end_log  # noqa: E402

STATUSES = TOP / "checks/program"
DATA = TOP / "checks/judge/data"
PLACES, NUMBERS = sys.argv[1:], range(600)
if PLACES[:1] == ["--numbers"]:
    FIRST, COUNT, PLACES = int(PLACES[1]), int(PLACES[2]), PLACES[3:]
    NUMBERS = range(FIRST, FIRST + COUNT)
PROGRAM, *PROVED = (str(pathlib.Path(word).resolve()) for word in PLACES)
# Words that a random command has, of both forms, right and wrong.
WORDS = ["--at", "--at=10.0.0.2", "--at=", "10.0.0.2", "::1", "10.0.0", "", "-", "-x", "--", "--json", "--json=yes", "--complete", "--complete=", "--color",
         "--color=never", "--color=always", "always", "never", "auto", "--colour", "--help", "-h", "-hx", "--help=1", "--js", "{}", "{}", "{}", "no such file"]


def ran(*words, program=PROGRAM, **more):
    told = subprocess.run(
        [program, *words], stderr=subprocess.PIPE, check=False,
        **{"stdout": subprocess.PIPE, **({} if "input" in more else {"stdin": subprocess.DEVNULL}), **more})
    return (told.stdout or b"").decode(), told.stderr.decode(), told.returncode


def asked():
    """Of each case of words: the words, the fault's line, the status."""
    for cases in ("judge_statuses", "capture_statuses"):
        for line in (STATUSES / f"{cases}.txt").read_text().splitlines():
            name, status, *fault = line.split(" ", 2)
            words = (STATUSES / cases / f"{name}.args").read_text().splitlines()
            yield name, [word.replace("{}", str(STATUSES / cases / name)) for word in words], f"{fault[0]}\n" if fault else "", int(status)


def spoiled(rng):
    """A capture of which bytes are others, or the end is missing."""
    made = bytearray(rng.choice([capture for capture, _, _, _ in CASES.values() if len(capture) < 100000]))
    if rng.random() < 0.3:
        del made[rng.randrange(len(made) + 1):]
    for _ in range(rng.choice((0, 1, 1, 2, 5, 20)) if made else 0):
        made[rng.randrange(len(made))] = rng.choice((0, 1, 255, rng.randrange(256)))
    return bytes(made)


def judge_captures(expect):
    """The captures whose reports are worked out by hand, and how they are read from the standard input."""
    with tempfile.NamedTemporaryFile() as file:
        for name, (capture, words, report, status) in CASES.items():
            file.seek(0)
            file.truncate()
            file.write(capture)
            file.flush()
            found = ran(*words, file.name)
            expect(name, (found[0], found[2]), (report, status))
            expect(f"{name}, as the standard input", ran(*words, "-", input=capture), found)


def compare(expect):
    """Both programs on the captures, on stored and spoiled ones, and on random words."""
    with tempfile.NamedTemporaryFile() as file:
        def both(what, capture, *words):
            file.seek(0)
            file.truncate()
            file.write(capture)
            file.flush()
            words = [word.replace("{}", file.name) for word in words]
            expect(what, ran(*words), ran(*words, program=PROVED[0]))

        for name, (capture, words, _, _) in CASES.items():
            both(name, capture, *words, "{}")
            both(f"{name}, as JSON", capture, "--json", "{}")
        for path in sorted(DATA.glob("*.pcap")):
            for words in ([], ["--json"], ["--color=always"], ["--at", "10.7.0.1"], ["--at", "10.7.0.2", "--json"]):
                both(path.name, path.read_bytes(), *words, "{}")
        for number in NUMBERS:
            rng = random.Random(number)
            both(f"spoiled {number}", spoiled(rng), *rng.choice(([], ["--json"], ["--at", "10.0.0.2"])), "{}")
            words = [rng.choice(WORDS) for _ in range(rng.choice((1, 2, 2, 3, 3, 4)))]
            if "-" not in words:
                both(f"words {words}", CASES["colors"][0], *words)


def broken(rng, lines):
    """The log with one hexadecimal digit of a segment that went changed."""
    went = [number for number, line in enumerate(lines) if line.startswith("went ")]
    if not went:
        return lines
    number = rng.choice(went)
    *words, text = lines[number].split(" ")
    at = rng.randrange(len(text))
    return [*lines[:number], " ".join([*words, text[:at] + rng.choice("0123456789abcdef") + text[at + 1 :]]), *lines[number + 1 :]]


def main():
    wrong, count, judges = [], 0, Judges(PROGRAM)

    def expect(what, found, wanted):
        nonlocal count
        count += 1
        if found != wanted:
            wrong.append(f"{what}: found {str(found)[:300]}, wanted {str(wanted)[:300]}")

    for name, words, fault, status in asked():
        expect(name, ran(*words, cwd=tempfile.gettempdir())[1:], (fault, status))
    crate = TOP / "crates/tcpjudge"
    words = (crate / "args").read_text().split()
    expect("the stored log", ran(*words, cwd=crate / "data"), ((crate / "stdout").read_text(), "", int((crate / "status").read_text())))
    expect("a folder", ran(str(TOP)), ("", "tcpjudge: 43\n", 2))
    with open("/dev/full", "wb") as full:
        expect("a full device", ran(str(crate / "data/faults.log"), stdout=full)[1:], ("tcpjudge: 44\n", 2))
    judge_captures(expect)
    if PROVED:
        compare(expect)
    for number in NUMBERS[::4]:
        rng = random.Random(number)
        log = end_log(rng)
        for lines in (log, broken(rng, log)):
            count += 1
            try:
                judges.report(lines, bool(number % 3))
            except Differs as fault:
                wrong.append(f"random log {number}: {fault}")
    for line in wrong:
        print(line)
    print(f"judge_cases: {count} looked at, {len(wrong)} wrong")
    sys.exit(bool(wrong) or count < 150 + len(NUMBERS) // 2)


if __name__ == "__main__":
    main()
