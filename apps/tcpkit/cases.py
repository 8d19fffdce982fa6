"""Runs a tcpkit on stored cases: python3 cases.py PROGRAM. These are the scripts and lists of crates/test_scripts with the reports and
listings that are stored there; the words of checks/program/statuses with their statuses; the first run; and faults of files and output.
Ends with 1 where the program writes or answers anything else.
"""

import pathlib
import re
import subprocess
import sys
import tempfile

TOP = pathlib.Path(__file__).resolve().parents[2]
CASES = TOP / "crates/test_scripts/data/cases"
STATUSES = TOP / "checks/program/statuses"


def ran(*words, **more):
    told = subprocess.run([sys.argv[1], *words], stdin=subprocess.DEVNULL, stderr=subprocess.PIPE, **{"stdout": subprocess.PIPE, **more}, check=False)
    return (told.stdout or b"").decode(), told.stderr.decode(), told.returncode


def stored():
    """Of each case: its name, what is written, the line of a fault, the status. A text ends with `ok true` or `ok false`, or with the
    number of a fault and what belongs to it."""
    for part in re.split(r"^== ", (TOP / "crates/test_scripts/stdout").read_text(), flags=re.M)[1:]:
        name, *lines = part.rstrip("\n").split("\n")
        # Some files have many scripts.
        if not name.endswith((".script", ".list")):
            continue
        last = lines.pop()
        text = "".join(line + "\n" for line in lines)
        yield (name, text, "", 0 if last == "ok true" else 1) if last.startswith("ok ") else (name, text, f"tcpkit: {last}\n", 2)


def asked():
    """Of each case of words: the words, the fault's line, the status."""
    for line in (TOP / "checks/program/statuses.txt").read_text().splitlines():
        name, status, *fault = line.split(" ", 2)
        words = (STATUSES / f"{name}.args").read_text().splitlines()
        yield name, [word.replace("{}", str(STATUSES / name)) for word in words], f"{fault[0]}\n" if fault else "", int(status)


def main():
    wrong, count = [], 0

    def expect(what, found, wanted):
        nonlocal count
        count += 1
        if found != wanted:
            wrong.append(f"{what}: found {str(found)[:300]}, wanted {str(wanted)[:300]}")

    for name, text, fault, status in stored():
        job = "decode" if name.endswith(".list") else "replay"
        expect(name, ran(job, CASES / name), (text, fault, status))
    for name, words, fault, status in asked():
        expect(name, ran(*words, cwd=tempfile.gettempdir())[1:], (fault, status))
    first = TOP / "crates/tcpkit/data/first-run.script"
    expect("the first run", ran("replay", first), ((TOP / "crates/tcpkit/stdout").read_text(), "", 0))
    expect("dashes behind the file", ran("replay", first, "--")[1:], ("", 0))
    expect("a folder", ran("replay", TOP), ("", "tcpkit: 43\n", 2))
    # Beginnings and insides of characters, forms that are too long, surrogates, and what is past the last character.
    for word in (b"\x80", b"\xc3", b"\xc0\xaf", b"\xe0\x80\xaf", b"\xed\xa0\x80", b"\xf0\x80\x80\xaf", b"\xf4\x90\x80\x80", b"\xff", b"a\xe2\x82"):
        expect(f"the word {word!r}", ran("replay", word), ("", "tcpkit: 40\n", 2))
    for word in ("\x7f", "\u00e9", "\u20ac", "\ud7ff", "\ue000", "\U00010000", "\U0010ffff", "-"):
        expect(f"the word {word!r}", ran("replay", word.encode(), cwd="/proc/self/fdinfo"), ("", "tcpkit: 43\n", 2))
    with open("/dev/full", "wb") as full:
        expect("a full device", ran("replay", first, stdout=full)[1:], ("tcpkit: 44\n", 2))
        expect("a full device before a bad line", ran("decode", CASES / "bad-line-ends-the-listing.list", stdout=full)[1:], ("tcpkit: 44\n", 2))
    for line in wrong:
        print(line)
    print(f"cases: {count} looked at, {len(wrong)} wrong")
    sys.exit(bool(wrong) or count < 100)


if __name__ == "__main__":
    main()
