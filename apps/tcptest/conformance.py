#!/usr/bin/env python3
"""Writes docs/CONFORMANCE.md of a run on each stack, and compares our own column with what is left out.

    conformance.py [--stacks linux,ours,lwip,gvisor,slirp] [--write]
    conformance.py --check                      ours alone, compared with the page and with the list, in a few seconds

Each requirement of requirements.txt has to be met by a row on our end, or named by number under "What is left out" in docs/EMBEDDING.md,
or shown by the text of a file that requirements.txt cites, or be one that may be left out. A requirement that is none of these fails, and
so does one that a row finds not met and that isn't named. The status is 1 then."""

import argparse
import pathlib
import re
import sys

import telling
from building import TOP, Lacks
from rows import MUST, ROWS
from tcptest import NAMES, run_row, stack_of

HERE = pathlib.Path(__file__).resolve().parent
PAGE, LIST = TOP / "docs/CONFORMANCE.md", TOP / "docs/EMBEDDING.md"
NUMBER = re.compile(r"\b(MUST|SHLD|MAY|REC)-(\d+)(?:\s+to\s+(\d+))?\b(?!\s+in\s+part)")
RULE = re.compile(r"RFC (7323|2018), ([\d.]+), rule (\d+)\b(?!\s+in\s+part)")
SIGNS = {telling.MET: "met", telling.NOT_MET: "**not met**", telling.SHOULD_NOT: "SHOULD: no", telling.MAY_NOT: "MAY: no", telling.NOT_SEEN: "-"}
ALLOWED, CALLERS, ADMITTED = {"permitted", "application"}, "caller's, ", "not met, "
HEADS = {"linux": "Linux", "ours": "Boqtilen", "lwip": "lwIP", "gvisor": "gVisor", "slirp": "libslirp"}


def requirements():
    """(number, words, what shows it) of each line."""
    for line in (HERE / "requirements.txt").read_text().splitlines():
        if line and not line.startswith("#"):
            number, words, *shown = [part.strip() for part in line.split(" | ")]
            yield number, words, shown[0] if shown else ""


def named():
    """The numbers that stand under "What is left out", but those that are left out in part alone."""
    text = LIST.read_text()
    part = text[text.index("\n## What is left out") :]
    part = part[: part.index("\n## ", 5)]
    found = {f"RFC {rfc}, {section} ({rule})" for rfc, section, rule in RULE.findall(part)}
    for kind, first, last in NUMBER.findall(part):
        found |= {f"{kind}-{number}" for number in range(int(first), int(last or first) + 1)}
    return found


def is_of(row, number):
    """Whether a row is about all of a requirement: by number, or by its section of RFC 7323 or 2018."""
    return number in row.numbers or (number.startswith("RFC ") and number in re.split("; ", row.section))


def units(file):
    """What a file says, in wholes: the lines of a program, the sentences of its comments, and those of a page, or what stands between
    their colons and semicolons."""
    text = file.read_text()
    if file.suffix in (".c", ".h"):
        blocks = [re.sub(r"\n\s*\* ?", " ", comment) for comment in re.findall(r"/\*(.*?)\*/", text, re.DOTALL)]
        lines = re.sub(r"/\*.*?\*/", "", text, flags=re.DOTALL).split("\n")
    else:
        blocks, lines = re.split(r"\n\s*\n|\n(?=\s*(?:[-|#]|\d+\.)\s)", text), []
    parts = [part for block in blocks for part in re.split(r"(?<=[.;:])\s+", block)]
    return {line.strip() for line in lines} | {" ".join(part.split()).strip("*.;: ") for part in parts}


def is_cited(shown):
    """Whether a file says just this. A test's function is also called there."""
    path, _, text = shown.partition(": ")
    file = TOP / path
    if not text or not file.is_file():
        return False
    said, function = units(file), re.fullmatch(r"static void (\w+)\(void\)", text)
    return text in said and (function is None or f"{function[1]}();" in said)


def state(number, shown, findings, left_out):
    """What is true of a requirement of ours, and whether that is enough."""
    mine = [findings[row.name] for row in ROWS if is_of(row, number)]
    wanting = [found.row for found in mine if found.verdict not in (telling.MET, telling.NOT_SEEN)]
    if shown.startswith(ADMITTED):
        return admitted(shown.removeprefix(ADMITTED), mine, wanting, [row for row in ROWS if number in row.parts])
    cited = shown.removeprefix(CALLERS)
    path = cited.partition(": ")[0]
    if not wanting and any(found.verdict == telling.MET for found in mine) and shown == cited:
        return "met", True
    if number in left_out:
        return "left out, by name", True
    if shown in ALLOWED:
        return "may be left out" if shown == "permitted" else "for applications", True
    if wanting:
        return f"not met by {', '.join(wanting)}, and not named", False
    if is_cited(cited):
        return f"the caller's, as {path} says" if shown != cited else f"shown by {path}", True
    return "neither met, nor shown, nor named" + (f" ({shown})" if shown else ""), False


def is_overnamed(number, shown, findings, left_out):
    """Whether a requirement is named as left out, and a row or a file shows that it is met."""
    return number in left_out and shown not in ALLOWED and not shown.startswith(ADMITTED) and state(number, shown, findings, set())[1]


def admitted(cited, mine, wanting, partly):
    """Of a requirement that isn't met, or in part alone, as a file says. What rows find met, all of it, may not be told to be unmet."""
    path = cited.partition(": ")[0]
    if not is_cited(cited):
        return f"admitted, and {path} doesn't say so ({cited})", False
    if not wanting and any(found.verdict == telling.MET for found in mine):
        return "met, and admitted as not met", False
    return f"**not met**{' in part' if partly or len(wanting) < len(mine) else ''}, as {path} has it", True


def run_all(name):
    stack = stack_of(name)
    return stack.title, {row.name: run_row(stack, row) for row in ROWS}


def compared(findings):
    """Prints what is wrong with our own column, and answers how much that is."""
    left_out, wrong, count = named(), 0, 0
    known = {number for number, _, _ in requirements()}
    # The comparison can fail: where nothing were named, what isn't met would be found.
    unnamed = [number for number, _, shown in requirements() if not state(number, shown, findings, set())[1]]
    if not {"MUST-10", "MUST-30", "MUST-51", "SHLD-26"} <= set(unnamed):
        print(f"conformance: with nothing named {unnamed} would be missed alone")
        wrong += 1
    overnamed = [number for number, _, shown in requirements() if is_overnamed(number, shown, findings, known)]
    if not {"MUST-11", "MUST-21"} <= set(overnamed):
        print(f"conformance: with all named {overnamed} would be found to be met alone")
        wrong += 1
    for number, _, shown in requirements():
        words, is_enough = state(number, shown, findings, left_out)
        if is_overnamed(number, shown, findings, left_out):
            words, is_enough = "named as left out, and it is met", False
        count += 1
        wrong += not is_enough
        if not is_enough:
            print(f"conformance: {number}: {words}")
    admissions = {number for number, _, shown in requirements() if shown.startswith(ADMITTED)}
    for row in ROWS:
        found = findings[row.name]
        lost = [number for number in row.numbers + row.parts if number not in known]
        # A row without a number is a rule of another RFC or of a section: what isn't met there has to be met, or admitted.
        bare = not row.numbers and not any(is_of(row, number) for number in admissions)
        bare = bare and row.level == MUST and found.verdict not in (telling.MET, telling.NOT_SEEN)
        if lost or bare or found.verdict == telling.BROKEN or found.judge:
            wrong += 1
            print(f"conformance: {row.name}: {found.verdict}: {found.evidence} {lost or ''} {found.judge or ''}")
    print(f"conformance: {count} requirements, {len(ROWS)} rows, {wrong} wrong")
    return wrong


def row_of(words):
    return f"| {' | '.join(str(word) for word in words)} |"


def heading(*words):
    return [row_of(words), "|---" * len(words) + "|"]


def page(titles, columns):
    """The page's lines."""
    heads, out = [HEADS[name] for name in columns], (HERE / "conformance.md").read_text().rstrip("\n").split("\n")
    out += ["", "## The counts", "", *heading("", *(titles[name] for name in columns))]
    for verdict in telling.ORDER[:-1]:
        out.append(row_of([verdict, *(sum(found.verdict == verdict for found in columns[name].values()) for name in columns)]))
    out.append(row_of(["connections judged", *(sum(found.judged for found in columns[name].values()) for name in columns)]))
    out.append(row_of(["of these accused", *(sum(len(found.judge) for found in columns[name].values()) for name in columns)]))
    out += ["", "## The rows", "", *heading("Row", "Requirement", "Section", "Asked", *heads)]
    for row in sorted(ROWS, key=order):
        signs = [sign(name, row, columns[name][row.name]) for name in columns]
        out.append(row_of([row.name, row.requirements() or "-", row.section, row.asks, *signs]))
    out += ["", "## What was seen where a row isn't met", "", *heading("Stack", "Row", "Seen")]
    for name in columns:
        for row in sorted(ROWS, key=order):
            found = columns[name][row.name]
            if found.verdict not in (telling.MET, telling.NOT_SEEN):
                out.append(row_of([HEADS[name], row.name, "; ".join([found.evidence, *("the judge: " + said for said in found.judge)]).replace("|", "/")]))
    out += ["", "## All requirements, of ours", "", *heading("Requirement", "Asked", "Boqtilen")]
    left_out = named()
    for number, words, shown in requirements():
        out.append(row_of([number, words, state(number, shown, columns["ours"], left_out)[0]]))
    return "\n".join(out) + "\n"


def sign(name, row, found):
    """A verdict as the page has it. Where it is our caller that has to meet a row, the program around our end met it."""
    callers = {number for number, _, shown in requirements() if shown.startswith(CALLERS)}
    is_callers = name == "ours" and found.verdict == telling.MET and row.numbers and callers.issuperset(row.numbers)
    return "met (caller)" if is_callers else SIGNS.get(found.verdict, found.verdict)


def order(row):
    """By section: those of RFC 9293 first."""
    number = re.findall(r"[\d.]+", row.section)
    return (row.section.startswith("RFC"), [int(part) for part in ".".join(number).split(".") if part], row.name)


def checked():
    """Ours alone: compared, and with its column of the page, its counts there, and what the page says was seen where a row isn't met."""
    title, findings = run_all("ours")
    wrong = compared(findings)
    rows = [[cell.strip() for cell in line.split("|")[1:-1]] for line in (PAGE.read_text() if PAGE.exists() else "").split("\n")]
    heads = next((cells for cells in rows if cells[:1] == ["Row"] and HEADS["ours"] in cells), [])
    for row in ROWS:
        wanted = [row.name, row.requirements() or "-", row.section, row.asks]
        cell = next((cells[heads.index(HEADS["ours"])] for cells in rows if heads and cells[:4] == wanted), "nothing")
        if cell != sign("ours", row, findings[row.name]):
            wrong += 1
            print(f"conformance: {row.name}: the page has {cell}, and the run {findings[row.name].verdict}")
    counts = next((cells for cells in rows if cells[:1] == [""] and title in cells), [])
    for verdict in telling.ORDER[:-1]:
        count = sum(found.verdict == verdict for found in findings.values())
        cell = next((cells[counts.index(title)] for cells in rows if counts and cells[:1] == [verdict] and len(cells) == len(counts)), "nothing")
        if cell != str(count):
            wrong += 1
            print(f"conformance: {verdict}: the page counts {cell}, and the run {count}")
    told = {cells[1] for cells in rows if len(cells) == 3 and cells[0] == HEADS["ours"]}
    for name in sorted(told ^ {name for name, found in findings.items() if found.verdict not in (telling.MET, telling.NOT_SEEN)}):
        wrong += 1
        print(f"conformance: {name}: {'it is met or not seen, and the page has' if name in told else 'the page has not'} what was seen instead")
    left_out = named()
    for number, asked, shown in requirements():
        wanted = [number, asked, state(number, shown, findings, left_out)[0]]
        if wanted not in rows:
            wrong += 1
            print(f"conformance: the page has no line {wanted}")
    print(f"conformance: our column has {len(ROWS)} rows, {wrong} wrong")
    return wrong


def main():
    parser = argparse.ArgumentParser(description=__doc__, formatter_class=argparse.RawDescriptionHelpFormatter)
    parser.add_argument("--stacks", default=",".join(NAMES))
    parser.add_argument("--write", action="store_true")
    parser.add_argument("--check", action="store_true")
    words = parser.parse_args()
    if words.check:
        return int(checked() > 0)
    titles, columns = {}, {}
    # The kernel's comes last, since it is tested in a network of its own.
    for name in sorted(words.stacks.split(","), key=lambda one: one == "linux"):
        try:
            titles[name], columns[name] = run_all(name)
        except Lacks as lack:
            print(f"conformance: {name}: {lack}")
            return 2
        print(f"{titles[name]}: {telling.counts(columns[name].values())}", flush=True)
    text = page(titles, {name: columns[name] for name in NAMES if name in columns})
    if words.write:
        PAGE.write_text(text)
    else:
        print(text)
    return int(compared(columns["ours"]) > 0)


if __name__ == "__main__":
    sys.exit(main())
