"""Checks that README.md, CONTRIBUTING.md, docs/ and the pages of folders show what stands in the repository:

- a block after a comment that names a file, as `<!-- crates/example_lossy_wire/src/wire.rt -->`, is consecutive lines of that file;
- a table after a comment `<!-- SCRIPT beside REPORT -->` has in each row an event of the script and the line of the report for it;
- a path in backquotes that begins with a folder of the repository is there, and so is each `docs/NAME.md`;
- no line but of a table or of what a program prints is longer than 120 characters, and README.md has at most 1,000 words;
- README.md names the logic that `rt version` prints, on which every proof rests: kits of one logic prove the same;
- the newest version of CHANGELOG.md is 0.N of the C interface's number N, and so are those of Python's package and the Rust crate.

python3 checks/docs/readme.py prints how many blocks and paths were looked at; it ends with 1 where one is wrong, and where a comment has no block.
"""

import pathlib
import re
import shutil
import subprocess
import sys

TOP = pathlib.Path(__file__).resolve().parents[2]
COMMENT = re.compile(r"^<!-- (\S+) -->$", re.MULTILINE)
BLOCK = re.compile(r"^<!-- (\S+) -->\n\n((?:(?:    .*)?\n)+)", re.MULTILINE)
FOLDERS = ("crates", "c", "apps", "checks", "examples", "bench", "docs", "release")
PATH = re.compile(r"`?\b((?:" + "|".join(FOLDERS) + r")/[\w./-]*[\w/])")
BESIDE = re.compile(r"^<!-- (\S+) beside (\S+) -->\n\n((?:\|.*\n)+)", re.MULTILINE)
CELLS = re.compile(r"^\| `([^`]*)` \| `((\d+) [^`]*)` \|")
BUILT = re.compile(r"(^|/)out(/|$)")
LONGEST, MOST_WORDS = 120, 1000
# What `rt version` says of a kit's logic, behind the kit's own name.
LOGIC = re.compile(r"\blogic [0-9a-f]{16}\b")


def pages():
    of_folders = sorted(page for folder in FOLDERS[1:5] for page in (TOP / folder).rglob("*.md") if not BUILT.search(str(page.relative_to(TOP))))
    return [TOP / "README.md", TOP / "CONTRIBUTING.md", TOP / "CHANGELOG.md", *sorted((TOP / "docs").glob("*.md")), *of_folders]


def rows_wrong(name, script, report, table):
    """The rows of a table that aren't an event of the script and its line of the report."""
    events = [line for line in (TOP / script).read_text().split("\n") if line and not line.startswith(("#", "config", "tcpkit"))]
    outcomes, rows = (TOP / report).read_text().split("\n"), table.rstrip("\n").split("\n")[2:]
    cells = [CELLS.match(row) for row in rows]
    return [
        f"{name}: '{row}' isn't an event of {script} and its line of {report}"
        for row, cell in zip(rows, cells)
        if not cell or cell[2] not in outcomes or int(cell[3]) > len(events) or events[int(cell[3]) - 1] != cell[1]
    ]


def main():
    wrong, blocks, paths = [], 0, 0
    for page in pages():
        name, text = page.relative_to(TOP), page.read_text()
        found = BLOCK.findall(text)
        blocks += len(found)
        for file, block in found:
            lines = [line[4:] for line in block.strip("\n").split("\n")]
            there = TOP / file
            if not any(lines) or not there.is_file() or "\n" + "\n".join(lines) + "\n" not in "\n" + there.read_text():
                wrong.append(f"{name}: what it shows of {file} isn't there")
        for script, report, table in BESIDE.findall(text):
            blocks += 1
            wrong += rows_wrong(name, script, report, table)
        if len(COMMENT.findall(text)) != len(found) or len(re.findall(r"^<!-- \S+ beside", text, re.MULTILINE)) != len(BESIDE.findall(text)):
            wrong.append(f"{name}: a comment that names a file has no block")
        for path in set(PATH.findall(text)):
            if BUILT.search(path) or "NAME" in path or path.endswith("_"):
                continue
            paths += 1
            if not (TOP / path).exists():
                wrong.append(f"{name}: {path} isn't there")
        wrong += [
            f"{name}:{number}: {len(line)} characters"
            for number, line in enumerate(text.split("\n"), 1)
            if len(line) > LONGEST and not line.startswith(("|", "    "))
        ]
    newest = re.search(r"^## 0\.(\d+),", (TOP / "CHANGELOG.md").read_text(), re.MULTILINE)
    interface = re.search(r"#define TCPCORE_VERSION (\d+)", (TOP / "c/tcpcore/tcpcore.h").read_text())
    if not newest or not interface or newest[1] != interface[1]:
        wrong.append("CHANGELOG.md: its newest version isn't the C interface's")
    for name in ("c/bindings/python/pyproject.toml", "c/bindings/rust/Cargo.toml", "c/bindings/rust/Cargo.lock"):
        version = re.search(r'^version = "0\.(\d+)', (TOP / name).read_text(), re.MULTILINE)
        if not version or not interface or version[1] != interface[1]:
            wrong.append(f"{name}: its version isn't the C interface's")
    # Without a kit, what release/ was made by.
    kit = subprocess.run(["rt", "version"], capture_output=True, text=True, check=True).stdout if shutil.which("rt") else (TOP / "release/MADE").read_text()
    logic = LOGIC.search(kit)
    if not logic or f"`{logic[0]}`" not in (TOP / "README.md").read_text():
        wrong.append(f"README.md: the kit is {kit.strip()}")
    words = len((TOP / "README.md").read_text().split())
    if words > MOST_WORDS:
        wrong.append(f"README.md: {words} words")
    for line in wrong:
        print(line)
    print(f"readme: {blocks} blocks and {paths} paths looked at, {len(wrong)} wrong")
    sys.exit(bool(wrong) or not blocks)


if __name__ == "__main__":
    main()
