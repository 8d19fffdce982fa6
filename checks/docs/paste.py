"""Pastes the commands of README.md, CONTRIBUTING.md, docs/ and the pages of folders into a shell, as a reader would.

A block of commands is fenced by ```sh, a block of output is indented. The commands of a page go into one shell, in order, at the top
of a copy of the tree:
- each has to end with status 0, or with N where `<!-- status N -->` is over its block, and to leave the shell in its folder;
- a block of output that follows it within the section has to be consecutive lines of what it printed. A block after a comment that
  names a source isn't output;
- one that proves, takes long, installs or wants more than the kit (LONG) isn't run: its words are looked at, and the folders, scripts
  and files that it names have to be there. Its output is what the comment over the block names (readme.py).
A command in a line of text is only looked at, too; where it changes folder it is in parentheses.

python3 checks/docs/paste.py [--look] prints each failure, and at last how many were pasted, only looked at, and failed; it ends with
1 where one failed, and where no command was met. With --look it runs none.
"""

import pathlib
import re
import shlex
import shutil
import subprocess
import sys
import tempfile

import readme

TOP = pathlib.Path(__file__).resolve().parents[2]
# What isn't run here, by the first words of a simple command, and why.
LONG = {
    r"rt (run|ci|lib|check|must-fail)\b": "proves",
    r"setsid -f rt ci\b": "proves",
    r"\.ci/run\b": "proves, and runs this test",
    r"checks/quick\.sh\b": "runs this test",
    r"(make|pkg-config)\b": "wants the library that 'rt lib' builds",
    r"cc\b.*(yours|portable/out|tcp_c/out)": "wants the library that 'rt lib' builds",
    r"(sudo|apt-get|ldconfig)\b": "installs",
    r"bench/": "takes minutes, and measures",
    r"(apps/(web|usernet|tcpkit)|c/(dist|portable)|release)/\w+\.sh\b": "builds over proofs",
    r"apps/tcptest/": "wants root, and takes half a minute",
    r"apps/usernet/out/": "wants what 'apps/usernet/build.sh' builds",
    r"node apps/web/": "wants the module that 'apps/web/build.sh' builds",
    r"c/(tcpcore|companions)/test\.sh\b": "wants the library that 'rt lib' builds",
    r"checks/(live|behind|differential|judge|release)\b": "wants the library that 'rt lib' builds, or the program",
}
if subprocess.run(["/usr/bin/python3", "-c", "import dpkt"], capture_output=True, check=False).returncode:
    LONG[r"apps/capture/capture\.py\b"] = "wants python3-dpkt"
    LONG[r"(python3 checks/differential/judge\.py|/tmp/tcpjudge) --complete /tmp/"] = "wants what capture.py writes"
# A placeholder of the reader's own.
YOURS = re.compile(r"yours|NAME|\$|\*")
MARK = "--- pasted ---"
FENCE = re.compile(r"^```(\w*)$")
SOURCE = re.compile(r"^<!-- (\S+) -->$")
STATUS = re.compile(r"^<!-- status (\d+) -->$")
OUTPUTS = ("/stdout", "/expected/")
# A command in a line of text.
INLINE = re.compile(r"`((?:\(?cd |python3 |make -C |(?:\.ci|checks|apps|bench|c)/[\w/-]+\.sh\b|\.ci/run)[^`]*)`")
FENCES = ("sh", "text", "mermaid")
# What a block begins with that should be one of commands.
COMMAND = re.compile(r"(\$ |\(?cd |rt |make |cc |python3 |(\.ci|checks|apps|bench|c)/\S+( |$))")


class Shell:
    """One shell in a folder, into which commands are pasted one after another."""

    def __init__(self, folder):
        self.folder, self.errors = folder, tempfile.TemporaryFile("w+")
        self.process = subprocess.Popen(["bash", "--norc"], cwd=folder, stdin=subprocess.PIPE, stdout=subprocess.PIPE, stderr=self.errors, text=True)

    def paste(self, command):
        """What a command prints, its status, and the folder after it: none where it has ended the shell."""
        if self.process.poll() is not None:
            return "", 1, None
        self.process.stdin.write(f'{{ {command}\n}} </dev/null\nprintf "\\n{MARK} %d %s\\n" "$?" "$PWD"\n')
        self.process.stdin.flush()
        lines = []
        for line in self.process.stdout:
            if line.startswith(MARK):
                status, folder = line[len(MARK) + 1:].rstrip("\n").split(" ", 1)
                return "".join(lines).removesuffix("\n"), int(status), folder
            lines.append(line)
        return "".join(lines), self.process.wait(), None

    def said(self):
        """The last lines on standard error."""
        self.errors.seek(0)
        return "".join(self.errors.readlines()[-5:])

    def end(self):
        self.process.stdin.close()
        self.process.wait()


def blocks(text):
    """What a page has for a reader to paste or compare, in order: its kind, where it begins, its lines, and the status that is stated."""
    lines, source, status, number = text.split("\n"), None, 0, 0
    while number < len(lines):
        line, start = lines[number], number + 1
        number += 1
        if comment := SOURCE.match(line):
            source = comment[1]
        elif stated := STATUS.match(line):
            status = int(stated[1])
        elif line.startswith("#"):
            yield "section", start, [], 0
        elif fence := FENCE.match(line):
            end = lines.index("```", number)
            kind = "commands" if fence[1] == "sh" else "other" if fence[1] in FENCES else "wrong"
            yield kind, start, lines[number:end], status
            number, source, status = end + 1, None, 0
        elif line.startswith("    ") and start > 1 and not lines[start - 2]:
            while number < len(lines) and lines[number].startswith("    "):
                number += 1
            kind = "output" if not source or any(part in source for part in OUTPUTS) else "other"
            yield "wrong" if COMMAND.match(line.strip()) else kind, start, [row[4:] for row in lines[start - 1:number]], 0
            source = None


def commands_of(lines):
    """The commands of a block: a line each, and what a backslash joins to it. A line that is a comment is none."""
    command = ""
    for line in lines:
        command += line
        if line.endswith("\\"):
            command += "\n"
        elif line.strip() and not line.startswith("#"):
            yield command
            command = ""
        else:
            command = ""


def simple_commands(command):
    """The simple commands of a line, each with the folder in which it stands: a `cd` holds up to the end of its parentheses."""
    lexer = shlex.shlex(command, posix=True, punctuation_chars=True)
    lexer.whitespace_split = True
    folder, words = TOP, []
    for word in [*lexer, ";"]:
        if not set(word) <= set("();&|"):
            words.append(word)
            continue
        if words:
            folder = folder / words[1] if words[0] == "cd" else folder
            yield folder, words
            words = []
        folder = TOP if ")" in word else folder


def is_long(command):
    return any(re.match(pattern, " ".join(words)) for _, words in simple_commands(command) for pattern in LONG)


def missing(command):
    """What a command names that isn't there."""
    checked = subprocess.run(["bash", "-n", "-c", command], capture_output=True, text=True, check=False)
    if checked.returncode:
        return checked.stderr.strip()
    if command.startswith("cd "):
        return "it changes the folder of the shell"
    for folder, words in simple_commands(command):
        if not folder.is_dir():
            return f"no folder {folder.relative_to(TOP)}"
        if words[0] == "rt" and words[1:2] != ["ci"] and not (folder / "src").is_dir():
            return f"{folder.relative_to(TOP)} is no crate"
        for place, word in enumerate(words if words[0] != "cd" else []):
            if YOURS.search(word) or word.startswith(("-", "/", "./")) or "=" in word or readme.BUILT.search(word) or "/" not in word:
                continue
            path = folder / word
            if not path.exists():
                return f"no {word}"
            if place == 0 and not (path.stat().st_mode & 0o100 and path.is_file()):
                return f"{word} can't be run"
    return None


def is_within(output, printed):
    return bool(output) and "\n" + "\n".join(output) + "\n" in "\n" + printed.rstrip("\n") + "\n"


class Paste:
    """The commands of all pages, and what came of them."""

    def __init__(self, look):
        self.look, self.pasted, self.looked_at, self.failures = look, 0, 0, []

    def page(self, name, text, folder):
        shell, printed = Shell(folder), None
        for kind, line, lines, status in blocks(text):
            where = f"{name}:{line}"
            if kind == "commands":
                printed = None
                for command in commands_of(lines):
                    printed = self.command(where, command, shell, status)
            elif kind == "output" and printed is not None and not is_within(lines, printed):
                self.failures.append(f"{where}: that isn't what the command before prints")
            elif kind == "wrong":
                self.failures.append(f"{where}: commands are fenced by ```sh, and anything else by ```text or indented")
            if kind != "commands":
                printed = None
        shell.end()
        for command in INLINE.finditer(text):
            line = text.count("\n", 0, command.start()) + 1
            self.look_at(f"{name}:{line}", re.sub(r"\s+", " ", command[1]))

    def look_at(self, where, command):
        self.looked_at += 1
        if lacks := missing(command):
            self.failures.append(f"{where}: {command}: {lacks}")

    def command(self, where, command, shell, wanted):
        """What a command prints, or None where it wasn't run."""
        if self.look or is_long(command):
            self.look_at(where, command)
            return None
        printed, status, after = shell.paste(command)
        self.pasted += 1
        if status != wanted:
            self.failures.append(f"{where}: {command}: status {status}\n{shell.said()}")
        elif after != str(shell.folder):
            self.failures.append(f"{where}: {command}: the shell is in {after} then")
        return printed


def main():
    paste = Paste("--look" in sys.argv[1:])
    with tempfile.TemporaryDirectory() as work:
        copy = pathlib.Path(work).resolve() / "clone"
        shutil.copytree(TOP, copy, symlinks=True, ignore=shutil.ignore_patterns("out", ".git", "__pycache__"))
        for page in readme.pages():
            paste.page(page.relative_to(TOP), page.read_text(), copy)
    for failure in paste.failures:
        print(failure)
    print(f"{paste.pasted} commands pasted, {paste.looked_at} only looked at, {len(paste.failures)} failed")
    sys.exit(bool(paste.failures) or not paste.pasted + paste.looked_at)


if __name__ == "__main__":
    main()
