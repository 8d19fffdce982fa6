"""Wrong bodies: what an edit changes, and which function's verdict it is about."""

import re
from dataclasses import dataclass
from pathlib import Path

HEAD = re.compile(r'\s*(?:pub(?:\(.*?\))? )?(?:const )?(?:unsafe )?(?:extern "C" )?fn (\w+)')
IMPL = re.compile(r"\s*(?:unsafe )?impl\b(.*)\{?$")
TRAIT = re.compile(r"\s*(?:pub(?:\(.*?\))? )?trait (\w+)")


class BadEdit(Exception):
    """An edit that can't be applied, so that it tries nothing."""


@dataclass(frozen=True)
class Body:
    """A wrong body: the file in its crate, what it changes there, and the function that has it."""

    name: str
    file: str
    changes: tuple[tuple[str, str], ...]
    # The function, as the prover is asked for it, and the names by which it tells of it.
    function: str
    verdict: re.Pattern
    # Its answers, by which it is proved where there are any.
    proofs: str
    # A right body, written otherwise: the prover must take it.
    is_right: bool


def without_parameters(words):
    """`Flow<C, W>` as `Flow`."""
    depth, kept = 0, []
    for at, char in enumerate(words):
        if char == "<":
            depth += 1
        elif char == ">" and words[at - 1] != "-":
            depth -= 1
        elif depth == 0:
            kept.append(char)
    return "".join(kept)


def owner_of(head):
    """What the prover calls the type of an `impl`, with its trait behind it."""
    words = without_parameters(head.split(" where ")[0]).strip()
    trait, _, name = words.rpartition(" for ")
    last = re.findall(r"\w+", name.split("::")[-1])
    first = re.findall(r"\w+", trait.split("::")[-1]) if trait else []
    return "".join([*last[:1], *first[:1]])


def place_of(lines, line):
    """The function in which a line stands, and what it is a method of."""
    function, indent = None, len(lines[line]) - len(lines[line].lstrip())
    for text in reversed(lines[:line]):
        spaces = len(text) - len(text.lstrip())
        head = HEAD.match(text)
        if function is None and head:
            # What stands behind a function is no line of it.
            if spaces >= indent:
                return None, None
            function, indent = head[1], spaces
        elif function is not None and spaces < indent:
            impl, trait = IMPL.match(text), TRAIT.match(text)
            if impl:
                return function, owner_of(impl[1])
            if trait:
                return function, trait[1]
    return function, None


def module_of(file):
    parts = Path(file).with_suffix("").parts[1:]
    return [it for it in parts if it not in ("lib", "main", "mod")]


def changes_of(text):
    """The file and the pairs of an edit, in the form of the kit's must-fail edits."""
    files, pairs, old = set(), [], None
    for line in text.splitlines():
        if line.startswith("file: "):
            files.add(line[6:].strip())
        elif line.startswith("old: "):
            old = line[5:]
        elif line.startswith("new:") and old is not None:
            pairs.append((old, line[4:].removeprefix(" ")))
            old = None
    if len(files) != 1 or not pairs or old is not None:
        raise BadEdit("it isn't one 'file:' and pairs of 'old:' and 'new:'")
    return files.pop(), tuple(pairs)


def read_body(path, crate, folder):
    """The wrong body of a file; `folder` is the crate's."""
    file, changes = changes_of(path.read_text(encoding="utf-8"))
    if not file.startswith("src/"):
        raise BadEdit("it changes no file of src/: it belongs in must-fail/")
    source = (folder / file).read_text(encoding="utf-8")
    functions = set()
    for old, _ in changes:
        if source.count(old) != 1:
            raise BadEdit(f"an 'old:' text is in {file} {source.count(old)} times, and not once")
        functions.add(place_of(source.splitlines(), source[: source.index(old)].count("\n")))
    if len(functions) != 1 or None in {it[0] for it in functions}:
        raise BadEdit("it changes no function, or two: it belongs in must-fail/")
    function, owner = functions.pop()
    parts = [owner, function] if owner else [*module_of(file), function]
    # The type's module isn't the file, where its methods stand in several.
    verdict = re.compile("::".join([crate, *parts]).replace("::", r"::(?:[a-z]\w*::)*", 1) if owner else "::".join([crate, *parts]))
    is_right = path.stem.startswith("right_")
    return Body(path.stem, file, changes, "::".join(parts), verdict, "/".join([*parts, ""]), is_right)


def applied(bodies, folder):
    """The texts of the crate's files with these bodies in them, by their paths. Each 'old:' text is looked for in what lies there."""
    spans = {}
    for body in bodies:
        text = (folder / body.file).read_text(encoding="utf-8")
        spans.setdefault(body.file, []).extend((text.index(old), old, new) for old, new in body.changes)
    texts = {}
    for file, found in spans.items():
        text, end = (folder / file).read_text(encoding="utf-8"), None
        for at, old, new in sorted(found, reverse=True):
            if end is not None and end < at + len(old):
                raise BadEdit(f"two of the wrong bodies in {file} change the same text")
            text, end = text[:at] + new + text[at + len(old) :], at
        texts[file] = text
    return texts
