#!/usr/bin/env python3
"""Lets later builds take the libraries that 'rt ci' has just proved and built, or has taken from what it kept.
keep_libraries.py before FILE notes what stands in the crates' out/ folders, and keep_libraries.py after FILE, right behind that run, stamps
what the run has left there. 'rt lib' knows a library of its own by the stamp beside it, a sum of all that it was made from, and the gate
leaves none, so that each library would be proved once more behind it. A library's statements fit only the builds that they were proved over:
one is stamped where the gate has left all those below it, too, and nothing that they are made from has changed since. What was built
earlier over a library that the gate has replaced loses its stamp. Where a kit's rt is another program, later builds prove once more, and
this says so."""

import os
import subprocess
import sys
from pathlib import Path

import kit


def library_of(crate):
    """What tells one build of the crate's library from another: its folder and what that says of its files, or None where there is none."""
    folder = Path(crate.folder, "out/rlib")
    if not Path(crate.rlib).is_dir():
        return None
    return f"{folder.stat().st_ino} {Path(crate.rlib, 'format').stat().st_ino} {folder}"


def is_changed_since(crate, begin):
    """Whether a file that the library is made from was written later."""
    files = (path for path in Path(crate.folder).rglob("*") if path.relative_to(crate.folder).parts[0] != "out")
    return any(path.stat().st_mtime >= begin for path in files if path.is_file())


def note(file):
    found = [library_of(crate) for crate in kit.crates(kit.program())]
    file.write_text("".join(f"{it}\n" for it in found if it), encoding="utf-8")


def stamp(file):
    begin, before = file.stat().st_mtime, set(file.read_text(encoding="utf-8").splitlines())
    of_gate, stamped = set(), 0
    for crate in sorted(kit.crates(kit.program()), key=lambda it: len(it.below())):
        own, below = library_of(crate), [it.name for it in crate.below()]
        kept = Path(crate.folder, "out/rlib/stamp")
        if crate.makes_rlib() and own and own not in before and not is_changed_since(crate, begin) and of_gate.issuperset(below):
            of_gate.add(crate.name)
            if not kept.exists():
                kept.write_text(crate.stamp(), encoding="utf-8")
                stamped += 1
        elif not of_gate.isdisjoint(below):
            kept.unlink(missing_ok=True)
    print(f"libraries of the gate that later builds take as they are: {stamped}")


def main():
    what, file = sys.argv[1], Path(sys.argv[2]).absolute()
    {"before": note, "after": stamp}[what](file)


try:
    main()
except (AttributeError, OSError, subprocess.CalledProcessError) as error:
    print(f"later builds prove the gate's libraries once more: this kit's rt is another program ({error})")
