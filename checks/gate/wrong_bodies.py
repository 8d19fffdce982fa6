#!/usr/bin/env python3
"""Tries the wrong bodies of crates/NAME/wrong/, many at once: checks/gate/wrong_bodies.py [--kept] [--rust] [--c] [NAME..] has the prover
check, of each crate or of those named, the functions that have one and what they call, with wrong bodies in many of them, and looks at
each one's own verdict, which must be that it isn't proved. With --rust these are the crates that Rattle's callers use, with --c those
for C.

The gate's must-fail edits are one run each, behind a proof of the whole crate. A function is proved by the contracts of those that it
calls, not by their bodies, so that the verdicts on two wrong bodies in two functions are apart: but for this, that the prover leaves a
function undecided where one that it calls isn't proved. Such a wrong body is tried again in the next round, without those that were
refused. It counts as refused where a goal of its own function is open, or its own proof file no longer fits; where that file only names
what the edit took away, it is tried alone. The names that begin with right_ are right bodies, written otherwise: they must be proved
beside the wrong ones, which shows that this check can tell them apart.

The libraries below are those that 'rt ci' or 'rt lib' has left, and that the functions are proved as they are is the gate's. With --kept,
for work in progress, it is looked at first, over what 'rt check' has left in out/. The last line is 'N refused, M right, K failed'."""

import os
import re
import sys
import tempfile
import time
from concurrent.futures import ThreadPoolExecutor
from pathlib import Path

import kit
from bodies import BadEdit, applied, read_body

# An error in a proof file that says only that a name is gone.
GONE = re.compile(r"has no field|is not in scope|has no `|was not admitted")


class Run:
    """What the prover said of a crate with some texts in place of its own."""

    def __init__(self, rt, crate, texts, functions, kept):
        only = [word for it in functions for word in ("--only", it)]
        ran = rt.checked(crate, texts, ["--jobs", "1", *only], kept)
        lines = ran.stdout.rstrip("\n").split("\n")
        bad = next((it for it in lines if rt.unread(it, texts)), "")
        if bad or ran.returncode not in (0, 1) or not lines[-1].startswith("only=") or rt.rtlib.STALE.search(ran.stdout):
            raise BadEdit(f"no verdict: {bad or lines[-1]}"[:300])
        self.is_proved = ran.returncode == 0
        self.said = dict(it.groups() for it in (re.fullmatch(r"fn (\S+): (.*)", line) for line in lines) if it)
        # Whether the prover looked at a function's own goals and one of them is open.
        self.open = [name for name, said in self.said.items() if said.startswith("no proof: ") and "it calls" not in said]
        errors = (re.match(r"(?:\./)?proofs/(\S*?)\w+\.antt:\d+:\d+: error: (.*)", line) for line in lines)
        self.broken = {it[1] for it in errors if it and not GONE.search(it[2])}

    def verdict(self, body):
        """'refused', 'proved', or None where it is undecided."""
        found = [name for name in self.said if body.verdict.fullmatch(name)]
        if len(found) != 1:
            raise BadEdit(f"{len(found)} functions have its name, {body.verdict.pattern}")
        said = self.said[found[0]]
        if said == "proved":
            return "proved"
        is_own = found[0] in self.open or any(it.endswith(f"/{body.proofs}") or it == body.proofs for it in self.broken)
        return "refused" if is_own else None

    def in_the_way(self, body):
        """The functions that aren't proved by themselves among those that this one's calls lead to."""
        left = [name for name in self.said if body.verdict.fullmatch(name)]
        seen = set()
        while left:
            name = left.pop()
            if name not in seen:
                seen.add(name)
                left += re.findall(r"`([^`]+)`", self.said.get(name, "")) if "it calls" in self.said.get(name, "") else []
        return seen & set(self.open)


class Trial:
    """A crate's wrong bodies, tried in rounds over what the crate's own check has kept."""

    def __init__(self, rt, crate, kept, is_by_hand):
        self.rt, self.crate, self.kept, self.folder = rt, crate, kept, Path(crate.folder)
        self.is_by_hand = is_by_hand
        self.failed, self.refused, self.right, self.rounds = [], 0, 0, 0
        self.left = []
        for path in sorted(self.folder.glob("wrong/*")):
            try:
                self.left.append(read_body(path, crate.name, self.folder))
            except BadEdit as error:
                self.failed.append(f"{path.stem}: BAD EDIT: {error}")

    def check(self, bodies, functions):
        self.rounds += 1
        texts = applied(bodies, self.folder)
        return Run(self.rt, self.crate, texts, sorted({it.function for it in functions}), self.kept)

    def count(self, body, verdict):
        if (verdict == "proved") != body.is_right:
            self.failed.append(f"{body.name}: {'A RIGHT BODY IS NOT PROVED' if body.is_right else 'NOT REFUSED'}")
        elif body.is_right:
            self.right += 1
        else:
            self.refused += 1

    def chosen(self, blocking):
        """One body of each function, and none of those functions that kept others undecided."""
        found = {}
        for body in self.left:
            if not any(body.verdict.fullmatch(name) for name in blocking):
                found.setdefault((body.file, body.verdict), body)
        return list(found.values())

    def round(self, bodies):
        """Tries these, and returns what kept the undecided ones so."""
        run = self.check(bodies, bodies)
        blocking = set()
        for body in bodies:
            verdict = run.verdict(body)
            if verdict:
                self.left.remove(body)
                self.count(body, verdict)
            else:
                blocking |= run.in_the_way(body)
        return blocking

    def alone(self, body):
        """Tries one by itself: as in the gate, it is refused where the crate isn't proved. Where that is for a name alone that is gone, which
        says little of the contract, it is told."""
        run = self.check([body], [body])
        if not run.is_proved and not run.open and not run.broken:
            print(f"wrong bodies: {self.crate.name}/{body.name}: refused only because a proof file names what it takes away", flush=True)
        self.count(body, "proved" if run.is_proved else "refused")

    def all(self):
        if self.is_by_hand and not self.check([], self.left).is_proved:
            raise BadEdit("its functions aren't proved as they are")
        blocking, before = set(), 0
        while self.left and len(self.left) != before:
            before = len(self.left)
            blocking = self.round(self.chosen(blocking) or self.chosen(set()))
        for body in self.left:
            self.alone(body)


def tried(rt, crate, is_kept):
    """What came of a crate's wrong bodies."""
    start = time.monotonic()
    with tempfile.TemporaryDirectory(prefix="wrong-bodies-") as room:
        # Of a library for C 'rt lib' keeps what it has proved.
        trial = Trial(rt, crate, f"{crate.folder}/out/incremental" if is_kept or crate.is_static else room, is_kept)
        try:
            trial.all()
        except BadEdit as error:
            trial.failed.append(str(error))
    words = f"{trial.refused} refused" + (f", {trial.right} right" if trial.right else "")
    print(f"wrong bodies: {crate.name}: {words}, {trial.rounds} rounds, {time.monotonic() - start:.0f} seconds", flush=True)
    for it in trial.failed:
        print(f"wrong bodies: {crate.name}/{it}", flush=True)
    return trial


def build(rt, crate):
    """Builds a library, unless another rt that works in its folder has done so meanwhile."""
    held = rt.rtlib.lock([crate])
    if not crate.is_built():
        with tempfile.TemporaryFile("w+", errors="replace") as crate.out:
            if crate.build_rlib(["--jobs", "1"], anew=False):
                crate.out.seek(0)
                sys.exit(f"wrong bodies: {crate.name} isn't built: {crate.out.read()[-600:]}")
    for it in held:
        os.close(it)


def build_below(rt, crates):
    """Builds each library below these crates that isn't built, lower ones first: what the gate or 'rt lib' has left is taken as it is."""
    for dep in dict.fromkeys(dep for it in crates for dep in it.below()):
        if not dep.is_built():
            build(rt, dep)


def main(words):
    names = [it for it in words if not it.startswith("--")]
    if set(words) - {*names, "--kept", "--rust", "--c"}:
        sys.exit(__doc__)
    rt = kit.program()
    found = [it for it in kit.crates(rt) if any(Path(it.folder).glob("wrong/*"))]
    unknown = set(names) - {it.name for it in found}
    if unknown:
        sys.exit(f"wrong bodies: no crate {' '.join(sorted(unknown))} has any")
    for kind, is_wanted in ("--rust", lambda it: not it.is_static), ("--c", lambda it: it.is_static):
        found = [it for it in found if kind not in words or is_wanted(it)]
    found = sorted((it for it in found if not names or it.name in names), key=lambda it: -it.count(rb"\n"))
    build_below(rt, found)
    with ThreadPoolExecutor(rt.processors()) as lanes:
        trials = list(lanes.map(lambda it: tried(rt, it, "--kept" in words), found))
    refused, failed = sum(it.refused for it in trials), sum(len(it.failed) for it in trials)
    if "PASSED_FILE" in os.environ:
        with open(os.environ["PASSED_FILE"], "a", encoding="utf-8") as passed:
            passed.write("a wrong body\n" * refused)
    print(f"{refused} refused, {sum(it.right for it in trials)} right, {failed} failed")
    return 1 if failed or not trials else 0


if __name__ == "__main__":
    sys.exit(main(sys.argv[1:]))
