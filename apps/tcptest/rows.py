"""The rows: what is asked of a stack, in own words, with the section of the RFC, how it is tried, and how it is broken."""

from dataclasses import dataclass
from typing import Callable

from broken import Fault

MUST, SHOULD, MAY = "MUST", "SHOULD", "MAY"
ROWS = []


@dataclass
class Row:
    name: str  # as --only takes it
    numbers: tuple  # of RFC 9293, Appendix B
    parts: tuple  # numbers of which the row sees a part alone
    section: str
    asks: str
    level: str
    run: Callable
    fault: Callable  # makes the fault by which the row is seen to fail
    mended: Callable = None  # where no stack passes: makes what mends one, so that the row is seen to pass

    def requirements(self):
        return ", ".join([*self.numbers, *(f"{number} in part" for number in self.parts)])

    def title(self):
        return self.requirements() or self.section


def row(numbers, section, asks, fault: Callable[[], Fault], level=MUST, mended=None):
    """Adds a function of a Lab as a row. It answers its evidence, or raises NotMet or NotSeen. `numbers` are words: "MUST-2 MUST-3~", where
    ~ stands behind a number of which the row sees a part alone."""
    words = numbers.split()
    whole, parts = tuple(word for word in words if word[-1] != "~"), tuple(word[:-1] for word in words if word[-1] == "~")

    def add(run):
        ROWS.append(Row(run.__name__, whole, parts, section, asks, level, run, fault, mended))
        return run

    return add
