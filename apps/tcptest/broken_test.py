#!/usr/bin/env python3
"""Each row is seen to fail: broken_test.py [--stacks ours,linux] [--only WORD]

A row that a stack passes is run once more with its fault (broken.py) between stack and tester, and must not be met then. Of a row that no
stack passes, the other way round, a stack is mended, and must pass. A row for which neither was seen fails this test. The last line is
`N rows, M failed`."""

import argparse
import sys

import building
import telling
from tcptest import chosen, run_row, stack_of

SEEN = (telling.NOT_MET, telling.SHOULD_NOT, telling.MAY_NOT)


def shown(stack, row):
    """Whether the row passes on this stack, and fails once it is broken; and what it says then. None where it doesn't pass."""
    whole = run_row(stack, row)
    if whole.verdict in SEEN and row.mended:
        mended = run_row(stack, row, row.mended())
        return mended.verdict == telling.MET, mended
    if whole.verdict != telling.MET:
        return None, whole
    broken = run_row(stack, row, row.fault())
    return broken.verdict in SEEN, broken


def main():
    parser = argparse.ArgumentParser(description=__doc__, formatter_class=argparse.RawDescriptionHelpFormatter)
    parser.add_argument("--stacks", default="ours,linux")
    parser.add_argument("--only", default="")
    parser.add_argument("--verbose", action="store_true")
    words = parser.parse_args()
    rows, failed = chosen(words.only), 0
    left = {row.name: row for row in rows}
    for name in words.stacks.split(","):
        # Before Linux has this process enter a namespace without a network: a source may have to be fetched.
        getattr(building, name, lambda: None)()
    for name in words.stacks.split(","):
        stack = stack_of(name)
        for row in list(left.values()):
            is_shown, found = shown(stack, row)
            if not is_shown and not stack.has_clock:
                is_shown, found = shown(stack, row)  # a loaded machine may have been late
            if is_shown is None:
                continue
            del left[row.name]
            failed += not is_shown
            if not is_shown or words.verbose:
                print(f"{'broken' if is_shown else 'FAILED'}: {row.name} on {name}: {found.verdict}: {found.evidence}", flush=True)
    for row in left.values():
        failed += 1
        print(f"FAILED: {row.name}: no stack of {words.stacks} passes it")
    print(f"{len(rows)} rows, {failed} failed")
    return int(failed > 0 or not rows)


if __name__ == "__main__":
    sys.exit(main())
