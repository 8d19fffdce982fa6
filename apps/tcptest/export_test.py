#!/usr/bin/env python3
"""Each row as a script in packetdrill's form: written of how it goes with our end, and run against a new one, which has to do the same.

Left out are rows of several connections, those that need what the form has no words for, and transfers, whose wire is random. The last
line is `N scripts, M failed`."""

import pathlib
import sys
import tempfile

from packetdrill import export_all, run_script
from tcptest import stack_of

# What no script can have: another address; a user's call that packetdrill has no word for; minutes, which pass in steps of a second;
# several connections of one pair of sockets.
LEFT = {"gives_up", "gives_up_syn", "greatest_timeout", "no_open_to_many", "no_syn_to_many", "no_syn_from_many", "no_syn_from_network",
        "initial_numbers", "initial_numbers_clock", "keep_alive_off", "past_edge_no_timeout"}
CALLS = ("keep_alive", "abort", "leaves_unread")


def is_whole(row, text):
    """Whether a script has all of its row."""
    is_left = row.name in LEFT or row.name.startswith(("transfer", *CALLS))
    return not is_left and "  // with " not in text and "connections; this is the first" not in text


def main():
    stack, count, failed = stack_of("ours"), 0, 0
    with tempfile.TemporaryDirectory() as name:
        for row, path in list(export_all(stack, pathlib.Path(name))):
            if is_whole(row, path.read_text()):
                is_same, said, _ = run_script(stack, path)
                count += 1
                failed += not is_same
                if not is_same:
                    print(f"FAILED: {row.name}: {said}")
    print(f"{count} scripts, {failed} failed")
    return int(failed > 0 or count < 50)


if __name__ == "__main__":
    sys.exit(main())
