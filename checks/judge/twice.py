"""A log judged by `tcpjudge` and by the second program, which have to say the same."""

import concurrent.futures
import multiprocessing
import os
import pathlib
import subprocess
import sys
import tempfile

HERE = pathlib.Path(__file__).resolve().parent
sys.path[:0] = [str(HERE.parent / "differential"), str(HERE.parents[1] / "apps/capture")]

from judge import findings, report


class Differs(Exception):
    """The two judges don't say the same, or not what is wanted."""


class Judges:
    """`tcpjudge` by its path, and the second program; how many logs they judged."""

    def __init__(self, program):
        self.program, self.count = program, 0
        self.file = tempfile.NamedTemporaryFile("w", suffix=".log")

    def report(self, lines, is_complete=True):
        """What both say of a log, and their status."""
        self.count += 1
        self.file.seek(0)
        self.file.truncate()
        self.file.write("".join(f"{line}\n" for line in lines))
        self.file.flush()
        words = [self.program, *(["--complete"] if is_complete else []), self.file.name]
        done = subprocess.run(words, capture_output=True, text=True, check=False)
        first, second = (done.stdout, done.returncode), report(lines, is_complete)
        if first != second:
            raise Differs(f"tcpjudge says {first} {done.stderr}, the second program {second}")
        return second

    def accuses(self, lines, is_complete=True):
        return self.report(lines, is_complete)[1] == 1


def side_by_side(call, items):
    """What `call` answers of each, in a process for each processor; they give way to what runs against a clock beside them."""
    fork = multiprocessing.get_context("fork")
    with concurrent.futures.ProcessPoolExecutor(len(os.sched_getaffinity(0)), fork, initializer=os.nice, initargs=(10,)) as pool:
        return list(pool.map(call, items))


def rules(lines, is_complete=True):
    """The rules that a log breaks."""
    return {rule for _, rule, _ in findings(lines, is_complete)[0]}
