"""The proved judge on what went between a stack and the tester (docs/JUDGE.md)."""

import subprocess
import tempfile

import building


def judged(logs):
    """Of logs of one connection each: how many were judged, and what is found in them, as (which, line)."""
    program, count, found = building.judge(), 0, []
    for which, log in enumerate(logs):
        if not any(line.startswith("went") for line in log):
            continue
        with tempfile.NamedTemporaryFile("w", suffix=".log") as file:
            file.write("\n".join(log) + "\n")
            file.flush()
            done = subprocess.run([str(program), "--complete", file.name], capture_output=True, text=True, check=False)
        if done.returncode not in (0, 1):
            raise OSError(f"tcpjudge: {done.stderr}")
        count += 1
        found += [(which, line) for line in done.stdout.splitlines() if line.startswith("line ")]
    return count, found
