"""The program under test, and what both comparisons share."""

import os
import struct
import subprocess
import sys
import tempfile

TOP = os.path.realpath(f"{os.path.dirname(__file__)}/../..")
# Another one may be named.
PROGRAM = os.environ.get("TCPKIT", f"{TOP}/crates/tcpkit/out/tcpkit")


def hexadecimal(data):
    return data.hex() or "-"


def word_sum(src, dst, segment):
    """The plain sum over pseudo-header and segment (RFC 9293, 3.1)."""
    data = src + dst + struct.pack(">BBH", 0, 6, len(segment)) + segment
    data += bytes(len(data) % 2)
    return sum(word for (word,) in struct.iter_unpack(">H", data))


def with_checksum(src, dst, segment):
    """The segment with the checksum field that makes it check."""
    bare = segment[:16] + bytes(2) + segment[18:]
    field = (65535 - word_sum(src, dst, bare) % 65535) % 65535
    return bare[:16] + struct.pack(">H", field) + bare[18:]


def answers(job, text):
    """What the program writes for this input, and its status."""
    with tempfile.NamedTemporaryFile("w", suffix=".txt") as file:
        file.write(text)
        file.flush()
        ran = subprocess.run([PROGRAM, job, file.name], capture_output=True, text=True)
    return ran.stdout, ran.returncode


def compare(job, case):
    """Compares the program with `case`, which makes an input, what is wanted and the status, for each seed."""
    if not os.path.exists(PROGRAM):
        sys.exit("build the program first: cd crates/tcpkit && rt run -- decode data/segments.list")
    count = int(sys.argv[1]) if len(sys.argv) > 1 else 100
    for seed in range(count):
        text, wanted, status = case(seed)
        found = answers(job, text)
        if found != (wanted, status):
            for line, other in zip(found[0].split("\n"), wanted.split("\n")):
                if line != other:
                    print(f"found  {line}\nwanted {other}")
                    break
            sys.exit(f"seed {seed} differs, or has status {found[1]} for {status}")
    print(f"{count} inputs, no difference")
