"""Keep-alives written a second time, from RFC 9293, 3.8.4 and 3.1: `python3 checks/differential/keep_alive.py` writes what
crates/test_keep_alive prints (stdout). `--check` runs the built program and compares.

A is 10.0.0.1, port 1, with the initial number 1000, and has sent nothing but its SYN. B is 10.0.0.2, port 2, with the initial number 5000,
and has sent nine bytes, of which A's user has read five. It answers two keep-alives, and then it is gone.
"""

import pathlib
import struct
import subprocess
import sys

CRATE = pathlib.Path(__file__).resolve().parents[2] / "crates" / "test_keep_alive"
SECOND = 1_000_000
IDLE, INTERVAL, MOST = 2 * 60 * 60 * SECOND, 75 * SECOND, 9
A, B = bytes((10, 0, 0, 1)), bytes((10, 0, 0, 2))
ACK, RST = 16, 4
ANSWERS = 2


def segment(seq, ack, flags, window):
    """A segment without options and text from A to B, with its checksum (RFC 9293, 3.1)."""
    fields = [1, 2, seq, ack, 5 << 4, flags, window, 0, 0]
    pseudo = A + B + struct.pack(">BBH", 0, 6, 20)
    total = sum(struct.unpack(">16H", pseudo + struct.pack(">HHIIBBHHH", *fields)))
    while total > 0xFFFF:
        total = (total & 0xFFFF) + (total >> 16)
    fields[7] = total ^ 0xFFFF
    return struct.pack(">HHIIBBHHH", *fields).hex()


def lines():
    """What the program prints."""
    asks = segment(1000, 5001 + 9, ACK, 65536 - 4)
    yield "may ask: true, false with text to send, false in flight, true acknowledged"
    yield "off: None, Nothing"
    now = 0
    for _ in range(ANSWERS):
        now += IDLE
        yield f"{now} asks {asks}"
        yield f"{now} hears"
    now += IDLE
    for _ in range(MOST):
        yield f"{now} asks {asks}"
        now += INTERVAL
    yield f"{now} gives up after {MOST}"
    yield "waits for nothing"
    yield segment(1001, 0, RST, 0)


def main():
    printed = "".join(f"{line}\n" for line in lines())
    if sys.argv[1:] != ["--check"]:
        (CRATE / "stdout").write_text(printed)
        return
    ran = subprocess.run([CRATE / "out/test_keep_alive"], capture_output=True, text=True, check=True).stdout
    if ran != printed:
        sys.exit("keep_alive: the program prints something else")
    print(f"keep_alive: {len(printed.splitlines())} lines alike")


main()
