"""handed.py MODE COUNT: COUNT bursts of in_order, one_byte or sixteen, as bench/handed.c moves them in C; in_turns, bytes_in_turns and
sixteen_in_turns are the same bursts by batches. Modes with `ctypes_` before them leave out the module _batch."""

import sys

import tcpcore
from tcpcore import LIMIT, Config, End

A, B = bytes([10, 0, 0, 1]), bytes([10, 0, 0, 2])
SEGMENT, CAPACITY = 1460, 65536


def carry(sender, src, receiver):
    found = sender.emit()
    if found is not None:
        receiver.arrive(src, found[0], found[1])


def burst(a, b, text, segments):
    is_of_bytes = len(text) == segments
    if not is_of_bytes:
        a.send(text)
    for _ in range(segments):
        if is_of_bytes:
            a.send(text[:1])
        carry(a, A, b)
    carry(b, B, a)
    b.receive()


def turn(a, b, text, segments):
    if len(text) > segments:
        a.send(text)
        there = a.emit_all()
    else:
        there = []
        for _ in range(segments):
            a.send(text[:1])
            there += a.emit_all()
    _, back = b.turn(A, B, [segment for _, segment in there])
    a.arrive_all(B, A, [segment for _, segment in back])
    b.receive()


def main():
    mode = sys.argv[1]
    # What was loaded is left out again.
    is_without = tcpcore.batches() and mode.startswith("ctypes_")
    mode = mode.removeprefix("ctypes_")
    segments = 16 if mode.startswith("sixteen") else 2
    text = bytes(segments * (1 if mode in ("one_byte", "bytes_in_turns") else SEGMENT))
    move = turn if mode.endswith("in_turns") else burst
    a, b = (
        End(Config(addr, port, isn=1000, send_capacity=CAPACITY, recv_capacity=CAPACITY, window_shift=5, limit=LIMIT << 30))
        for addr, port in ((A, 1), (B, 2))
    )
    if is_without:
        a.batch = b.batch = None
    b.listen()
    a.connect(B, 2)
    carry(a, A, b)
    carry(b, B, a)
    carry(a, A, b)
    count = int(sys.argv[2])
    for _ in range(count):
        move(a, b, text, segments)
    sys.exit(a.status().released != count * len(text))


main()
