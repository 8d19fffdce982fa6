"""Compares one end alone with the second program, on random calls and on segments that no end of ours sent:
python3 checks/differential/one_end.py [COUNT]

Each case is a batch of ends for `crates/test_one_end`, whose lines its main.rt describes. `rt run < stdin` there builds it.
"""

import collections
import os
import random
import struct
import subprocess
import sys

from end import ACK, FIN, HALF, PSH, RST, SPACE, SYN, End, Segment
from program import TOP, hexadecimal, with_checksum

PROGRAM = f"{TOP}/crates/test_one_end/out/test_one_end"
OWN, PEER = (bytes([10, 0, 0, 2]), 2), (bytes([10, 0, 0, 1]), 1)
BATCH = 50


def dotted(addr):
    return ".".join(str(octet) for octet in addr)


def options(rng, is_syn, end):
    """Random options, well formed, of whole words."""
    area = b""
    if is_syn:
        if rng.random() < 0.8:
            area += bytes([2, 4]) + struct.pack(">H", rng.choice([0, 10, 63, 64, 65, 300, 1460, 65535]))
        if rng.random() < 0.6:
            area += bytes([1, 3, 3, rng.choice([0, 0, 1, 2, 7, 13, 14, 15, 255])])
        if rng.random() < 0.7:
            area += bytes([1, 1, 4, 2])
        if rng.random() < 0.1:
            area += rng.choice([bytes([2, 3, 9]), bytes([3, 4, 5, 5]), bytes([4, 3, 1]), bytes([2, 4, 1, 0]), bytes([8, 2])])
    elif rng.random() < 0.5:
        blocks = b"".join(random_block(rng, end) for _ in range(rng.choice([1, 1, 2, 3, 4])))
        area += bytes([1, 1, 5, 2 + len(blocks)]) + blocks
    area = area[:40]
    return area + bytes(-len(area) % 4)


def random_block(rng, end):
    """A block around what is in flight: mostly good, at its edges, empty, reversed or far off."""
    flight = (end.snd_nxt - end.snd_una) % SPACE
    low = rng.choice([0, 1, 2, flight, max(0, flight - 1), rng.randrange(flight + 2)])
    high = rng.choice([low, low + 1, low + 2, flight, flight + 1, rng.randrange(flight + 2)])
    base = end.snd_una + rng.choice([0, 0, 0, 0, 0, 0, HALF, 77777])
    return struct.pack(">II", (base + low) % SPACE, (base + high) % SPACE)


def random_seq(rng, end):
    if end.rcv_nxt is None:
        return rng.choice([0, 1000, SPACE - 1, SPACE - 2, HALF, rng.randrange(SPACE)])
    window = end.window()
    ahead = rng.choice([0, 0, 0, 0, 0, 1, 2, -1, -3, window - 1, window, window + 1, rng.randrange(window + 3), HALF, HALF - 1, -HALF, rng.randrange(SPACE)])
    return (end.rcv_nxt + ahead) % SPACE


def random_ack(rng, end):
    flight = (end.snd_nxt - end.snd_una) % SPACE
    ahead = rng.choice([flight, flight, flight, 0, 0, 1, flight + 1, -1, rng.randrange(flight + 2), HALF, HALF - 1, rng.randrange(SPACE)])
    return (end.snd_una + ahead) % SPACE


def random_flags(rng, end):
    if end.phase in ("LISTEN", "SYN-SENT", "SYN-RECEIVED", "CLOSED") and rng.random() < 0.6:
        wanted = {"LISTEN": SYN, "SYN-SENT": SYN | ACK, "SYN-RECEIVED": ACK, "CLOSED": ACK}[end.phase]
        return wanted | (FIN if rng.random() < 0.1 else 0)
    return rng.choices(
        [ACK, ACK | PSH, ACK | FIN, 0, SYN, SYN | ACK, RST, RST | ACK, FIN, SYN | RST, ACK | 0xE0, rng.randrange(256)],
        [50, 5, 12, 2, 1, 2, 1, 1, 1, 0.3, 2, 1],
    )[0]


def arrival(rng, end):
    flags = random_flags(rng, end)
    ports = (PEER[1], OWN[1]) if rng.random() < 0.98 else (rng.choice([1, 3]), rng.choice([2, 3]))
    src, dst = (PEER[0], OWN[0]) if rng.random() < 0.98 else (rng.choice([PEER[0], bytes([10, 0, 0, 9])]), rng.choice([OWN[0], PEER[0]]))
    text = rng.randbytes(rng.choice([0, 0, 0, 1, 1, 2, 3, rng.randrange(80)]))
    area = options(rng, bool(flags & SYN), end)
    window = rng.choice([0, 0, 1, 2, 3, 10, 100, 5000, 65535, end.snd_wnd >> end.peer_shift, end.snd_wnd >> end.peer_shift])
    seq, ack = random_seq(rng, end), random_ack(rng, end)
    header = struct.pack(">HHIIBBHHH", *ports, seq, ack, (5 + len(area) // 4) << 4 | rng.choice([0, 0, 15]), flags, window, 0, rng.choice([0, 7]))
    data = with_checksum(src, dst, header + area + text)
    if rng.random() < 0.02:
        data = data[: rng.randrange(len(data))]
        while len(data) >= 20:
            data = data[:-1]
    elif rng.random() < 0.02:
        place = rng.randrange(len(data))
        data = data[:place] + bytes([data[place] ^ rng.randrange(1, 256)]) + data[place + 1 :]
    return f"arrive {dotted(src)} {dotted(dst)} {hexadecimal(data)}", end.arrive(src, dst, data)


def answer_of(call):
    return f"refused {call}" if call is not None else "ok"


def line(rng, end):
    """One line, and what is answered."""
    kind = rng.choices(
        ["arrive", "emit", "send", "receive", "timer", "timers", "close", "abort", "connect", "listen", "acknowledge", "emit-acknowledgement", "resend-first", "resend"],
        [50, 30, 15, 8, 8, 3, 1.5, 0.3, 0.3, 0.3, 3, 4, 3, 4],
    )[0]
    if kind == "arrive":
        return arrival(rng, end)
    if kind == "emit":
        emitted = end.emit()
        if rng.random() < 0.5:
            return "emit bytes", "none" if emitted is None else f"{dotted(emitted[0])} {hexadecimal(emitted[1])}"
        return "emit", "none" if emitted is None else f"{dotted(emitted[0])} {Segment(emitted[1]).told()}"
    if kind == "send":
        text = rng.randbytes(rng.choice([0, 1, 1, 2, 5, rng.randrange(150)]))
        took = end.send(text)
        return f"send {hexadecimal(text)}", f"refused {took[0]}" if isinstance(took, tuple) else f"took {took}"
    if kind == "receive":
        room = rng.choice([0, 1, 2, 5, 1000])
        got = end.receive(room)
        told = got if isinstance(got, str) else f"refused {got[0]}" if isinstance(got, tuple) else f"bytes {hexadecimal(got)}"
        return f"receive {room}", told
    if kind == "timer":
        which = rng.choice(["retransmit", "retransmit", "reorder", "timewait"])
        return f"timer {which}", "true" if end.timer(which) else "false"
    if kind == "timers":
        rules = [end.timer_rule(which) is not None for which in ("retransmit", "reorder", "timewait")]
        return "timers", " ".join("true" if rule else "false" for rule in rules)
    if kind == "emit-acknowledgement":
        emitted = end.emit_acknowledgement()
        return kind, "none" if emitted is None else f"{dotted(emitted[0])} {Segment(emitted[1]).told()}"
    if kind == "resend-first":
        return kind, "true" if end.resend_first() else "false"
    if kind == "resend":
        first = rng.choice([0, 1, rng.randrange(1000), (end.snd_una - end.iss) % SPACE + rng.randrange(20)])
        last = first + rng.choice([0, 1, 5, rng.randrange(200)])
        return f"resend {first} {last}", "true" if end.resend(first, last) else "false"
    if kind == "connect":
        return kind, answer_of(end.connect(PEER))
    return kind, answer_of(getattr(end, kind)())


def state(end):
    return f"{end.phase} {end.ending} unread {len(end.unread)} released {end.released} ordered {end.ordered}"


def config_of(rng):
    return {
        "addr": OWN[0],
        "port": OWN[1],
        "isn": rng.choice([5000, SPACE - 1, SPACE - 2, SPACE - 40, 0, HALF, HALF - 3, rng.randrange(SPACE)]),
        "mss": rng.choice([64, 65, 100, 1460]),
        "send": rng.choice([1, 2, 5, 70, 200, 65536]),
        "recv": rng.choice([1, 2, 3, 7, 40, 150, 65536, 70000, 1048576]),
        "shift": rng.choice([None, None, 0, 1, 2, 7, 14]),
        "sack": rng.random() < 0.8,
    }


def first_call(rng, end):
    """Mostly an end is opened first: the line, and what is answered."""
    if rng.random() >= 0.95:
        return None
    first = rng.choice(["connect", "listen"])
    return first, answer_of(end.connect(PEER) if first == "connect" else end.listen())


def one(rng, note):
    """The lines of one end, and what is told of them."""
    config = config_of(rng) | ({"runs": rng.choice([1, 2, 3, 16, 300])} if rng.random() < 0.4 else {})
    end = End(config, note)
    shift = "none" if config["shift"] is None else config["shift"]
    runs = f" {config['runs']}" if "runs" in config else ""
    lines = [f"new {config['isn']} {config['mss']} {config['send']} {config['recv']} {shift} {int(config['sack'])}{runs}"]
    told = []
    if first := first_call(rng, end):
        lines.append(first[0])
        told.append(f"{first[1]} {state(end)}")
    for _ in range(rng.choice([15, 60, 150])):
        words, answer = line(rng, end)
        lines.append(words)
        told.append(f"{answer} {state(end)}")
    return lines, told


def main():
    if not os.path.exists(PROGRAM):
        sys.exit("build the program first: cd crates/test_one_end && rt run < stdin")
    count = int(sys.argv[1]) if len(sys.argv) > 1 else 100
    seen = collections.Counter()
    for seed in range(0, count, BATCH):
        lines, told = [], []
        for k in range(seed, min(seed + BATCH, count)):
            more, wanted = one(random.Random(k), lambda name: seen.update([name]))
            lines += more
            told += [None] + wanted
        ran = subprocess.run([PROGRAM], input="\n".join(lines) + "\n", capture_output=True, text=True)
        found = iter(ran.stdout.split("\n"))
        for words, wanted in zip(lines, told):
            if wanted is not None and (got := next(found, "nothing")) != wanted:
                sys.exit(f"from seed {seed}, at {words}\nfound  {got}\nwanted {wanted}")
    print(f"{count} ends, no difference; how often each phase, ending and rare rule came:")
    print(", ".join(f"{name} {times}" for name, times in sorted(seen.items())))


if __name__ == "__main__":
    main()
