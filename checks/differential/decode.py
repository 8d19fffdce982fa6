"""Compares `tcpkit decode` with a second decoder on random lists of segments: python3 checks/differential/decode.py [COUNT]"""

import random
import struct

from program import compare, hexadecimal, with_checksum, word_sum

BITS = ["CWR", "ECE", "URG", "ACK", "PSH", "RST", "SYN", "FIN"]


def random_option(rng):
    kind = rng.randrange(8)
    if kind == 0:
        return b"\2\4" + rng.randbytes(2)
    if kind == 1:
        return b"\3\3" + rng.randbytes(1)
    if kind == 2:
        return b"\4\2"
    if kind == 3:
        blocks = rng.randrange(1, 5)
        return bytes([5, 8 * blocks + 2]) + rng.randbytes(8 * blocks)
    if kind == 4:
        body = rng.randbytes(rng.randrange(9))
        return bytes([rng.randrange(2, 256), len(body) + 2]) + body
    if kind == 5:
        return rng.randbytes(rng.randrange(1, 4))
    return b"\1"


def random_area(rng):
    area = b"".join(random_option(rng) for _ in range(rng.randrange(6)))[:40]
    while len(area) % 4:
        area += rng.choice([b"\0", b"\0", b"\0", b"\1"])
    if len(area) <= 36 and rng.random() < 0.3:
        area += bytes(4)
    return area


def random_segment(rng, src, dst):
    area = random_area(rng)
    offset = rng.randrange(16) if rng.random() < 0.05 else 5 + len(area) // 4
    reserved = rng.choice([0, 0, rng.randrange(16)])
    head = rng.randbytes(12) + bytes([offset << 4 | reserved]) + rng.randbytes(3) + bytes(2) + rng.randbytes(2)
    text = rng.randbytes(rng.choice([0, 0, 1, 2, 3, 10, 31]))
    segment = bytearray(with_checksum(src, dst, head + area + text))
    if rng.random() < 0.06:
        segment[rng.randrange(len(segment))] ^= rng.randrange(1, 256)
    if rng.random() < 0.04:
        del segment[rng.randrange(len(segment) + 1) :]
    return bytes(segment)


def option_text(kind, body):
    if (kind, len(body)) == (2, 2):
        return f"mss:{struct.unpack('>H', body)[0]}"
    if (kind, len(body)) == (3, 1):
        return f"ws:{body[0]}"
    if (kind, len(body)) == (4, 0):
        return "sackok"
    if kind == 5 and len(body) in (8, 16, 24, 32):
        return "sack:" + "+".join(f"{left}-{right}" for left, right in struct.iter_unpack(">II", body))
    return f"kind{kind}:{hexadecimal(body)}"


def meaning(src, dst, segment):
    """What is written of a segment (RFC 9293, 3.1; RFC 7323, 2; RFC 2018, 2 and 3)."""
    if len(segment) < 20:
        return "malformed 1 TooShort"
    if word_sum(src, dst, segment) % 65535:
        return "malformed 3 BadChecksum"
    end = 4 * (segment[12] >> 4)
    if not 20 <= end <= len(segment):
        return "malformed 4 BadOffset"
    options, pad, at = [], 0, 20
    while at < end and segment[at] != 0:
        if segment[at] == 1:
            options.append("nop")
            at += 1
            continue
        length = segment[at + 1] if at + 1 < end else 0
        if length < 2 or at + length > end:
            return f"malformed 5 BadOption at {at}"
        options.append(option_text(segment[at], segment[at + 2 : at + length]))
        at += length
    pad = end - at
    for place in range(at, end):
        if segment[place]:
            return f"malformed 6 BadPadding at {place}"
    src_port, dst_port, seq, ack = struct.unpack(">HHII", segment[:12])
    window, _, urgent = struct.unpack(">HHH", segment[14:20])
    flags = ",".join(name for bit, name in enumerate(BITS) if segment[13] << bit & 128) or "-"
    return (
        f"{src_port} > {dst_port} seq {seq} ack {ack} reserved {segment[12] & 15} flags {flags} window {window} "
        f"urgent {urgent} options {','.join(options) or '-'} pad {pad} text {hexadecimal(segment[end:])}"
    )


def case(seed):
    rng = random.Random(seed)
    lines, wanted, malformed = [], [], 0
    for number in range(1, 1001):
        if rng.random() < 0.02:
            lines.append(rng.choice(["", "# a comment"]))
            continue
        src, dst = rng.randbytes(4), rng.randbytes(4)
        segment = random_segment(rng, src, dst)
        digits = rng.choice([str.upper, str.lower])(hexadecimal(segment))
        lines.append(f"{'.'.join(map(str, src))} {'.'.join(map(str, dst))} {digits}")
        told = meaning(src, dst, segment)
        wanted.append(f"{number} {told}\n")
        malformed += told.startswith("malformed")
    total = f"total {len(wanted)} malformed {malformed}\n"
    return "\n".join(lines), "".join(wanted) + total, int(malformed > 0)


if __name__ == "__main__":
    compare("decode", case)
