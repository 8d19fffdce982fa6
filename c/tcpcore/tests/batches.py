"""A batch is the single calls in their order: of two pairs of ends with the same traffic one makes the single calls by ctypes, and the other the
calls of batches; answers, segments, bytes and states are the same. So it is without the module _batch, and with it where it was built, which
`batches.py module` insists on. python3 batches.py [module]"""

import os
import random
import sys

sys.path.insert(0, os.path.dirname(os.path.dirname(os.path.realpath(__file__))))
import tcpcore  # noqa: E402
from tcpcore import Answer, Config, End, Refused  # noqa: E402

A, B = bytes([10, 0, 0, 1]), bytes([10, 0, 0, 2])
ADDRS = (A, B)
KINDS = (bytes, bytearray, memoryview)
checks = 0


def check(found, wanted):
    global checks
    checks += 1
    if found != wanted:
        sys.exit(f"batches.py: check {checks}: {found!r}, not {wanted!r}")


def raised(kind, call, *args):
    """The text of the fault of this kind that the call raises."""
    try:
        call(*args)
    except kind as fault:
        return str(fault)
    return "nothing"


def told_by(call, *args):
    """What the call tells, or is refused by."""
    try:
        return call(*args)
    except Refused as refused:
        return refused.answer


def made(addr, module):
    """An end that uses this module, or none."""
    end = End(Config(addr, 7, isn=1, mss=1000, send_capacity=5000, recv_capacity=5000), room=4096)
    end.batch = module
    return end


def pair(module):
    """Two ends that are open."""
    ends = [made(addr, module) for addr in ADDRS]
    ends[1].listen()
    ends[0].connect(B, 7)
    for i in (0, 1, 0):
        to, segment = ends[i].emit()
        check(ends[1 - i].arrive(ADDRS[i], to, segment), Answer.DONE)
    return ends


def emit_each(end):
    """`emit_all` by single calls."""
    out = []
    while (found := end.emit()) is not None:
        out.append(found)
    return out


def turn_each(end, src, dst, segments):
    """`turn` by single calls."""
    answers, out = [], []
    for segment in segments:
        answer, at_once = end.arrive_with_at_once(src, dst, segment)
        answers.append(answer)
        if at_once:
            out += emit_each(end)
    return answers, out + emit_each(end)


def spoiled(source, out):
    """What the wire makes of segments: it loses, doubles and breaks some, and changes their order."""
    found = []
    for _, segment in out:
        what = source.randrange(12)
        if what == 0:
            continue
        if what == 2:
            broken = bytearray(segment)
            broken[source.randrange(len(broken))] ^= 1 << source.randrange(8)
            found.append(bytes(broken[: source.randrange(len(broken) + 1)]))
        found += [segment] * (2 if what == 1 else 1)
    if source.randrange(4) == 0:
        source.shuffle(found)
    return found


def step(source, each, once, i, waiting, counts):
    """One call of both, which has to tell the same."""
    what = source.randrange(10)
    if what < 2:
        text = source.randbytes(source.randrange(5000))
        check(told_by(once.send, source.choice(KINDS)(text)), told_by(each.send, text))
    elif what < 4:
        check(told_by(once.receive), told_by(each.receive))
    elif what == 4:
        timer = source.randrange(2)
        check(once.timer(timer), each.timer(timer))
    else:
        src, dst, segments = ADDRS[1 - i], ADDRS[i], waiting[i]
        waiting[i] = []
        kind = source.choice(KINDS)
        given = [kind(segment) for segment in segments]
        out = []
        if what < 6:
            told = [each.arrive_with_at_once(src, dst, segment) for segment in segments]
            check(once.arrive_all(src, dst, iter(given)), told)
            answers = [answer for answer, _ in told]
        elif what < 7:
            waiting[i], answers, out = segments, [], emit_each(each)
            check(once.emit_all(), out)
        else:
            answers, out = turn_each(each, src, dst, segments)
            check(once.turn(src, dst, given), (answers, out))
        for answer in answers:
            counts[answer] = counts.get(answer, 0) + 1
        waiting[1 - i] += spoiled(source, out)
    check((once.status(), once.timers()), (each.status(), each.timers()))


def traffic(module):
    """Two pairs, with random calls."""
    counts = {}
    for seed in range(10):
        source = random.Random(seed)
        each, once, waiting = pair(None), pair(module), [[], []]
        for count in range(400):
            i = source.randrange(2)
            if count == 380:
                check(told_by(once[i].close), told_by(each[i].close))
            step(source, each[i], once[i], i, waiting, counts)
    # The traffic was such that something could differ.
    for answer, least in ((Answer.DONE, 500), (Answer.DROPPED, 50), (Answer.BAD_CHECKSUM, 20), (Answer.TOO_SHORT, 5)):
        check((answer, counts.get(answer, 0) >= least), (answer, True))


def singles(module):
    """The single calls that go by the module are those of ctypes, and what they tell has the same types."""
    for end in (pair(None), pair(module)):
        check((end[0].emit(), end[0].emit_all(), end[1].receive(), end[0].send(b"hello")), (None, [], None, 5))
        to, segment = end[0].emit()
        check(type(end[1].arrive(A, "10.0.0.2", bytearray(segment))), Answer)
        check((end[1].arrive_with_at_once("10.0.0.1", to, memoryview(segment)), end[1].receive()), ((Answer.DROPPED, True), b"hello"))
        check(end[1].arrive(A, B, b"x").text, "a segment of fewer than 20 bytes")
        check((end[1].arrive(B, A, segment), end[1].arrive(B, B, segment)), (Answer.NOT_MINE, Answer.BAD_CHECKSUM))
        end[0].close()
        check((end[1].turn(A, B, [end[0].emit()[1]])[0], end[1].receive()), ([Answer.DONE], b""))
    end = made(A, module)
    check((raised(Refused, end.send, b"x"), raised(Refused, end.receive)), ("not open yet", "not open yet"))


def faults(module):
    """What is no address and no segment is found before any segment arrives; a freed end is refused."""
    a, b = pair(module)
    a.send(bytes(2500))
    segments = [segment for _, segment in a.emit_all()]
    check(len(segments), 3)
    before = b.status()
    for call in (b.arrive_all, b.turn):
        check(raised(ValueError, call, b"123", B, []), "an IPv4 address has 4 bytes, not 3")
        check(raised(ValueError, call, A, b"12345", segments), "an IPv4 address has 4 bytes, not 5")
        check(raised(TypeError, call, A, B, [*segments, "text"]) != "nothing", True)
        check(raised(TypeError, call, A, B, segments[0]) != "nothing", True)
        check(raised(TypeError, call, A, B, 7) != "nothing", True)
    check(b.status(), before)
    check(b.arrive_all(A, B, segments), [(Answer.DONE, False)] * 3)
    check(len(b.emit_all()), 1)
    b.free()
    for call in (b.emit, b.emit_all, b.receive):
        check(raised(Refused, call), "no end is in the struct")
    check(raised(Refused, b.send, b"x"), "no end is in the struct")
    for call in (b.arrive, b.arrive_with_at_once):
        check(raised(Refused, call, A, B, segments[0]), "no end is in the struct")
    for call in (b.arrive_all, b.turn):
        check(raised(Refused, call, A, B, segments), "no end is in the struct")
        check(raised(TypeError, call, A, B) != "nothing", True)


def main():
    built = tcpcore.batches()
    if sys.argv[1:] == ["module"] and not built:
        sys.exit("batches.py: the module _batch isn't there")
    for module in (None, tcpcore.batch) if built else (None,):
        before = checks
        for test in (traffic, singles, faults):
            test(module)
        print(f"batches.py: {checks - before} checks {'without' if module is None else 'with'} the module")


if __name__ == "__main__":
    main()
