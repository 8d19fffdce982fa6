"""What tcpcore.py adds to the calls: ranges, buffers of any kind, texts, enums, and ends that aren't copied. python3 calls.py"""

import array
import copy
import ipaddress
import os
import pickle
import sys

sys.path.insert(0, os.path.dirname(os.path.dirname(os.path.realpath(__file__))))
import tcpcore  # noqa: E402
from tcpcore import Answer, Brought, Config, End, Ending, Kind, Lent, Phase, Refused, TimeWait, Rule, ArriveReport, Timer, Train, Transmit  # noqa: E402

A, B = "10.0.0.1", bytes([10, 0, 0, 2])
GOOD = Config(A, 1, 7, 1460, 1000, 1000, None, True)
checks = 0


def check(found, wanted):
    global checks
    checks += 1
    if found != wanted:
        sys.exit(f"calls.py: check {checks}: {found!r}, not {wanted!r}")


def raised(kind, call, *args):
    """The text of the fault of this kind that the call raises."""
    try:
        call(*args)
    except kind as fault:
        return str(fault)
    return "nothing"


def ranges():
    for field, value in (("port", 70000), ("port", -1), ("mss", 1 << 16), ("isn", 1 << 32), ("send_capacity", -1), ("window_shift", 256), ("limit", 1 << 64), ("runs", 1 << 16)):
        check(" isn't from 0 to " in raised(ValueError, End, GOOD._replace(**{field: value})), True)
    check(raised(ValueError, End, GOOD._replace(addr=b"123")), "an IPv4 address has 4 bytes, not 3")
    check("10.0.0" in raised(ValueError, End, GOOD._replace(addr="10.0.0")), True)
    end = End(GOOD)
    check(raised(ValueError, end.connect, B, 65536), "the port is 65536, and isn't from 0 to 65535")
    check(raised(ValueError, end.timer, -1), "the timer is -1, and isn't from 0 to 4294967295")
    check(end.status().phase, Phase.CLOSED)


def memory_of_runs():
    def room(runs):
        return tcpcore.library()["room"](tcpcore.ConfigStruct(send_capacity=1000, recv_capacity=1000, runs=runs))

    check(room(0), room(tcpcore.RUNS))
    # Each run takes 8 bytes of the marks' table, and 16 of the held runs'.
    check([room(runs) - room(2) for runs in (4, 16, tcpcore.MAX_RUNS)], [48, 336, 24 * (tcpcore.MAX_RUNS - 2)])
    check(room(tcpcore.MAX_RUNS + 1), 0)


def refusals():
    check(raised(Refused, End, GOOD._replace(addr="0.0.0.0", mss=1)), "the address is 0.0.0.0")
    check(raised(Refused, End, GOOD._replace(port=0, mss=1)), "the port is 0")
    check(raised(Refused, End, GOOD._replace(mss=1)), "the maximum segment size isn't from 64 to 1,460 bytes")
    check(raised(Refused, End, GOOD._replace(runs=tcpcore.MAX_RUNS + 1)), "the number of runs is above 4,096")
    check(raised(Refused, End(GOOD).send, b"x"), "not open yet")
    try:
        End(GOOD).close()
    except Refused as refused:
        check((refused.answer, refused.args), (Answer.NOT_OPEN, (11,)))
        check((refused.answer.name, refused.answer.text), ("NOT_OPEN", "not open yet"))


def copies():
    end = End(GOOD)
    for call in (copy.copy, copy.deepcopy, pickle.dumps):
        check(raised(TypeError, call, end)[:13], "an end can't ")
    end.listen()
    end.free()
    check(raised(Refused, end.free), "no end is in the struct")


def opened(kind):
    """Two ends that are open: each segment arrives as a buffer of this kind."""
    a, b = End(GOOD), End(GOOD._replace(addr=ipaddress.IPv4Address(B), port=2))
    b.listen()
    a.connect(B, 2)
    for source, target, addr in ((a, b, A), (b, a, B), (a, b, A)):
        to, segment = source.emit()
        check(target.arrive(addr, to, kind(segment)), Answer.DONE)
    return a, b


def buffers():
    for kind in (bytes, bytearray, memoryview, lambda data: memoryview(bytearray(data)), lambda data: array.array("B", data)):
        a, b = opened(kind)
        check(a.send(kind(b"hello")), 5)
        check(a.next(), Transmit(B, Kind.NEW_TEXT, 25, 1, 5))
        told, segment = a.transmit()
        check(told, Transmit(B, Kind.NEW_TEXT, 25, 1, 5))
        check((a.next(), a.transmit()), (None, None))
        taken = ArriveReport(False, Rule.TAKEN, 0, Brought.IN_ORDER, False, True)
        check(b.arrive_with_report(A, told.to, kind(segment)), (Answer.DONE, taken))
        check(b.arrive_with_at_once(A, told.to, kind(segment)), (Answer.DROPPED, True))
        check(b.receive(), b"hello")
        check(b.receive(), None)
        check(tcpcore.stray_reset(A, B, kind(segment))[13], 4)
    check(a.send(memoryview(b"a-b-c-")[::2]), 3)
    check(raised(TypeError, a.send, "text") != "nothing", True)
    check(raised(TypeError, a.send, array.array("H", [1])), "a buffer of bytes is wanted, not of 2 bytes each")
    check(a.arrive(B, A, b"x").text, "a segment of fewer than 20 bytes")


def summed(data):
    """The ones' complement sum (RFC 1071, 1)."""
    words = data + bytes(len(data) % 2)
    total = sum(words[i] << 8 | words[i + 1] for i in range(0, len(words), 2))
    while total >> 16:
        total = (total & 0xFFFF) + (total >> 16)
    return total


def lending():
    """What is lent, and segments that a device sums."""
    a, b = opened(bytes)
    check((b.peek(), b.consume(3)), (None, 0))
    a.send(b"hello")
    to, segment = a.emit()
    unsummed = segment[:16] + bytes(2) + segment[18:]
    check(b.arrive(A, to, unsummed), Answer.BAD_CHECKSUM)
    check(b.arrive_vouched(A, to, bytearray(unsummed)), Answer.DONE)
    check((b.peek(), b.peek()), (Lent(b"hello", False), Lent(b"hello", False)))
    check((b.consume(2), b.receive(), b.peek()), (2, b"llo", None))
    a.send(b"world")
    to, segment = a.emit_partial()
    check(b.arrive(A, to, segment), Answer.BAD_CHECKSUM)
    whole = segment[:16] + (summed(segment) ^ 0xFFFF).to_bytes(2, "big") + segment[18:]
    check(summed(ipaddress.IPv4Address(A).packed + to + bytes([0, 6, 0, len(whole)]) + whole), 0xFFFF)
    check(b.arrive(A, to, whole), Answer.DONE)
    a.close()
    to, segment = a.emit()
    check(b.arrive_vouched_with_report(A, to, segment), (Answer.DONE, ArriveReport(True, Rule.TAKEN, 0, Brought.IN_ORDER, False, True)))
    check((a.emit_partial(), b.peek(), b.consume(9), b.peek()), (None, Lent(b"world", True), 5, Lent(b"", True)))
    check(raised(ValueError, b.consume, -1)[:15], "the count is -1")
    check(raised(Refused, End(GOOD).peek), "not open yet")
    check(raised(Refused, End(GOOD).consume, 1), "not open yet")


def trains():
    """Segments as one, and what a device makes of them."""
    a, b = opened(bytes)
    for end in (a, b):
        end.free()
    a, b = End(GOOD._replace(mss=100)), End(GOOD._replace(addr=B, port=2))
    b.listen()
    a.connect(B, 2)
    check(a.emit_train(9)[0], Train(Transmit(B, Kind.SYN, 28, 0, 0), 28, 0, 1))
    a.timer(Timer.RETRANSMIT)
    for source, target, addr in ((a, b, A), (b, a, B), (a, b, A)):
        to, segment = source.emit()
        check(target.arrive(addr, to, segment), Answer.DONE)
    text = bytes(range(250))
    a.send(text)
    told, whole = a.emit_train(9)
    check(told, Train(Transmit(B, Kind.NEW_TEXT, 270, 1, 250), 20, 100, 3))
    check((whole[20:], whole[13]), (text, 0x18))
    for i in range(told.segments):
        header = bytearray(whole[: told.header])
        header[4:8] = (int.from_bytes(whole[4:8], "big") + i * told.each).to_bytes(4, "big")
        if i + 1 < told.segments:
            header[13] &= ~8
        check(b.arrive_vouched(A, told.whole.to, header + text[i * told.each :][: told.each]), Answer.DONE)
    check((b.receive(), a.emit_train(9)), (text, None))
    check(raised(ValueError, a.emit_train, -1)[:25], "the number of segments is")


def enums():
    a, b = opened(bytes)
    status = a.status()
    check((status.phase is Phase.ESTABLISHED, status.phase == "ESTABLISHED", f"{status.phase}"), (True, True, "ESTABLISHED"))
    check((status.ending is Ending.NOT_ENDED, f"{status.ending}"), (True, "not-ended"))
    check((Timer.REORDER, f"{Timer.TIME_WAIT}", a.timer(Timer.RETRANSMIT)), (1, "2", False))
    a.close()
    b.arrive(A, *a.emit())
    a.arrive(B, *b.emit())
    b.close()
    fin = b.emit()
    a.arrive(B, *fin)
    rest = a.time_wait()
    check(rest.status(), (Phase.TIME_WAIT, Ending.NOT_ENDED))
    for other in (copy.copy(rest), pickle.loads(pickle.dumps(rest)), TimeWait(bytearray(bytes(rest)))):
        check(bytes(other), bytes(rest))
        check((other.arrive(B, *fin), len(other.emit()[1])), (Answer.DROPPED, 20))
    check(raised(ValueError, TimeWait, b"short"), "the record has 48 bytes, not 5")
    check(raised(Refused, TimeWait, bytes(48)), "no TIME-WAIT record is in the struct")


def freed():
    """Behind `free` no call says that nothing is due: each is refused."""
    end = End(GOOD)
    end.listen()
    check((end.emit(), end.next(), end.timer(Timer.RETRANSMIT), end.resend_first(), end.emit_train(1)), (None, None, False, False, None))
    check(raised(Refused, end.timer, 3), "no timer has this number")
    end.free()
    calls = [end.emit, end.emit_partial, end.emit_acknowledgement, end.resend_first, end.transmit, end.next, end.timers, end.pending]
    calls += [end.peer, end.status, end.time_wait, end.listen, end.receive, end.peek, end.acknowledge, end.close, end.abort]
    calls += [lambda: end.timer(Timer.RETRANSMIT), lambda: end.emit_train(1), lambda: end.send(b"x"), lambda: end.consume(1)]
    calls += [lambda call=call: call(B, A, b"x") for call in (end.arrive, end.arrive_with_at_once, end.arrive_with_report, end.arrive_vouched, end.arrive_vouched_with_report)]
    for call in calls:
        check(raised(Refused, call), "no end is in the struct")


def rooms():
    """b"" is the end of the stream alone: an end that could hand over no byte isn't made."""
    check(raised(ValueError, End, GOOD, 0), "the room is 0, and receive would have no byte to hand over")
    a, b = opened(bytes)
    a.send(b"xy")
    b.arrive(A, *a.emit())
    small = End(GOOD._replace(port=3), 1)
    check((small.room, b.receive(), b.receive()), (1, b"xy", None))


def defaults():
    """The SYN has an MSS of 1,460 bytes, permits selective acknowledgement and offers no scaling (RFC 9293, 3.7.1; RFC 2018, 2)."""
    end = End(Config(A, 7, isn=1))
    end.connect(B, 8)
    syn = end.emit()[1]
    check((syn[20:], syn[14:16]), (bytes([2, 4, 5, 180, 1, 1, 4, 2]), b"\xff\xff"))
    check((end.status().room, Config(A, 7, 1).limit), (65535, 2_147_483_632))
    check("isn" in raised(TypeError, Config, A, 7), True)
    capacities = {1: None, 65535: None, 65536: 1, 131071: 1, 131072: 2, 1048575: 4, 1048576: 5}
    check({capacity: tcpcore.least_shift(capacity) for capacity in capacities}, capacities)


def builds():
    found = tcpcore.build()
    check(found.endswith("machine code") or found.startswith("portable C"), True)


def main():
    for test in (ranges, memory_of_runs, refusals, copies, buffers, lending, trains, enums, freed, rooms, defaults, builds):
        test()
    print(f"calls.py: {checks} checks")


if __name__ == "__main__":
    main()
