"""Writes the stored run of `crates/test_one_end`: rows on one end, with what the second program tells of them.

python3 checks/differential/rows.py writes crates/test_one_end/stdin and stdout. Each row is named by a comment in stdin. Every phase is
met with every kind of segment; behind these stand rows for single rules.
"""

import struct

from end import ACK, FIN, PSH, RST, SPACE, SYN, End, Segment
from program import TOP, hexadecimal, with_checksum

OWN, PEER = (bytes([10, 0, 0, 2]), 2), (bytes([10, 0, 0, 1]), 1)
ISN, PEER_ISN = 5000, 1000
NOP, SACK_OK = b"\x01", b"\x04\x02"


def mss(size):
    return bytes([2, 4]) + struct.pack(">H", size)


def scale(shift):
    return NOP + bytes([3, 3, shift])


def sack(*blocks):
    return NOP + NOP + bytes([5, 2 + 8 * len(blocks)]) + b"".join(struct.pack(">II", *block) for block in blocks)


BOTH = mss(1460) + NOP + NOP + SACK_OK


class Row:
    """Lines for one end, and what the second program tells of them."""

    def __init__(self, name, isn=ISN, own_mss=1460, send=65536, recv=65536, shift=None, sack=True, runs=None):
        config = {"addr": OWN[0], "port": OWN[1], "isn": isn, "mss": own_mss, "send": send, "recv": recv, "shift": shift, "sack": sack}
        config |= {} if runs is None else {"runs": runs}
        self.end = End(config)
        settings = f"{isn} {own_mss} {send} {recv} {'none' if shift is None else shift} {int(sack)}" + ("" if runs is None else f" {runs}")
        self.lines, self.told = [f"# {name}", f"new {settings}"], []
        self.own, self.peer = (isn + 1) % SPACE, PEER_ISN + 1

    def say(self, line, answer):
        end = self.end
        state = f"{end.phase} {end.ending} unread {len(end.unread)} released {end.released} ordered {end.ordered}"
        self.lines.append(line)
        self.told.append(f"{answer} {state}")
        return self

    def call(self, name):
        refusal = self.end.connect(PEER) if name == "connect" else getattr(self.end, name)()
        return self.say(name, "ok" if refusal is None else f"refused {refusal}")

    def send(self, text):
        took = self.end.send(text)
        return self.say(f"send {hexadecimal(text)}", f"refused {took[0]}" if isinstance(took, tuple) else f"took {took}")

    def receive(self, room):
        got = self.end.receive(room)
        told = got if isinstance(got, str) else f"refused {got[0]}" if isinstance(got, tuple) else f"bytes {hexadecimal(got)}"
        return self.say(f"receive {room}", told)

    def timer(self, which):
        return self.say(f"timer {which}", "true" if self.end.timer(which) else "false")

    def timers(self):
        rules = [self.end.timer_rule(which) is not None for which in ("retransmit", "reorder", "timewait")]
        return self.say("timers", " ".join("true" if rule else "false" for rule in rules))

    def emit(self, times=1):
        for _ in range(times):
            sent = self.end.emit()
            told = "none" if sent is None else f"{'.'.join(map(str, sent[0]))} {Segment(sent[1]).told()}"
            self.say("emit", told)
        return self

    def emit_acknowledgement(self):
        sent = self.end.emit_acknowledgement()
        told = "none" if sent is None else f"{'.'.join(map(str, sent[0]))} {Segment(sent[1]).told()}"
        return self.say("emit-acknowledgement", told)

    def resend_first(self):
        return self.say("resend-first", "true" if self.end.resend_first() else "false")

    def resend(self, first, last):
        return self.say(f"resend {first} {last}", "true" if self.end.resend(first, last) else "false")

    def emit_bytes(self, area=None, whole=None):
        """An emission told by its bytes, whose options, or which itself, are to be these (hexadecimal)."""
        addr, data = self.end.emit()
        if area is not None:
            assert data[20 : 4 * (data[12] >> 4)].hex() == area, (self.lines[0], data.hex())
        if whole is not None:
            assert data.hex() == whole, (self.lines[0], data.hex())
        return self.say("emit bytes", f"{'.'.join(map(str, addr))} {hexadecimal(data)}")

    def is_told(self, wanted):
        """What the rules say of the last line, as a check of the second program too."""
        assert self.told[-1].startswith(wanted), (self.lines[0], self.lines[-1], self.told[-1], wanted)
        return self

    def arrive_bytes(self, data, src=PEER, dst=OWN):
        data = bytes.fromhex(data)
        answer = self.end.arrive(src[0], dst[0], data)
        return self.say(f"arrive {'.'.join(map(str, src[0]))} {'.'.join(map(str, dst[0]))} {hexadecimal(data)}", answer)

    def arrive(self, flags, seq=0, ack=0, window=65535, options=b"", text=b"", src=PEER, dst=OWN):
        """A segment; `seq` and `ack` count from the byte behind each SYN."""
        options += bytes(-len(options) % 4)
        numbers = (self.peer + seq) % SPACE, (self.own + ack) % SPACE
        header = struct.pack(">HHIIBBHHH", src[1], dst[1], *numbers, (5 + len(options) // 4) << 4, flags, window, 0, 0)
        data = with_checksum(src[0], dst[0], header + options + text)
        answer = self.end.arrive(src[0], dst[0], data)
        return self.say(f"arrive {'.'.join(map(str, src[0]))} {'.'.join(map(str, dst[0]))} {hexadecimal(data)}", answer)

    def opened(self, options=BOTH, window=65535, first_window=65535):
        """Behind the handshake of a listening end."""
        self.call("listen").arrive(SYN, seq=-1, window=first_window, options=options).emit()
        return self.arrive(ACK, window=window)


# How each phase is reached, with three bytes of either side behind it where text can go.
def listen(row):
    return row.call("listen")


def syn_sent(row):
    return row.call("connect").emit()


def syn_received(row):
    return row.call("listen").arrive(SYN, seq=-1, options=BOTH).emit()


def established(row):
    return row.opened().send(b"abc").emit()


def fin_wait_1(row):
    return established(row).call("close").emit()


def fin_wait_2(row):
    return fin_wait_1(row).arrive(ACK, ack=4)


def close_wait(row):
    return established(row).arrive(ACK | FIN, ack=0)


def closing(row):
    return fin_wait_1(row).arrive(ACK | FIN, ack=3)


def last_ack(row):
    return close_wait(row).call("close").emit()


def time_wait(row):
    return closing(row).arrive(ACK, seq=1, ack=4)


def closed(row):
    return row


def ended(row):
    return time_wait(row).timer("timewait")


PHASES = {
    "CLOSED": closed, "LISTEN": listen, "SYN-SENT": syn_sent, "SYN-RECEIVED": syn_received, "ESTABLISHED": established,
    "FIN-WAIT-1": fin_wait_1, "FIN-WAIT-2": fin_wait_2, "CLOSE-WAIT": close_wait, "CLOSING": closing, "LAST-ACK": last_ack,
    "TIME-WAIT": time_wait, "CLOSED behind an orderly end": ended,
}
# The peer's next number, counted from the byte behind its SYN.
NEXT = {"CLOSE-WAIT": 1, "CLOSING": 1, "LAST-ACK": 1, "TIME-WAIT": 1, "CLOSED behind an orderly end": 1}


def segments(phase):
    n = NEXT.get(phase, 0)
    return {
        "RST at RCV.NXT": dict(flags=RST, seq=n),
        "RST with the own SYN's acknowledgement": dict(flags=RST | ACK, seq=n),
        "RST elsewhere in the window": dict(flags=RST, seq=n + 5),
        "RST outside the window": dict(flags=RST, seq=n + 70000),
        "a SYN": dict(flags=SYN, seq=n - 1, options=BOTH),
        "a SYN in the window": dict(flags=SYN, seq=n + 3),
        "a SYN with the right acknowledgement": dict(flags=SYN | ACK, seq=n - 1, options=BOTH),
        "a SYN with another acknowledgement": dict(flags=SYN | ACK, seq=n - 1, ack=7),
        "no ACK": dict(flags=PSH, seq=n, text=b"xyz"),
        "an acknowledgement of what wasn't sent": dict(flags=ACK, seq=n, ack=9),
        "an old acknowledgement, whose window isn't taken": dict(flags=ACK, seq=n, ack=-1, window=0),
        "an acknowledgement of one byte": dict(flags=ACK, seq=n, ack=1),
        "an acknowledgement of all that was sent": dict(flags=ACK, seq=n, ack=3),
        "an acknowledgement of all and of a FIN": dict(flags=ACK, seq=n, ack=4),
        "an unacceptable segment behind the window": dict(flags=ACK, seq=n + 65536),
        "the window's last number": dict(flags=ACK, seq=n + 65535),
        "an unacceptable segment before the window": dict(flags=ACK, seq=n - 1),
        "text that ends at RCV.NXT": dict(flags=ACK, seq=n - 3, text=b"old"),
        "text that reaches past RCV.NXT": dict(flags=ACK, seq=n - 3, text=b"oldn"),
        "text": dict(flags=ACK, seq=n, text=b"xyz"),
        "text that came early": dict(flags=ACK, seq=n + 2, text=b"xyz"),
        "a FIN": dict(flags=ACK | FIN, seq=n),
        "a FIN behind text": dict(flags=ACK | FIN, seq=n, text=b"xyz"),
        "a FIN before its turn": dict(flags=ACK | FIN, seq=n + 2),
        "a FIN with an acknowledgement of all": dict(flags=ACK | FIN, seq=n, ack=4),
        "another port": dict(flags=ACK, seq=n, src=(PEER[0], 3)),
        "another address": dict(flags=ACK, seq=n, src=(bytes([10, 0, 0, 9]), 1)),
        "another destination": dict(flags=ACK, seq=n, dst=(OWN[0], 3)),
    }


def option_rows():
    """The options of each kind of segment, as bytes (RFC 9293, 3.2; RFC 7323, 2.2; RFC 2018, 2 and 3)."""
    size, shift, permitted = "020405b4", "01030305", "01010402"
    for own_shift, sack_on, area in (
        (None, False, size), (5, False, size + shift), (None, True, size + permitted), (5, True, size + shift + permitted),
    ):
        name = f"the options of a SYN: shift {own_shift}, selective acknowledgement {'on' if sack_on else 'off'}"
        yield Row(name, shift=own_shift, sack=sack_on).call("connect").emit_bytes(area)
    offers = {
        "all": (mss(1460) + scale(7) + NOP + NOP + SACK_OK, size + shift + permitted), "none": (b"", size), "an MSS alone": (mss(1460), size),
        "a scale alone": (scale(7), size + shift), "a permission alone": (NOP + NOP + SACK_OK, size + permitted),
    }
    for offered, (options, area) in offers.items():
        r = Row(f"the options of a SYN,ACK where the peer offered {offered}", shift=5).call("listen")
        yield r.arrive(SYN, seq=-1, options=options).emit_bytes(area)
    r = Row("the options of a SYN,ACK where the peer offered all, and the end none", sack=False).call("listen")
    yield r.arrive(SYN, seq=-1, options=offers["all"][0]).emit_bytes(size)
    r = Row("a shift above 14 is used as 14, and the own one is told", shift=5, send=70000, recv=1048576).call("listen")
    r.arrive(SYN, seq=-1, window=512, options=mss(1460) + scale(15)).emit_bytes(size + shift).arrive(ACK, window=4, text=b"A")
    yield r.emit().is_told("10.0.0.1 flags ACK seq 5001 ack 1002 window 32767 text 0")
    r = Row("a window that is scaled by 14 holds 65536 bytes", shift=5, send=70000, recv=1048576).call("listen")
    r.arrive(SYN, seq=-1, window=512, options=mss(1460) + scale(15)).emit_bytes(size + shift).arrive(ACK, window=4)
    r.send(b"a" * 70000)
    for _ in range(44):
        r.emit().is_told("10.0.0.1 flags ACK seq")
        assert " text 1460 " in r.told[-1]
    yield r.emit()
    assert " text 1296 " in r.told[-1]
    r = Row("a window that isn't scaled", shift=5, send=70000, recv=1048576).call("listen")
    r.arrive(SYN, seq=-1, window=512, options=mss(1460)).emit_bytes(size).arrive(ACK, window=4, text=b"A")
    r.emit().is_told("10.0.0.1 flags ACK seq 5001 ack 1002 window 65535 text 0").send(b"a" * 70000)
    yield r.emit().is_told("10.0.0.1 flags ACK seq 5001 ack 1002 window 65535 text 4").emit().is_told("none")
    r = Row("a handshake and a text by their bytes").call("listen")
    r.arrive_bytes("00010002000003e8000000007002ffff6b320000020405b401010402").is_told("processed SYN-RECEIVED")
    r.emit_bytes(whole="0002000100001388000003e97012ffff57990000020405b401010402")
    yield r.arrive_bytes("00010002000003e9000013895018ffffbfef0000616263").is_told("processed ESTABLISHED").receive(9).is_told("bytes 616263")
    r = Row("blocks by their bytes, the newest first").opened().arrive(ACK, seq=2, text=b"x").arrive(ACK, seq=5, text=b"yz")
    yield r.emit_bytes("01010512" + "000003ee" + "000003f0" + "000003eb" + "000003ec")


def hostile_rows():
    """Segments of a peer that keeps no rule, behind a handshake that tells a window of 100 bytes."""
    def behind(name):
        return Row(name).opened(window=100)

    r = behind("hostile: an acknowledgement of more than was sent").send(b"abcdef").is_told("took 6").emit()
    r.is_told("10.0.0.1 flags ACK,PSH seq 5001 ack 1001 window 65535 text 6").arrive(ACK, ack=9, window=100).is_told("dropped")
    yield r.emit().is_told("10.0.0.1 flags ACK seq 5007 ack 1001")
    r = behind("hostile: a block past what was sent, and one taken back by a timeout").send(b"abcdef").emit()
    r.arrive(ACK, window=100, options=sack((5003, 5009))).is_told("processed").timer("reorder").is_told("false")
    r.arrive(ACK, window=100, options=sack((5003, 5005))).is_told("processed").timer("reorder").is_told("true")
    r.emit().is_told("10.0.0.1 flags ACK seq 5001 ack 1001 window 65535 text 2").emit().is_told("none").timer("retransmit").is_told("true")
    yield r.emit().is_told("10.0.0.1 flags ACK,PSH seq 5001 ack 1001 window 65535 text 6")
    assert all("released 0" in told for told in r.told)
    r = behind("hostile: a FIN before the text in front of it").arrive(ACK | FIN, seq=3, window=100).is_told("processed ESTABLISHED")
    r.emit().is_told("10.0.0.1 flags ACK seq 5001 ack 1001").arrive(ACK, text=b"abc", window=100).is_told("processed ESTABLISHED")
    yield r.receive(10).is_told("bytes 616263").receive(10).is_told("nothing").emit().is_told("10.0.0.1 flags ACK seq 5001 ack 1004")
    r = behind("hostile: another value for a byte that is held").arrive(ACK, seq=2, text=b"X", window=100).is_told("processed")
    yield r.arrive(ACK, text=b"abcd", window=100).is_told("processed").receive(10).is_told("bytes 61625864")
    r = behind("hostile: a reset inside the window, and one at RCV.NXT").arrive(RST | ACK, seq=1, window=100).is_told("dropped")
    r.emit().is_told("10.0.0.1 flags ACK seq 5001 ack 1001").arrive(RST | ACK, window=100).is_told("processed CLOSED reset")
    yield r.receive(1).is_told("refused 14")
    r = behind("hostile: another port, and the first SYN again").arrive(ACK, window=100, src=(PEER[0], 3)).is_told("not-mine")
    yield r.arrive(SYN, seq=-1, options=BOTH).is_told("dropped").emit().is_told("10.0.0.1 flags ACK seq 5001 ack 1001")


def rows():
    for phase, reach in PHASES.items():
        for name in ("connect", "listen", "close", "abort", "acknowledge"):
            yield reach(Row(f"{phase}: {name}")).call(name).emit(2)
        yield reach(Row(f"{phase}: send, receive and the timers")).send(b"de").receive(10).timers().timer("retransmit").emit(3).timer("reorder").timer("timewait").emit()
        for name, segment in segments(phase).items():
            yield reach(Row(f"{phase}: {name}")).arrive(**segment).emit(2).receive(10)
    yield from pacing_rows()
    yield from single_rows()
    yield from option_rows()
    yield from hostile_rows()


def pacing_rows():
    """An acknowledgement alone, and the first segment alone again."""
    for phase, reach in PHASES.items():
        yield reach(Row(f"{phase}: an acknowledgement alone")).emit_acknowledgement().call("acknowledge").emit_acknowledgement().emit_acknowledgement().emit(2)
        yield reach(Row(f"{phase}: the first segment alone again")).resend_first().emit(2).timers()
    r = Row("an acknowledgement alone comes before what goes out again, and takes nothing of it", own_mss=64).opened().send(b"a" * 150).emit(3)
    r.timer("retransmit").arrive(ACK, text=b"x").emit_acknowledgement().is_told("10.0.0.1 flags ACK seq 5151 ack 1002 window 65535 text 0")
    yield r.emit_acknowledgement().is_told("none").emit().is_told("10.0.0.1 flags ACK seq 5001 ack 1002 window 65535 text 64").emit(3)
    r = Row("an acknowledgement alone reports blocks").opened().send(b"abc").arrive(ACK, seq=5, text=b"z")
    yield r.emit_acknowledgement().is_told("10.0.0.1 flags ACK seq 5001 ack 1001 window 65535 text 0 sack 1006-1007").emit().is_told("10.0.0.1 flags ACK,PSH seq 5001").emit()
    r = Row("no acknowledgement alone before a reset that waits").opened().arrive(ACK, text=b"x").call("abort").emit_acknowledgement().is_told("none")
    yield r.emit(2)
    r = Row("no acknowledgement alone before a SYN,ACK that is sent again").call("listen").arrive(SYN, seq=-1, options=BOTH).emit_acknowledgement().is_told("none").emit()
    yield r.timer("retransmit").arrive(SYN, seq=-1, options=BOTH).emit_acknowledgement().is_told("none").emit().is_told("10.0.0.1 flags ACK,SYN").emit_acknowledgement()
    r = Row("of three segments the first alone goes out again, and then new text", own_mss=64).opened().send(b"a" * 192).emit(3)
    r.resend_first().is_told("true").send(b"b" * 10).emit().is_told("10.0.0.1 flags ACK seq 5001 ack 1001 window 65535 text 64")
    yield r.emit().is_told("10.0.0.1 flags ACK,PSH seq 5193 ack 1001 window 65535 text 10").emit().is_told("none").timers()
    r = Row("an acknowledgement of a part, and the first segment of the rest again", own_mss=64).opened().send(b"a" * 192).emit(3)
    yield r.resend_first().emit().arrive(ACK, ack=64).resend_first().emit(2).arrive(ACK, ack=192).resend_first().is_told("false").emit()
    r = Row("the first segment again stands in the place of all again", own_mss=64).opened().send(b"a" * 192).emit(3)
    yield r.timer("retransmit").emit(2).resend_first().emit(2).timer("retransmit").emit(4)
    r = Row("the first segment again, of which the peer has a later part", own_mss=64).opened().send(b"a" * 192).emit(3)
    yield r.arrive(ACK, options=sack((5011, 5129))).resend_first().emit(2).timer("reorder").emit(3)
    yield from stretch_rows()
    r = Row("a FIN alone in flight is the first segment").opened().call("close").emit().resend_first().is_told("true")
    yield r.emit().is_told("10.0.0.1 flags ACK,FIN").emit().is_told("none")
    r = Row("nothing in flight, nothing to be sent again").opened(window=0).send(b"abc").resend_first().is_told("false").emit()
    yield r.timer("retransmit").emit().resend_first().is_told("true").emit(2)


def stretch_rows():
    """What lies between two positions again, which count from the SYN: the byte behind it, of the number 5001, is at 1."""
    for phase, reach in PHASES.items():
        yield reach(Row(f"{phase}: a stretch again")).resend(0, 1000000).emit(2).resend(2, 3).emit(2)

    def flight(name):
        return Row(name, own_mss=64).opened().send(b"a" * 192).emit(3)

    r = flight("the second of three segments goes out again, and then new text").resend(65, 129).is_told("true").send(b"b" * 10)
    r.emit().is_told("10.0.0.1 flags ACK seq 5065 ack 1001 window 65535 text 64").emit().is_told("10.0.0.1 flags ACK,PSH seq 5193 ack 1001 window 65535 text 10")
    yield r.emit().is_told("none")
    r = flight("the end of one segment and the begin of the next again, longer than a segment").resend(60, 130).is_told("true")
    r.emit().is_told("10.0.0.1 flags ACK seq 5060 ack 1001 window 65535 text 64").emit().is_told("10.0.0.1 flags ACK seq 5124 ack 1001 window 65535 text 6")
    yield r.emit().is_told("none")
    r = flight("of a stretch what isn't acknowledged, and no more than was sent").arrive(ACK, ack=64).resend(1, 1000).is_told("true").arrive(ACK, ack=128)
    yield r.emit().is_told("10.0.0.1 flags ACK,PSH seq 5129 ack 1001 window 65535 text 64").emit().is_told("none")
    r = flight("a stretch before what is in flight, behind it, and one that ends where it begins").arrive(ACK, ack=64).resend(1, 65).is_told("false")
    yield r.resend(193, 300).is_told("false").resend(100, 100).is_told("false").resend(101, 100).is_told("false").emit().is_told("none")
    r = flight("of a stretch what the peer has stays where it is").arrive(ACK, options=sack((5065, 5129))).resend(33, 193).is_told("true")
    r.emit().is_told("10.0.0.1 flags ACK seq 5033 ack 1001 window 65535 text 32").emit().is_told("10.0.0.1 flags ACK,PSH seq 5129 ack 1001 window 65535 text 64")
    yield r.emit().is_told("none").timer("reorder").emit(2)
    r = flight("a stretch stands in the place of all again").timer("retransmit").emit().resend(129, 193).is_told("true")
    yield r.emit().is_told("10.0.0.1 flags ACK,PSH seq 5129 ack 1001 window 65535 text 64").emit().is_told("none")
    r = flight("the FIN is at the end of a stretch").call("close").emit().resend(190, 194).is_told("true")
    r.emit().is_told("10.0.0.1 flags ACK,PSH seq 5190 ack 1001 window 65535 text 3").emit().is_told("10.0.0.1 flags ACK,FIN seq 5193 ack 1001 window 65535 text 0")
    yield r.emit().is_told("none").resend(193, 194).is_told("true").emit().is_told("10.0.0.1 flags ACK,FIN seq 5193").emit().is_told("none")


def single_rows():
    r = Row("the order of SND.WL1: an older segment tells no window", send=100).opened(window=10)
    yield r.arrive(ACK, text=b"x", window=3).arrive(ACK, window=50).send(b"0123456789").emit(2)
    r = Row("the order of SND.WL2: of one number an older acknowledgement tells no window").opened().send(b"abcdef").emit()
    yield r.arrive(ACK, ack=4, window=2).arrive(ACK, ack=2, window=9).send(b"ghijkl").emit(2)
    r = Row("a resend in pieces, from SND.UNA on", own_mss=64).opened().send(b"a" * 150).emit(4).timer("retransmit").emit()
    yield r.arrive(ACK, ack=100).emit(3)
    yield Row("text without PSH before the queue's last byte", own_mss=64).opened().send(b"a" * 65).emit(3)
    yield Row("the cap of the window field", recv=200000).opened().arrive(ACK, text=b"x").emit()
    yield Row("a shift of 0 is offered and used", shift=0).opened(options=BOTH + scale(3), window=1000).send(b"a" * 9000).emit(7)
    yield Row("without a shift none is used").opened(options=BOTH + scale(3), window=10).send(b"a" * 90).emit(2)
    yield Row("scaling where both offered it", shift=5, send=70000, recv=1048576).opened(options=mss(1460) + scale(15), first_window=512, window=4).arrive(ACK, text=b"A", window=4).emit().send(b"a" * 70000).emit(47)
    yield Row("no scaling where the peer offered none", shift=5, send=70000, recv=1048576).opened(options=mss(1460), first_window=512, window=4).arrive(ACK, text=b"A", window=4).emit().send(b"a" * 70000).emit(2)
    r = Row("a window that has grown from above 0 is told where the user asks for it", recv=10).opened().arrive(ACK, text=b"abcdefg").emit()
    yield r.receive(6).emit().call("acknowledge").emit(2)
    r = Row("a window field that scaling rounds down to 0, with bytes free", recv=40, shift=5).opened(options=BOTH + scale(0))
    yield r.arrive(ACK, text=b"a" * 20).emit().receive(5).emit().receive(10).emit()
    yield Row("an MSS below 64 is used as 64").opened(options=mss(10)).send(b"a" * 65).emit(2)
    yield Row("no MSS is 536").opened(options=b"").send(b"a" * 540).emit(2)
    yield Row("of repeated options the first counts").opened(options=mss(100) + mss(200)).send(b"a" * 150).emit(2)
    yield Row("an option of a known kind and another length counts as absent", shift=2).opened(options=bytes([2, 3, 9, 3, 4, 5, 5, 1]), window=1000).send(b"a" * 600).emit(2)
    r = Row("a SYN,ACK with options, and its window is not scaled", shift=2).call("connect").emit()
    yield r.arrive(SYN | ACK, seq=-1, window=100, options=mss(1460) + scale(2) + NOP + NOP + SACK_OK).emit().send(b"a" * 120).emit(2).arrive(ACK, window=100).emit()
    r = Row("a shut window takes acknowledgement, window and own FIN, not text", recv=3).opened().send(b"ab").emit().call("close").emit().arrive(ACK, text=b"xyz").emit()
    yield r.arrive(ACK | FIN, seq=3, ack=3, text=b"n", window=7).emit().receive(10).emit()
    r = Row("a shut window: a segment with SYN, RST or no ACK", recv=3).opened().arrive(ACK, text=b"xyz").emit()
    yield r.arrive(SYN | ACK, seq=3, text=b"n").emit().arrive(RST, seq=3, text=b"n").emit().arrive(0, seq=3, text=b"n").emit().arrive(RST, seq=3).emit()
    r = Row("a probe that is answered").opened(window=0).send(b"abc").emit().timers().timer("retransmit").timers().emit(2).arrive(ACK, ack=1, window=10)
    yield r.emit(2)
    r = Row("a probe that is lost goes out again").opened(window=0).send(b"abc").timer("retransmit").emit(2).timer("retransmit").emit(2)
    yield r.arrive(ACK, ack=1, window=0).timer("retransmit").emit(2)
    r = Row("a grant that new text clears").opened(window=0).send(b"abc").timer("retransmit").arrive(ACK, window=2).emit(2).arrive(ACK, seq=0, ack=2, window=0).emit()
    yield r
    yield Row("a window that shrinks").opened(window=10).send(b"abcdefghij").emit().arrive(ACK, ack=2, window=3).send(b"klm").emit().arrive(ACK, ack=10, window=3).emit()
    yield from block_rows()
    yield Row("a FIN past a shut window").opened(window=0).call("close").emit(2).arrive(ACK, ack=1)
    yield Row("a second reset isn't recorded").arrive(ACK, ack=5).arrive(ACK, ack=9).emit(2)
    yield Row("an abort's reset takes the place of one that waits").call("listen").arrive(ACK, ack=5).arrive(SYN, seq=-1, options=BOTH).call("abort").emit(2)
    yield Row("a stray segment without ACK is answered by what it takes").arrive(SYN | FIN, seq=0, text=b"xyz").emit()
    yield Row("the limits of a window by its last byte", recv=4).opened().arrive(ACK, seq=3, text=b"dX").arrive(ACK, seq=4, text=b"n").arrive(ACK, text=b"abc").receive(9).emit()
    yield Row("numbers that wrap", isn=SPACE - 2).opened().send(b"abcdef").emit().arrive(ACK, ack=4).timer("retransmit").emit()
    yield Row("a close in SYN-RECEIVED acts behind the handshake").call("listen").arrive(SYN, seq=-1, options=BOTH).emit().call("close").arrive(ACK | FIN).emit(2)
    yield Row("a full queue takes none, and an empty text always 0", send=3).opened().send(b"abcd").send(b"e").send(b"").call("close").send(b"")


def runs_marked(runs):
    """One run more than the number is reported; then two of them grow together, and there is room for it."""
    r = Row(f"a run is marked where at most {runs} result", runs=runs).opened().send(b"a" * (2 * runs + 4)).emit()
    for k in range(runs + 1):
        r.arrive(ACK, options=sack((r.own + 2 * k + 1, r.own + 2 * k + 2)))
    r.arrive(ACK, options=sack((r.own + 2, r.own + 3))).arrive(ACK, options=sack((r.own + 2 * runs + 1, r.own + 2 * runs + 2)))
    return r.timer("reorder").emit(4).timer("retransmit").emit(2)


def runs_held(runs):
    """One run more than the number comes early; then two of them grow together, and there is room for it."""
    r = Row(f"a run is held where at most {runs} result", runs=runs).opened()
    for k in range(runs + 1):
        r.arrive(ACK, seq=2 * k + 2, text=b"x")
    r.emit().arrive(ACK, seq=3, text=b"y").arrive(ACK, seq=2 * runs + 2, text=b"z").emit()
    return r.arrive(ACK, seq=1, text=b"w").emit().arrive(ACK, seq=2 * runs + 4, text=b"v").emit().receive(10)


def block_rows():
    def flight(name):
        return Row(name).opened().send(b"0123456789").emit()

    for name, block in {
        "a block at SND.UNA marks nothing": (0, 4), "a block beyond SND.NXT marks nothing": (4, 11), "an empty block marks nothing": (4, 4),
        "a reversed block marks nothing": (6, 4), "a block up to SND.NXT is marked": (8, 10), "a block is passed over by the resend": (4, 6),
    }.items():
        r = flight(name)
        edges = tuple((r.own + edge) % SPACE for edge in block)
        yield r.arrive(ACK, options=sack(edges)).timers().timer("reorder").emit(3).timer("retransmit").emit(2)
    r = flight("a block over the FIN marks its text alone").call("close").emit()
    yield r.arrive(ACK, options=sack((r.own + 8, r.own + 11))).timer("reorder").emit(3).timer("retransmit").emit(3)
    r = Row("a seventeenth marked run is refused").opened().send(b"a" * 40).emit()
    for k in range(17):
        r.arrive(ACK, options=sack((r.own + 2 * k + 1, r.own + 2 * k + 2)))
    yield r.timer("reorder").emit(20)
    for runs in (1, 2, 20):
        yield runs_marked(runs)
        yield runs_held(runs)
    r = Row("four blocks, and options of 36 bytes in a full-sized text", own_mss=100).opened()
    for k in (2, 4, 6, 8, 10):
        r.arrive(ACK, seq=k, text=b"x")
    yield r.emit().send(b"a" * 200).emit(5)
    r = Row("no blocks where the peer permits none").opened(options=mss(1460))
    yield r.arrive(ACK, seq=2, text=b"x").emit().send(b"abcd").emit().arrive(ACK, options=sack((r.own + 1, r.own + 2))).timer("reorder")
    r = flight("blocks of an old acknowledgement aren't taken").arrive(ACK, ack=4)
    yield r.arrive(ACK, ack=2, options=sack((r.own + 6, r.own + 7))).timer("reorder")
    r = flight("marks release nothing")
    yield r.arrive(ACK, options=sack((r.own + 1, r.own + 10))).timer("reorder").emit(2).arrive(ACK, ack=10).emit()


REFUSALS = {
    21: "a capacity is not from 1 to 1048576 bytes",
    23: "the maximum segment size is not from 64 to 1460 bytes",
    24: "the window shift is not from 0 to 14",
}


def config_rows():
    """Settings that an end can be made from, and those that are refused: capacities first, then the MSS, then the shift."""
    for mss_size, send, recv, shift, refusal in (
        (1460, 65536, 65536, None, None), (64, 1, 1, 14, None), (1460, 1048576, 1048576, 0, None),
        (1460, 65536, 0, None, 21), (1460, 65536, 1048577, None, 21), (1460, 0, 65536, None, 21), (1460, 1048577, 65536, None, 21),
        (63, 65536, 65536, None, 23), (1461, 65536, 65536, None, 23), (1460, 65536, 65536, 15, 24),
        (63, 65536, 0, 15, 21), (63, 65536, 65536, 15, 23),
    ):
        name = f"# MSS {mss_size}, capacities {send} and {recv}, shift {shift}: {'taken' if refusal is None else 'refused'}"
        line = f"new 5000 {mss_size} {send} {recv} {'none' if shift is None else shift} 1"
        if refusal is None:
            yield [name, line, "emit"], ["none CLOSED not-ended unread 0 released 0 ordered 0"]
        else:
            yield [name, line], [f"refused {refusal}: {REFUSALS[refusal]}"]


def main():
    lines, told = ["# Rows on one end, made by checks/differential/rows.py: a comment names each."], []
    for asked, answered in config_rows():
        lines += asked
        told += answered
    for row in rows():
        lines += row.lines
        told += row.told
    folder = f"{TOP}/crates/test_one_end"
    with open(f"{folder}/stdin", "w") as file:
        file.write("\n".join(lines) + "\n")
    with open(f"{folder}/stdout", "w") as file:
        file.write("\n".join(told) + "\n")
    print(f"{sum(line.startswith('# ') for line in lines) - 1} rows, {len(told)} lines")


main()
