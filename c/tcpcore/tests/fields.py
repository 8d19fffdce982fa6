"""The test fields.c over ctypes: it prints the same. python3 fields.py"""

import ctypes
import os
import sys

sys.path.insert(0, os.path.dirname(os.path.dirname(os.path.realpath(__file__))))
import tcpcore  # noqa: E402
from tcpcore import (  # noqa: E402
    DONE,
    NOT_TIME_WAIT,
    NOT_CONNECTED,
    NOT_DUE,
    TIME_WAIT,
    Config,
    End,
    Refused,
    TimeWait,
    stray_reset,
    strerror,
)


def dotted(addr):
    return ".".join(map(str, addr))



class Side:
    def __init__(self, name, config):
        self.name, self.config, self.end = name, config, None

    def make(self):
        self.end = End(self.config)

    def tell(self):
        told = self.end.status()
        print(
            f"{self.name}: {told.phase}, {told.ending}, unread {told.unread}, released {told.released}, "
            f"ordered {told.ordered}, una {told.snd_una}, next {told.rcv_position}, timers {self.end.timers()}"
        )

    def tell_more(self):
        told, peer = self.end.status(), self.end.peer()
        known = f"peer {dotted(peer[0])} port {peer[1]}" if peer else strerror(NOT_CONNECTED)
        print(
            f"{self.name}: {known}, room {told.room}, queued {told.queued}, in flight {told.in_flight}, "
            f"due {self.end.pending()}, mss {told.mss}, shifts {told.own_shift} and {told.peer_shift}, "
            f"scaling {told.scaling}, sack {told.sack}, SND.WND {told.snd_wnd}"
        )

    def offer(self, length):
        answer, taken = DONE, 0
        try:
            taken = self.end.send(bytes(length))
        except Refused as refused:
            answer = refused.args[0]
        print(f"{self.name} sends {length}: {strerror(answer)}, {taken}")

    def take(self, room):
        self.end.room = room
        found = self.end.receive()
        print(f"{self.name} reads {room}: {strerror(DONE)}, {len(found)}")


def layout():
    for name in ("end", "addr", "config", "status", "arrive_report", "transmit", "time_wait"):
        struct = getattr(tcpcore, name.title().replace("_", "") + "Struct")
        fields = ((field, getattr(struct, field)) for field, _ in struct._fields_ if not field.startswith("unnamed"))
        told = " ".join(f"{field} {place.offset}+{place.size}" for field, place in fields)
        print(f"tcpcore_{name}: {told} of {ctypes.sizeof(struct)}")


def word(data, at):
    return int.from_bytes(data[at : at + 2], "big")


def options(data):
    """What a SYN's options say: kind 2 is the MSS, 3 the shift, 4 permits SACK, 1 is between them."""
    at, told = 20, ""
    while at < len(data):
        kind = data[at]
        if kind == 2:
            told += f", mss {word(data, at + 2)}"
        elif kind == 3:
            told += f", shift {data[at + 2]}"
        elif kind == 4:
            told += ", sack permitted"
        at += 1 if kind == 1 else data[at + 1]
    return told


def first_syn(side, peer):
    side.make()
    side.end.connect(peer.config.addr, peer.config.port)
    to, out = side.end.emit()
    print(
        f"SYN of {side.name}: to {dotted(to)}, ports {word(out, 0)} and {word(out, 2)}, "
        f"number {word(out, 4) << 16 | word(out, 6)}, window {word(out, 14)}{options(out)}"
    )
    side.end.free()


def carry(source, target):
    print(f"{source.name} > {target.name}:", end="")
    while due := source.end.emit():
        answer = target.end.arrive(source.config.addr, *due)
        told = "" if answer == DONE else f", {strerror(answer)}"
        print(f" {len(due[1])} bytes, window {word(due[1], 14)}{told};", end="")
    print()


def shake_hands(a, b):
    a.make()
    b.make()
    a.tell()
    b.end.listen()
    b.tell()
    a.end.connect(b.config.addr, b.config.port)
    a.tell()
    carry(a, b)
    b.tell()
    carry(b, a)
    carry(a, b)


def transfer(a, b):
    a.offer(4000)
    carry(a, b)
    b.take(500)
    a.tell()
    b.tell()
    carry(b, a)
    a.offer(1000)
    a.offer(1)
    carry(a, b)
    b.offer(1000)
    carry(b, a)
    a.take(250)
    carry(a, b)
    a.tell()
    b.tell()
    b.offer(200)
    b.offer(1)
    carry(b, a)
    carry(a, b)


def close_both(a, b):
    a.end.close()
    a.tell()
    carry(a, b)
    b.tell()
    carry(b, a)
    a.tell()
    b.end.close()
    b.tell()
    carry(b, a)
    a.tell()
    carry(a, b)
    b.tell()
    a.end.timer(TIME_WAIT)
    a.tell()


def hand(source, target, segment):
    answer, at_once = target.end.arrive_with_at_once(source.config.addr, *segment)
    print(f"{target.name} takes {len(segment[1])} bytes: {strerror(answer)}, {'at once' if at_once else 'may wait'}")


def agree(a, b):
    a.make()
    b.make()
    a.tell_more()
    b.end.listen()
    b.tell_more()
    a.end.connect(b.config.addr, b.config.port)
    a.tell_more()
    hand(a, b, a.end.emit())
    b.tell_more()
    hand(b, a, b.end.emit())
    a.tell_more()
    carry(a, b)
    a.offer(3000)
    first, second, third = a.end.emit(), a.end.emit(), a.end.emit()
    a.tell_more()
    for segment in (first, third, second, second):
        hand(a, b, segment)
    b.tell_more()
    carry(b, a)
    a.tell_more()
    b.take(100)
    b.tell_more()
    b.end.acknowledge()
    carry(b, a)
    a.end.close()
    hand(a, b, a.end.emit())


def stray(a, b):
    a.make()
    a.end.connect(b.config.addr, b.config.port)
    dst, syn = a.end.emit()
    out = stray_reset(a.config.addr, dst, syn)
    print(
        f"stray SYN: {strerror(DONE)}, {len(out)} bytes, ports {word(out, 0)} and {word(out, 2)}, "
        f"number {word(out, 4) << 16 | word(out, 6)}, acknowledges {word(out, 8) << 16 | word(out, 10)}, flags {out[13]}"
    )
    again = stray_reset(b.config.addr, a.config.addr, out)
    print(f"stray reset: {strerror(NOT_DUE if again is None else DONE)}, {len(again or b'')} bytes")
    a.end.arrive(b.config.addr, a.config.addr, out)
    a.tell()
    a.tell_more()
    a.end.free()


def free_both(a, b):
    a.end.free()
    b.end.free()


def bring(source, target):
    while due := source.end.emit():
        target.end.arrive(source.config.addr, *due)


def report_record(record):
    (phase, ending), told = record.status(), record.struct
    reset = ""
    if told.reset:
        to = f"{dotted(told.reset_addr.byte)} port {told.reset_port}"
        reset = f" to {to}, seq {told.reset_seq}, ack {told.reset_ack}"
    print(
        f"record: {phase}, {ending}, due {record.pending()}: own {dotted(told.addr.byte)} port {told.port}, "
        f"peer {dotted(told.peer_addr.byte)} port {told.peer_port}, seq {told.snd_nxt}, next {told.rcv_nxt}, "
        f"window {told.rcv_wnd}, shift {told.shift}, ack {told.ack}, reset {told.reset}{reset}, ending {told.ending}"
    )


def emit_record(record):
    to, out = record.emit()
    print(
        f"record emits {len(out)} bytes: to {dotted(to)}, ports {word(out, 0)} and {word(out, 2)}, "
        f"number {word(out, 4) << 16 | word(out, 6)}, acknowledges {word(out, 8) << 16 | word(out, 10)}, "
        f"flags {out[13]}, window {word(out, 14)}"
    )


def arrive_at_record(record, source, segment):
    answer = record.arrive(source.config.addr, *segment)
    print(f"record takes {len(segment[1])} bytes: {strerror(answer)}")


def aborted(record):
    try:
        record.abort()
    except Refused as refused:
        return refused.args[0]
    return DONE


def time_wait(a, b):
    a.make()
    b.make()
    b.end.listen()
    a.end.connect(b.config.addr, b.config.port)
    bring(a, b)
    bring(b, a)
    a.end.send(bytes(10))
    a.end.close()
    bring(a, b)
    bring(b, a)
    print(f"record of A: {strerror(NOT_TIME_WAIT if a.end.time_wait() is None else DONE)}")
    b.end.close()
    fin = b.end.emit()
    hand(b, a, fin)
    record = a.end.time_wait()
    free_both(a, b)
    report_record(record)
    emit_record(record)
    record = TimeWait(bytes(record))
    report_record(record)
    arrive_at_record(record, b, fin)
    emit_record(record)
    record.timer(TIME_WAIT)
    arrive_at_record(record, b, fin)
    report_record(record)
    emit_record(record)
    b.make()
    b.end.connect(a.config.addr, a.config.port)
    syn = b.end.emit()
    b.end.free()
    arrive_at_record(record, b, syn)
    report_record(record)
    emit_record(record)
    print(f"record aborts: {strerror(aborted(record))}")


def main():
    a = Side("A", Config(bytes([10, 1, 2, 3]), 4660, 2309737967, 1111, 3000, 5001, 3, 0, 3210))
    b = Side("B", Config(bytes([10, 4, 5, 6]), 22136, 16909060, 1300, 700, 4000, None, 2, 803))
    layout()
    first_syn(a, b)
    first_syn(b, a)
    shake_hands(a, b)
    transfer(a, b)
    close_both(a, b)
    free_both(a, b)
    shake_hands(a, b)
    a.end.abort()
    a.tell()
    carry(a, b)
    b.tell()
    free_both(a, b)
    a.config = a.config._replace(sack=1)
    b.config = b.config._replace(window_shift=5)
    agree(a, b)
    free_both(a, b)
    stray(a, b)
    time_wait(a, b)


if __name__ == "__main__":
    main()
