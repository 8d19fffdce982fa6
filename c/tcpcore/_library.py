"""The library behind tcpcore.py: its answers, its structs and calls over ctypes, and how it is found and loaded."""

from __future__ import annotations

import ctypes
import enum
import importlib.util
import ipaddress
import operator
import os
from typing import Any, Callable, Optional

from tcpcore._records import LATEST, NO_GUARD, VERSION, Address, ArriveReport, Brought, Buffer, Kind, Rule, Train, Transmit


class Answer(enum.IntEnum):
    """What a call answers; its `text` is the library's."""

    DONE, TOO_SHORT, TOO_LONG, BAD_CHECKSUM, BAD_OFFSET, BAD_OPTION, BAD_PADDING = range(7)
    NOT_OPEN, ALREADY_OPEN, CLOSING, ENDED, STREAM_FULL, NOT_CONNECTED = range(11, 17)
    BAD_CAPACITY, NO_MEMORY, BAD_MSS, BAD_SHIFT, BAD_LIMIT, BAD_ADDR, BAD_PORT, BAD_RUNS, BAD_RULES = range(21, 30)
    NO_END, IN_USE, ROOM, NO_TIMER, NULL, LENGTH, COPIED, OVERLAP, NO_TIME_WAIT = range(31, 40)
    NOTHING, END_OF_STREAM, NOT_DUE, NO_RULE, DROPPED, NOT_MINE, NOT_TIME_WAIT, EMIT_FIRST, WITHHELD = range(51, 60)
    TAKEN, GONE, BACKLOG_FULL, NOBODY = range(60, 64)

    def __str__(self) -> str:
        return str(int(self))

    def __format__(self, format_spec: str) -> str:
        return format(int(self), format_spec)

    @property
    def text(self) -> str:
        return strerror(self)


DONE, TOO_SHORT, TOO_LONG, BAD_CHECKSUM, BAD_OFFSET, BAD_OPTION, BAD_PADDING = list(Answer)[:7]
NOT_OPEN, ALREADY_OPEN, CLOSING, ENDED, STREAM_FULL, NOT_CONNECTED = list(Answer)[7:13]
BAD_CAPACITY, NO_MEMORY, BAD_MSS, BAD_SHIFT, BAD_LIMIT, BAD_ADDR, BAD_PORT, BAD_RUNS, BAD_RULES = list(Answer)[13:22]
NO_END, IN_USE, ROOM, NO_TIMER, NULL, LENGTH, COPIED, OVERLAP, NO_TIME_WAIT = list(Answer)[22:31]
NOTHING, END_OF_STREAM, NOT_DUE, NO_RULE, DROPPED, NOT_MINE, NOT_TIME_WAIT, EMIT_FIRST, WITHHELD = list(Answer)[31:40]
TAKEN, GONE, BACKLOG_FULL, NOBODY = list(Answer)[40:]


class Refused(Exception):
    """A call was refused with this answer; nothing changed. Its text is the library's."""

    def __init__(self, answer: int) -> None:
        super().__init__(answer)
        self.answer = Answer(answer) if answer in ANSWERS else answer

    def __str__(self) -> str:
        return strerror(self.answer) if isinstance(self.answer, int) else str(self.answer)


ANSWERS = frozenset(map(int, Answer))
REFUSALS = frozenset((NO_END, IN_USE, ROOM, NO_TIMER, NULL, LENGTH, COPIED, OVERLAP, NO_TIME_WAIT))


class EndStruct(ctypes.Structure):
    _fields_ = [("opaque", ctypes.c_uint64 * 3)]


class AddrStruct(ctypes.Structure):
    _fields_ = [
        ("byte", ctypes.c_uint8 * 4),
    ]


class ConfigStruct(ctypes.Structure):
    _fields_ = [
        ("addr", AddrStruct),
        ("port", ctypes.c_uint16),
        ("mss", ctypes.c_uint16),
        ("isn", ctypes.c_uint32),
        ("unnamed_12", ctypes.c_uint8 * 4),
        ("send_capacity", ctypes.c_uint64),
        ("recv_capacity", ctypes.c_uint64),
        ("limit", ctypes.c_uint64),
        ("window_shift", ctypes.c_uint8),
        ("scales", ctypes.c_uint8),
        ("sack", ctypes.c_uint8),
        ("unnamed_43", ctypes.c_uint8 * 1),
        ("runs", ctypes.c_uint16),
        ("unnamed_46", ctypes.c_uint8 * 2),
    ]


class StatusStruct(ctypes.Structure):
    _fields_ = [
        ("phase", ctypes.c_uint32),
        ("ending", ctypes.c_uint32),
        ("unread", ctypes.c_uint64),
        ("released", ctypes.c_uint64),
        ("ordered", ctypes.c_uint64),
        ("snd_una", ctypes.c_uint64),
        ("rcv_position", ctypes.c_uint64),
        ("room", ctypes.c_uint64),
        ("queued", ctypes.c_uint64),
        ("in_flight", ctypes.c_uint64),
        ("mss", ctypes.c_uint32),
        ("own_shift", ctypes.c_uint8),
        ("peer_shift", ctypes.c_uint8),
        ("scaling", ctypes.c_uint8),
        ("sack", ctypes.c_uint8),
        ("snd_wnd", ctypes.c_uint32),
        ("rcv_wnd", ctypes.c_uint32),
        ("snd_nxt", ctypes.c_uint64),
        ("closing", ctypes.c_uint32),
        ("finished", ctypes.c_uint32),
        ("reserved", ctypes.c_uint32 * 6),
    ]


class ArriveReportStruct(ctypes.Structure):
    _fields_ = [
        ("at_once", ctypes.c_uint32),
        ("rule", ctypes.c_uint32),
        ("acked", ctypes.c_uint64),
        ("brought", ctypes.c_uint32),
        ("is_duplicate", ctypes.c_uint32),
        ("window_taken", ctypes.c_uint32),
        ("reserved", ctypes.c_uint32 * 9),
    ]


class TransmitStruct(ctypes.Structure):
    _fields_ = [
        ("to", AddrStruct),
        ("kind", ctypes.c_uint32),
        ("length", ctypes.c_uint64),
        ("position", ctypes.c_uint64),
        ("count", ctypes.c_uint64),
        ("reserved", ctypes.c_uint32 * 8),
    ]


class IntakeStruct(ctypes.Structure):
    _fields_ = [
        ("guard", ctypes.c_uint32),
        ("is_vouched", ctypes.c_uint32),
        ("reserved", ctypes.c_uint32 * 6),
    ]


class TrainStruct(ctypes.Structure):
    _fields_ = [
        ("whole", TransmitStruct),
        ("header", ctypes.c_uint64),
        ("each", ctypes.c_uint64),
        ("segments", ctypes.c_uint64),
        ("reserved", ctypes.c_uint32 * 10),
    ]


class ConnectionRulesStruct(ctypes.Structure):
    _fields_ = [
        ("first", ctypes.c_uint64),
        ("least", ctypes.c_uint64),
        ("greatest", ctypes.c_uint64),
        ("granularity", ctypes.c_uint64),
        ("after_syn", ctypes.c_uint64),
        ("time_wait", ctypes.c_uint64),
        ("handshake", ctypes.c_uint64),
        ("user", ctypes.c_uint64),
        ("fin_wait_2", ctypes.c_uint64),
        ("suspect_after", ctypes.c_uint32),
        ("guard", ctypes.c_uint32),
        ("reserved", ctypes.c_uint32 * 12),
    ]


class ConnectionSegmentStruct(ctypes.Structure):
    _fields_ = [
        ("length", ctypes.c_uint64),
        ("position", ctypes.c_uint64),
        ("count", ctypes.c_uint64),
        ("to", AddrStruct),
        ("reserved", ctypes.c_uint32 * 9),
    ]


class CongestionStruct(ctypes.Structure):
    _fields_ = [
        ("cwnd", ctypes.c_uint64),
        ("ssthresh", ctypes.c_uint64),
        ("smss", ctypes.c_uint64),
        ("congestion", ctypes.c_uint32),
        ("is_recovering", ctypes.c_uint32),
        ("reserved", ctypes.c_uint32 * 8),
    ]


class PolicyStruct(ctypes.Structure):
    _fields_ = [
        ("ack_delay", ctypes.c_uint64),
        ("override_timeout", ctypes.c_uint64),
        ("answer_interval", ctypes.c_uint64),
        ("nagle", ctypes.c_uint32),
        ("reserved", ctypes.c_uint32 * 9),
    ]


class KeepAliveStruct(ctypes.Structure):
    _fields_ = [
        ("idle", ctypes.c_uint64),
        ("interval", ctypes.c_uint64),
        ("most", ctypes.c_uint32),
        ("reserved", ctypes.c_uint32 * 3),
    ]


class PieceStruct(ctypes.Structure):
    _fields_ = [("at", ctypes.c_void_p), ("length", ctypes.c_size_t)]


class LentStruct(ctypes.Structure):
    _fields_ = [("first", PieceStruct), ("second", PieceStruct), ("ends", ctypes.c_uint32), ("reserved", ctypes.c_uint32 * 7)]


class TimeWaitStruct(ctypes.Structure):
    _fields_ = [
        ("mark", ctypes.c_uint32),
        ("addr", AddrStruct),
        ("peer_addr", AddrStruct),
        ("port", ctypes.c_uint16),
        ("peer_port", ctypes.c_uint16),
        ("snd_nxt", ctypes.c_uint32),
        ("rcv_nxt", ctypes.c_uint32),
        ("rcv_wnd", ctypes.c_uint32),
        ("reset_addr", AddrStruct),
        ("reset_seq", ctypes.c_uint32),
        ("reset_ack", ctypes.c_uint32),
        ("reset_port", ctypes.c_uint16),
        ("shift", ctypes.c_uint8),
        ("ack", ctypes.c_uint8),
        ("reset", ctypes.c_uint16),
        ("ending", ctypes.c_uint16),
    ]


END, SIZE, OUT = ctypes.POINTER(EndStruct), ctypes.c_size_t, ctypes.POINTER(ctypes.c_size_t)
RECORD, WORD = ctypes.POINTER(TimeWaitStruct), ctypes.POINTER(ctypes.c_uint32)
CONFIG, RULES, TIME = ctypes.POINTER(ConfigStruct), ctypes.POINTER(ConnectionRulesStruct), ctypes.c_uint64
CALLS = {
    "new": [END, ctypes.POINTER(ConfigStruct), ctypes.c_char_p, SIZE],
    "new_at": [ctypes.POINTER(END), ctypes.POINTER(ConfigStruct), ctypes.c_char_p, SIZE],
    "room": [ctypes.POINTER(ConfigStruct)],
    "free": [END],
    "connect": [END, AddrStruct, ctypes.c_uint16],
    "listen": [END],
    "send": [END, ctypes.c_char_p, SIZE, OUT],
    "receive": [END, ctypes.c_char_p, SIZE, OUT],
    "acknowledge": [END],
    "close": [END],
    "abort": [END],
    "timer": [END, ctypes.c_uint32],
    "arrive": [END, AddrStruct, AddrStruct, ctypes.c_char_p, SIZE],
    "arrive_with_at_once": [END, AddrStruct, AddrStruct, ctypes.c_char_p, SIZE, ctypes.POINTER(ctypes.c_uint32)],
    "arrive_with_report": [END, AddrStruct, AddrStruct, ctypes.c_char_p, SIZE, ctypes.POINTER(ArriveReportStruct)],
    "arrive_vouched": [END, AddrStruct, AddrStruct, ctypes.c_char_p, SIZE],
    "arrive_vouched_with_report": [END, AddrStruct, AddrStruct, ctypes.c_char_p, SIZE, ctypes.POINTER(ArriveReportStruct)],
    "arrive_by": [
        END, AddrStruct, AddrStruct, ctypes.c_char_p, SIZE, ctypes.POINTER(IntakeStruct), ctypes.POINTER(ArriveReportStruct)
    ],
    "peek": [END, ctypes.POINTER(LentStruct)],
    "consume": [END, SIZE, OUT],
    "emit": [END, ctypes.c_char_p, SIZE, ctypes.POINTER(AddrStruct), OUT],
    "emit_partial": [END, ctypes.c_char_p, SIZE, ctypes.POINTER(AddrStruct), OUT],
    "emit_train": [END, ctypes.c_char_p, SIZE, SIZE, ctypes.POINTER(TrainStruct)],
    "emit_acknowledgement": [END, ctypes.c_char_p, SIZE, ctypes.POINTER(AddrStruct), OUT],
    "resend_first": [END],
    "resend": [END, ctypes.c_uint64, ctypes.c_uint64],
    "transmit": [END, ctypes.c_char_p, SIZE, ctypes.POINTER(TransmitStruct)],
    "next": [END, ctypes.POINTER(TransmitStruct)],
    "pending": [END, ctypes.POINTER(ctypes.c_uint32)],
    "stray_reset": [AddrStruct, AddrStruct, ctypes.c_char_p, SIZE, ctypes.c_char_p, SIZE, OUT],
    "timers": [END, ctypes.POINTER(ctypes.c_uint32)],
    "peer": [END, ctypes.POINTER(AddrStruct), ctypes.POINTER(ctypes.c_uint16)],
    "status": [END, ctypes.POINTER(StatusStruct)],
    "time_wait": [END, RECORD],
    "time_wait_arrive": [RECORD, AddrStruct, AddrStruct, ctypes.c_char_p, SIZE],
    "time_wait_timer": [RECORD, ctypes.c_uint32],
    "time_wait_emit": [RECORD, ctypes.c_char_p, SIZE, ctypes.POINTER(AddrStruct), OUT],
    "time_wait_pending": [RECORD, WORD],
    "time_wait_abort": [RECORD],
    "time_wait_status": [RECORD, WORD, WORD],
    "connection_connect": [END, CONFIG, RULES, AddrStruct, ctypes.c_uint16, TIME, ctypes.c_char_p, SIZE],
    "connection_listen": [END, CONFIG, RULES, TIME, ctypes.c_char_p, SIZE],
    "connection_room": [CONFIG],
    "connection_free": [END],
    "connection_poll_at": [END, ctypes.POINTER(TIME)],
    "connection_timeout": [END, TIME, WORD],
    "connection_tick": [END, TIME, WORD, ctypes.POINTER(TIME)],
    "connection_arrive": [END, TIME, AddrStruct, AddrStruct, ctypes.c_char_p, SIZE, ctypes.POINTER(ArriveReportStruct)],
    "connection_arrive_vouched": [END, TIME, AddrStruct, AddrStruct, ctypes.c_char_p, SIZE, ctypes.POINTER(ArriveReportStruct)],
    "connection_emit": [END, TIME, ctypes.c_uint64, ctypes.c_char_p, SIZE, ctypes.POINTER(ConnectionSegmentStruct)],
    "connection_emit_train": [END, TIME, ctypes.c_uint64, ctypes.c_char_p, SIZE, SIZE, ctypes.POINTER(TrainStruct)],
    "connection_send": [END, TIME, ctypes.c_char_p, SIZE, OUT],
    "connection_receive": [END, TIME, ctypes.c_char_p, SIZE, OUT],
    "connection_peek": [END, ctypes.POINTER(LentStruct)],
    "connection_consume": [END, TIME, SIZE, OUT],
    "connection_acknowledge": [END, TIME],
    "connection_close": [END, TIME],
    "connection_abort": [END, TIME],
    "connection_status": [END, ctypes.POINTER(StatusStruct)],
    "connection_peer": [END, ctypes.POINTER(AddrStruct), ctypes.POINTER(ctypes.c_uint16)],
    "connection_set_user_timeout": [END, TIME],
    "connection_resend_first": [END, TIME],
    "connection_resend": [END, TIME, ctypes.c_uint64, ctypes.c_uint64],
    "connection_set_congestion": [END, ctypes.c_uint32],
    "connection_congestion": [END, ctypes.POINTER(CongestionStruct)],
    "connection_set_policy": [END, ctypes.POINTER(PolicyStruct)],
    "connection_set_recovery": [END, TIME, ctypes.c_char_p, SIZE],
    "connection_set_keep_alive": [END, TIME, ctypes.POINTER(KeepAliveStruct)],
    "connection_set_pacing": [END, ctypes.c_uint32],
    "strerror": [ctypes.c_uint32],
    "version": [],
    "build": [],
}
RESULTS = {"room": SIZE, "connection_room": SIZE, "strerror": ctypes.c_char_p, "build": ctypes.c_char_p}


def arrive_report_of(told: ArriveReportStruct) -> ArriveReport:
    """The named fields of the struct."""
    brought, is_duplicate, window_taken = Brought(told.brought), told.is_duplicate == 1, told.window_taken == 1
    return ArriveReport(told.at_once == 1, Rule(told.rule), told.acked, brought, is_duplicate, window_taken)


def transmit_of(told: TransmitStruct) -> Transmit:
    """The named fields of the struct."""
    return Transmit(bytes(told.to.byte), Kind(told.kind), told.length, told.position, told.count)


def train_of(told: TrainStruct) -> Train:
    """The named fields of the struct."""
    return Train(transmit_of(told.whole), told.header, told.each, told.segments)


_loaded: dict[str, Callable[..., Any]] = {}
# The module _batch, bound to these calls, or None where it wasn't built.
_batch: Any = None


def found_by(answer: int) -> bool:
    """Whether a call was done. False: no segment is due, or no rule applies; any other answer is a refusal."""
    if answer not in (DONE, NOT_DUE, NO_RULE):
        raise Refused(answer)
    return answer == DONE


def packed(addr: Address) -> bytes:
    """The 4 bytes of an address."""
    if isinstance(addr, int):
        raise TypeError(f"an address is wanted, and not the number {addr}")
    found = ipaddress.IPv4Address(addr).packed if isinstance(addr, (str, ipaddress.IPv4Address)) else bytes(addr)
    if len(found) != 4:
        raise ValueError(f"an IPv4 address has 4 bytes, not {len(found)}")
    return found


def address(addr: Address) -> AddrStruct:
    """The C struct of an address."""
    return AddrStruct.from_buffer_copy(packed(addr))


def number(name: str, value: int, bits: int) -> int:
    """The value, which has to fit a field of so many bits."""
    value = operator.index(value)
    if not 0 <= value < 1 << bits:
        raise ValueError(f"{name} is {value}, and isn't from 0 to {(1 << bits) - 1}")
    return value


def microseconds(time: float) -> int:
    """A time in seconds as the library has it, to the nearest microsecond, so that a time that `poll_at` has told is itself again."""
    if not 0 <= time <= LATEST / 1e6:
        raise ValueError(f"the time is {time}, and isn't from 0 to {LATEST / 1e6} seconds")
    return round(time * 1e6)


def octets(data: Buffer) -> bytes:
    """The bytes of a buffer of bytes."""
    if isinstance(data, bytes):
        return data
    view = memoryview(data)
    if view.itemsize != 1:
        raise TypeError(f"a buffer of bytes is wanted, not of {view.itemsize} bytes each")
    return bytes(view)


def reach(guard: Optional[int]) -> int:
    """How far a guard reaches, as the library has it."""
    return NO_GUARD if guard is None else number("the guard", guard, 32)


def load(path: str) -> dict[str, Callable[..., Any]]:
    """The library's calls by their names, without the prefix."""
    if os.sep in path and not os.path.exists(path):
        raise ImportError(f"there is no library {path}: `pip install` of c/bindings/python builds one into the package, and LIBTCPCORE names one")
    library = ctypes.CDLL(path)
    # Later versions add to it.
    if library.tcpcore_version() < VERSION:
        raise ImportError(f"{path} has version {library.tcpcore_version()}, and tcpcore.py is for version {VERSION}")
    calls = {}
    for name, types in CALLS.items():
        call = getattr(library, f"tcpcore_{name}")
        call.argtypes, call.restype = types, RESULTS.get(name, ctypes.c_uint32)
        calls[name] = call
    return calls


def load_batch(path: str, calls: dict[str, Any]) -> Any:
    """The module _batch of this file, bound to these calls."""
    spec = importlib.util.spec_from_file_location("_batch", path)
    if spec is None or spec.loader is None:
        raise ImportError(f"{path} is no module")
    module = importlib.util.module_from_spec(spec)
    spec.loader.exec_module(module)
    places = [ctypes.cast(calls[name], ctypes.c_void_p).value for name in ("send", "receive", "emit", "arrive_with_at_once")]
    answers = tuple(Answer(answer) if answer in ANSWERS else None for answer in range(64))
    module.bind(*places, answers, Answer, Refused, octets, packed)
    return module


def library() -> dict[str, Callable[..., Any]]:
    """The calls of the library that LIBTCPCORE names, else of libtcpcore.so beside this file, else of out/libtcpcore.so. It is
    loaded once, with the module _batch beside this file or in out/, where there is one."""
    global _batch
    if not _loaded:
        here = os.path.dirname(os.path.realpath(__file__))
        beside = f"{here}/libtcpcore.so"
        calls = load(os.environ.get("LIBTCPCORE", beside if os.path.exists(beside) else f"{here}/out/libtcpcore.so"))
        for path in (f"{here}/_batch.abi3.so", f"{here}/out/_batch.abi3.so"):
            if _batch is None and os.path.exists(path):
                _batch = load_batch(path, calls)
        _loaded.update(calls)
    return _loaded


def strerror(answer: int) -> str:
    """The text of an answer."""
    return bytes(library()["strerror"](answer)).decode()


def version() -> int:
    """The library's version."""
    return int(library()["version"]())


def build() -> str:
    """What code the library is, such as "x86-64-v2 machine code" or "portable C"."""
    return bytes(library()["build"]()).decode()


def batches() -> bool:
    """Whether the module _batch was built, so that `turn`, `arrive_all` and `emit_all` are one call each; else they make the single calls."""
    library()
    return _batch is not None
