"""The values of tcpcore.py: numbers of the library, phases and rules, and the records that calls take and tell."""

from __future__ import annotations

import enum
import ipaddress
from typing import NamedTuple, Optional, Union

VERSION = 23
EMIT_ROOM = 1520
TRAIN_ROOM = 65_515
RESET_ROOM = 20
TIME_WAIT_ROOM = 20
STRUCT_ROOM = 32
RECOVERY_MEMORY = 2_847
LIMIT = 2_147_483_632
# Of a connection: no limit, and no window.
NEVER = (1 << 64) - 1
GUARD = 1 << 21
NO_GUARD = (1 << 32) - 1
# The latest time in microseconds, 71 years: up to here a float of seconds tells them apart.
LATEST = 1 << 51
RUNS = 128
MAX_RUNS = 4_096

Address = Union[bytes, bytearray, str, ipaddress.IPv4Address]
Buffer = Union[bytes, bytearray, memoryview]


class Phase(str, enum.Enum):
    """The phases (RFC 9293, 3.3.2). Each equals its name as a text."""

    CLOSED = "CLOSED"
    LISTEN = "LISTEN"
    SYN_SENT = "SYN-SENT"
    SYN_RECEIVED = "SYN-RECEIVED"
    ESTABLISHED = "ESTABLISHED"
    FIN_WAIT_1 = "FIN-WAIT-1"
    FIN_WAIT_2 = "FIN-WAIT-2"
    CLOSE_WAIT = "CLOSE-WAIT"
    CLOSING = "CLOSING"
    LAST_ACK = "LAST-ACK"
    TIME_WAIT = "TIME-WAIT"

    def __str__(self) -> str:
        return str(self.value)

    def __format__(self, format_spec: str) -> str:
        return format(str(self.value), format_spec)


class Ending(str, enum.Enum):
    """How the connection ended. Each equals its name as a text."""

    NOT_ENDED = "not-ended"
    ORDERLY = "orderly"
    RESET = "reset"
    ABORTED = "aborted"

    def __str__(self) -> str:
        return str(self.value)

    def __format__(self, format_spec: str) -> str:
        return format(str(self.value), format_spec)


class Timer(enum.IntEnum):
    """The timers. Bit 1 << t of `timers()` is timer t's. USER is of a connection alone: the user timeout (RFC 9293, 3.8.3), the limit of
    FIN-WAIT-2, or keep-alives that went unanswered (3.8.4)."""

    RETRANSMIT = 0
    REORDER = 1
    TIME_WAIT = 2
    USER = 3

    def __str__(self) -> str:
        return str(int(self))

    def __format__(self, format_spec: str) -> str:
        return format(int(self), format_spec)


class Rule(enum.IntEnum):
    """The rule that an arrival goes by (RFC 9293, 3.10.7): tcpcore.h has each one's meaning."""

    NONE, FOREIGN, RESET_IGNORED, STRAY, ACK_OF_LISTEN, OPENS_NOTHING, PEER_OPENS, ACK_OF_NO_SYN = range(8)
    PEER_REFUSES, PEER_ACCEPTS, UNACCEPTABLE, PEER_RESETS, RESET_ELSEWHERE, SYN_IN_WINDOW = range(8, 14)
    NO_ACK, ACKS_UNSENT, HANDSHAKE_REFUSED, HANDSHAKE_REFUSED_SHUT, TAKEN, TAKEN_SHUT = range(14, 20)


class Brought(enum.IntEnum):
    """What a segment brought of the peer's stream (RFC 9293, 3.10.7.4, seventh and eighth)."""

    NOTHING, IN_ORDER, HELD, NOT_KEPT = range(4)


class Kind(enum.IntEnum):
    """What a segment is that an end emits."""

    NONE, RESET, SYN, NEW_TEXT, TEXT_AGAIN, FIN, FIN_AGAIN, ACKNOWLEDGEMENT = range(8)


PHASES, ENDINGS = tuple(Phase), tuple(Ending)


class Congestion(enum.IntEnum):
    """The congestion window of a connection: none, that of RFC 5681, or that of RFC 9438."""

    NONE = 0
    RENO = 1
    CUBIC = 2


class CongestionWindow(NamedTuple):
    """A congestion window, in bytes (RFC 5681, 3): whose it is, and whether a loss was found that isn't repaired yet. Without one cwnd and
    ssthresh are 2^40, more than is ever in flight, and smss is 0."""

    rule: Congestion
    cwnd: int
    ssthresh: int
    smss: int
    is_recovering: bool


RETRANSMIT, REORDER, TIME_WAIT = Timer.RETRANSMIT, Timer.REORDER, Timer.TIME_WAIT


class Status(NamedTuple):
    """What an end tells of itself: struct tcpcore_status has each field's meaning."""

    phase: Phase
    ending: Ending
    unread: int
    released: int
    ordered: int
    snd_una: int
    rcv_position: int
    room: int
    queued: int
    in_flight: int
    mss: int
    own_shift: int
    peer_shift: int
    scaling: int
    sack: int
    snd_wnd: int
    rcv_wnd: int
    snd_nxt: int
    closing: int
    finished: int


class ArriveReport(NamedTuple):
    """What `arrive_with_report` reports of a segment: struct tcpcore_arrive_report has each field's meaning."""

    at_once: bool
    rule: Rule
    acked: int
    brought: Brought
    is_duplicate: bool
    window_taken: bool


class Transmit(NamedTuple):
    """What `transmit` and `next` report of a segment: struct tcpcore_transmit has each field's meaning. Its `count` is `text_count` here, since
    a tuple has a method of that name."""

    to: bytes
    kind: Kind
    length: int
    position: int
    text_count: int


class Emission(NamedTuple):
    """What `transmit` of a connection reports of a segment: struct tcpcore_connection_segment has each field's meaning. Its `count` is `numbers`
    here, since a tuple has a method of that name."""

    to: bytes
    length: int
    position: int
    numbers: int


class Train(NamedTuple):
    """What `emit_train` reports of segments that it wrote as one: struct tcpcore_train has each field's meaning."""

    whole: Transmit
    header: int
    each: int
    segments: int


class Lent(NamedTuple):
    """What is unread, as `peek` tells it: `ends` is whether the peer has closed, so that none comes after these bytes."""

    text: bytes
    ends: bool


class Config(NamedTuple):
    """What an end is made from: address, port and `isn`, the initial sequence number, which is chosen as RFC 9293, 3.4.1 says and has no
    default; all else may be left out, and is best given by name. `window_shift` is None where windows aren't scaled: `least_shift` has the one to take for
    a receive capacity above 65,535, since with a greater one the window is 0 while fewer than 2^shift bytes are free. `limit` is the most
    bytes that it sends; `runs` is how many runs of bytes are kept out of order, and how many of the peer's are remembered, 1 to MAX_RUNS:
    0 is RUNS, the library's default."""

    addr: Address
    port: int
    isn: int
    mss: int = 1460
    send_capacity: int = 65_535
    recv_capacity: int = 65_535
    window_shift: Optional[int] = None
    sack: bool = True
    limit: int = LIMIT
    runs: int = 0


class Policy(NamedTuple):
    """When an acknowledgement and a small segment of a connection go out (RFC 9293, 3.7.4 and 3.8.6; RFC 5961, 7); times are seconds.

    `ack_delay` is how long an acknowledgement of text waits for a second full segment, less than 0.5 s; 0 is not at all. `override_timeout`
    is how long text that isn't worth a segment waits, counted from when only its size holds it back: until then no small segment goes
    into a small window, and none goes out just for a window that opened by little; with None no text waits, and silly windows aren't
    avoided. With `nagle` text that doesn't fill a segment waits while anything is in flight. `answer_interval` is for ACK throttling (RFC
    5961, 7): of the acknowledgements that only answer a segment without text and FIN, or a SYN in a synchronized state, as challenge ACKs
    do, one goes out in this time, a few seconds at most; 0 is no throttling."""

    ack_delay: float = 0.04
    override_timeout: Optional[float] = 0.5
    answer_interval: float = 0.5
    nagle: bool = True


class KeepAlive(NamedTuple):
    """When the silent peer of a connection is asked whether it is there, and when it is given up (RFC 9293, 3.8.4); times are seconds, and
    none counts as less than one.

    It is asked where nothing was heard of it for `idle`, two hours or more unless a user chooses less, and again behind each `interval`. With
    `most` of these unanswered, two at least, it is given up, an interval behind the last. The defaults are usual values."""

    idle: float = 7200.0
    interval: float = 75.0
    most: int = 9


class Rules(NamedTuple):
    """How a connection makes its retransmission timeout (RFC 6298, 2 and 5), how long it waits (RFC 9293, 3.8.3), in seconds, and what its
    guard keeps out (RFC 5961, 5.2); the defaults are the standards'. None is no limit. struct tcpcore_connection_rules has each field's
    meaning.

    `first`, `least` and `greatest` are the timeout before any round trip was measured and its bounds, `granularity` is the clock's, and
    `after_syn` is the timeout with which data begin where the SYN was sent again. `time_wait` is how long TIME-WAIT is. `handshake` is how
    long a SYN may be without an answer, `user` how long all else may be, and `fin_wait_2` how long FIN-WAIT-2 may last. No end is given up
    before `suspect_after` timeouts in a row. `guard` is how many sequence numbers behind SND.UNA the acknowledgement of a segment may lie
    that is taken, against segments of somebody who sees nothing of the connection: GUARD or more, or None for no guard, as NO_GUARD is; 0 is GUARD."""

    first: float = 1.0
    least: float = 1.0
    greatest: float = 60.0
    granularity: float = 0.001
    after_syn: float = 3.0
    time_wait: float = 240.0
    handshake: Optional[float] = 180.0
    user: Optional[float] = 300.0
    fin_wait_2: Optional[float] = None
    suspect_after: int = 3
    guard: Optional[int] = GUARD


def least_shift(recv_capacity: int) -> Optional[int]:
    """The least window shift with which all of this capacity can be advertised (RFC 7323, 2.2), or None where no scaling is needed."""
    return (recv_capacity >> 16).bit_length() or None
