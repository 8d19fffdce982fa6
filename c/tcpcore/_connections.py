"""The connections of tcpcore.py: ends with their timers."""

from __future__ import annotations

import ctypes
from collections import deque
from typing import Optional

from tcpcore._ends import Held, config_struct
from tcpcore._library import (
    EMIT_FIRST, REFUSALS, Answer, ArriveReportStruct, CongestionStruct, ConnectionRulesStruct, ConnectionSegmentStruct, EndStruct,
    KeepAliveStruct, PolicyStruct, Refused, TrainStruct, address, arrive_report_of, library, microseconds, number, octets, reach, train_of,
)
from tcpcore._records import (
    EMIT_ROOM, NEVER, RECOVERY_MEMORY, TRAIN_ROOM, Address, ArriveReport, Buffer, Config, Congestion, CongestionWindow, Emission, KeepAlive,
    Policy, Rules, Timer, Train,
)


def limit(time: Optional[float]) -> int:
    """A limit as the library has it."""
    return NEVER if time is None else microseconds(time)


def rules_struct(rules: Rules) -> ConnectionRulesStruct:
    """The C struct of the rules of a connection."""
    return ConnectionRulesStruct(
        first=microseconds(rules.first),
        least=microseconds(rules.least),
        greatest=microseconds(rules.greatest),
        granularity=microseconds(rules.granularity),
        after_syn=microseconds(rules.after_syn),
        time_wait=microseconds(rules.time_wait),
        handshake=limit(rules.handshake),
        user=limit(rules.user),
        fin_wait_2=limit(rules.fin_wait_2),
        suspect_after=number("the number of timeouts", rules.suspect_after, 32),
        guard=reach(rules.guard),
    )


class Connection(Held):
    """One end with its timers: the retransmission timeout by measured round trips (RFC 6298), losses that the peer's blocks show (RFC 2018),
    TIME-WAIT and the user timeout (RFC 9293, 3.8.3). It has no clock: each call that depends on the time is told `now`, in seconds from any
    beginning, such as time.monotonic(). A time before that of an earlier call counts as that, but for keep-alives and pacing, which go by
    the times as they are.

    A program does this until the phase is CLOSED, and then emits once more:

        send(connection.emit_all(now))
        while connection.timeout(now) is not None:
            send(connection.emit_all(now))
        # Wait for a segment, or until connection.poll_at(), and look at the clock.
        connection.arrive(now, source, destination, segment)  # of each segment that came
        data = connection.receive(now)  # and whatever else the user wants

    It is freed once its phase is CLOSED and nothing is due. A call that is refused is raised as `Refused`, so also each that follows `free`.
    Threads, `room` and freeing are as of an End.

    Where the path may be congested `connection.set_congestion(Congestion.CUBIC)` behind its making has it hold back by itself what that lets
    no further (RFC 9438), `connection.set_recovery(now)` has losses found by time (RFC 8985), and `connection.set_policy(Policy())` has
    acknowledgements and small segments wait (RFC 9293, 3.7.4 and 3.8.6). A program with congestion control of its own sets `window`: `emit`
    holds back what ends more than so many numbers past SND.UNA, unless nothing before it is in flight. None, the default, holds nothing
    back. A peer that vanished while nothing was under way is found where `connection.set_keep_alive(now, KeepAlive())` has it asked (RFC
    9293, 3.8.4). `connection.set_pacing()` has new text go out spread over a round trip (RFC 9002, 7.7), for a program with a fine timer."""

    noun = "a connection"
    window: Optional[int] = None

    def __init__(
        self, now: float, config: Config, peer: Optional[tuple[Address, int]] = None, rules: Rules = Rules(), room: int = 1 << 16
    ) -> None:
        """Opens a connection to the peer's address and port, or waits for one where that is None: as `connect` and `listen`."""
        told, ruled, at, calls = config_struct(config), rules_struct(rules), microseconds(now), library()
        to = None if peer is None else (address(peer[0]), number("the port", peer[1], 16))
        self.prepare({name[11:]: call for name, call in calls.items() if name.startswith("connection_")}, room)
        self.at, self.expired = ctypes.c_uint64(), ctypes.c_uint32()
        self.emitted, self.reported = ConnectionSegmentStruct(), ArriveReportStruct()
        # What an arrival had to have emitted before it, for the next emissions.
        self.first: deque[tuple[Emission, bytes]] = deque()
        # All of the end lies in it, as long as this object keeps it.
        size = self.calls["room"](told)
        self.memory = ctypes.create_string_buffer(size)
        self.end = EndStruct()
        if to is None:
            self.ask("listen", told, ruled, at, self.memory, size)
        else:
            self.ask("connect", told, ruled, *to, at, self.memory, size)

    @classmethod
    def connect(
        cls, now: float, config: Config, addr: Address, port: int, rules: Rules = Rules(), room: int = 1 << 16
    ) -> Connection:
        """A connection that is opened to this address and port at `now` (RFC 9293, 3.10.1): its SYN is due."""
        return cls(now, config, (addr, port), rules, room)

    @classmethod
    def listen(cls, now: float, config: Config, rules: Rules = Rules(), room: int = 1 << 16) -> Connection:
        """A connection that waits for one peer from `now` on (RFC 9293, 3.10.1)."""
        return cls(now, config, None, rules, room)

    def poll_at(self) -> Optional[float]:
        """When `timeout` has to be called, or what waits is to be emitted, if nothing else happens before: None where no timer runs and nothing
        waits. It may have passed: then it is now."""
        self.ask("poll_at", self.at)
        return None if self.at.value == NEVER else self.at.value / 1e6

    def timeout(self, now: float) -> Optional[Timer]:
        """The timer that has expired, whose rule is applied (RFC 9293, 3.10.8), or None. Emit all that is due behind it: no other timer expires
        before. Behind Timer.USER the connection is aborted."""
        return Timer(self.expired.value) if self.finds("timeout", microseconds(now), self.expired) else None

    def arrive(self, now: float, src: Address, dst: Address, data: Buffer) -> Answer:
        """What became of a segment that has come from `src` to `dst`. Where a timer has expired and what was due then isn't emitted yet, that
        is emitted first, and the next calls of `emit` hand it over."""
        return self.comes("arrive", now, src, dst, data)

    def comes(self, name: str, now: float, src: Address, dst: Address, data: Buffer) -> Answer:
        """What this call, `arrive` or `arrive_vouched`, makes of a segment."""
        source, destination, data, time = address(src), address(dst), octets(data), microseconds(now)
        answer = self.calls[name](self.end, time, source, destination, data, len(data), self.reported)
        if answer == EMIT_FIRST:
            self.first.extend(iter(lambda: self.written(time), None))
            answer = self.calls[name](self.end, time, source, destination, data, len(data), self.reported)
        if answer in REFUSALS:
            raise Refused(answer)
        return Answer(answer)

    def arrive_vouched(self, now: float, src: Address, dst: Address, data: Buffer) -> Answer:
        """`arrive` of a segment whose checksum a device has found right: it isn't summed."""
        return self.comes("arrive_vouched", now, src, dst, data)

    def arrive_with_report(self, now: float, src: Address, dst: Address, data: Buffer) -> tuple[Answer, ArriveReport]:
        """The same, and what the segment is to the end."""
        return self.arrive(now, src, dst, data), arrive_report_of(self.reported)

    def allowed(self) -> int:
        """The window as the library has it."""
        return NEVER if self.window is None else number("the window", self.window, 64)

    def written(self, time: int) -> Optional[tuple[Emission, bytes]]:
        """A segment that the library writes."""
        if not self.finds("emit", time, self.allowed(), self.segment, EMIT_ROOM, self.emitted):
            return None
        told = self.emitted
        emission = Emission(bytes(told.to.byte), told.length, told.position, told.count)
        return emission, ctypes.string_at(self.segment, told.length)

    def transmit(self, now: float) -> Optional[tuple[Emission, bytes]]:
        """What the segment is that is due, and its bytes, or None."""
        time = microseconds(now)
        if not self.first:
            return self.written(time)
        # It is refused where the end was freed.
        self.ask("poll_at", self.at)
        return self.first.popleft()

    def emit(self, now: float) -> Optional[tuple[bytes, bytes]]:
        """The address and the bytes of a segment that is due, or None."""
        found = self.transmit(now)
        return None if found is None else (found[0].to, found[1])

    def emit_all(self, now: float) -> list[tuple[bytes, bytes]]:
        """`emit` until nothing is due: the addresses and the bytes of the segments."""
        return list(iter(lambda: self.emit(now), None))

    def emit_train(self, now: float, most: int) -> Optional[tuple[Train, bytes]]:
        """Segments of new text as one, at most so many, and as many as end within `window`, for a device that cuts it and sums: what it is, and
        its bytes, or None. Anything else goes alone. With 1 it is one segment for a device that sums. It is refused, as Answer.EMIT_FIRST, while
        segments wait that `arrive` has emitted, which `emit` hands over."""
        if self.first:
            raise Refused(EMIT_FIRST)
        told, whole = TrainStruct(), ctypes.create_string_buffer(TRAIN_ROOM)
        most = number("the number of segments", most, 8 * ctypes.sizeof(ctypes.c_size_t))
        if not self.finds("emit_train", microseconds(now), self.allowed(), whole, TRAIN_ROOM, most, told):
            return None
        return train_of(told), ctypes.string_at(whole, told.whole.length)

    def send(self, now: float, text: Buffer) -> int:
        """How many bytes were taken. Where it takes fewer, offer the others once `released` of the status has grown."""
        text = octets(text)
        self.ask("send", microseconds(now), text, len(text), self.count)
        return self.count.value

    def receive(self, now: float) -> Optional[bytes]:
        """Bytes, b"" at the end of the stream, None where there is nothing yet."""
        return self.read(microseconds(now))

    def consume(self, now: float, count: int) -> int:
        """Takes the first unread bytes away, at most so many: how many they were."""
        self.ask("consume", microseconds(now), number("the count", count, 8 * ctypes.sizeof(ctypes.c_size_t)), self.count)
        return self.count.value

    def acknowledge(self, now: float) -> None:
        """Makes an acknowledgement due, which tells the peer of the window behind what was read."""
        self.ask("acknowledge", microseconds(now))

    def close(self, now: float) -> None:
        """This side has no more to send."""
        self.ask("close", microseconds(now))

    def abort(self, now: float) -> None:
        self.ask("abort", microseconds(now))

    def set_user_timeout(self, time: Optional[float]) -> None:
        """Sets the user timeout in the place of `user` of the rules (RFC 9293, 3.8.3), in seconds; None is no limit. The time that has passed
        already counts, so that `poll_at` may be another then."""
        self.ask("set_user_timeout", limit(time))

    def set_congestion(self, rule: Congestion) -> None:
        """Chooses the congestion window (RFC 5681, 3; RFC 9438), any time before text is sent: from then on what is emitted ends within it
        and what it lets out beyond itself (RFC 3042; RFC 6675, 5), beside `window`. Refused where text was sent already."""
        self.ask("set_congestion", number("the rule of congestion", rule, 32))

    def congestion(self) -> CongestionWindow:
        """The congestion window as it is."""
        told = CongestionStruct()
        self.ask("congestion", told)
        return CongestionWindow(Congestion(told.congestion), told.cwnd, told.ssthresh, told.smss, told.is_recovering == 1)

    def set_policy(self, policy: Policy = Policy()) -> None:
        """Chooses when an acknowledgement and a small segment go out, at any time: at once where this isn't called. From then on `emit` passes
        over what waits, and `poll_at` says when it no longer does. An acknowledgement that waited is due then, and text begins to wait
        anew."""
        delay, interval = microseconds(policy.ack_delay), microseconds(policy.answer_interval)
        self.ask("set_policy", PolicyStruct(delay, limit(policy.override_timeout), interval, int(policy.nagle)))

    def set_recovery(self, now: float) -> None:
        """From `now` on losses are found by time, and the end of what is sent is probed, in the place of a round trip behind a gap (RFC 8985),
        where both SYNs agree on selective acknowledgement; else silence alone is probed, by the first two segments in flight. It takes
        memory of its own. Refused where it was called already, and where text was sent."""
        # The library uses it as long as the end: it is kept before the library has it, whatever interrupts this.
        memory = self.__dict__.setdefault("_recovery", ctypes.create_string_buffer(RECOVERY_MEMORY))
        self.ask("set_recovery", microseconds(now), memory, RECOVERY_MEMORY)

    def set_keep_alive(self, now: float, rules: Optional[KeepAlive] = KeepAlive()) -> None:
        """From `now` on the peer is asked by these rules where nothing is heard of it, in ESTABLISHED and CLOSE-WAIT, while all that was sent
        is acknowledged and nothing waits to be sent; with None it isn't, as a connection begins. Silence counts from `now` on, and what
        is passed over of what comes breaks none. `emit` writes the segment that asks, at the time of `poll_at`. A peer that doesn't
        answer is given up: `timeout` returns Timer.USER, and the connection is aborted."""
        # An idle time of 0 is the library's word for none.
        told = KeepAliveStruct()
        if rules is not None:
            idle, interval = max(1, microseconds(rules.idle)), microseconds(rules.interval)
            told = KeepAliveStruct(idle, interval, number("the number of keep-alives", rules.most, 32))
        self.ask("set_keep_alive", microseconds(now), told)

    def set_pacing(self, is_paced: bool = True) -> None:
        """Has new text go out spread over a round trip, in portions of as many whole segments as go out in a millisecond at 1.25, in slow
        start 2, congestion windows a round trip, or as the window has, up to ten, where those are more, and two at least (RFC 9002, 7.7); or
        with False at once, as a connection begins. What is sent again doesn't wait, and without a congestion window practically nothing does.
        Where text waits for its portion `poll_at` is when the next one begins: emit then. A program that paces has to wait by a fine timer."""
        self.ask("set_pacing", int(bool(is_paced)))

    def resend_first(self, now: float) -> bool:
        """Whether anything is in flight: then the first segment of it must be sent again at once, for a program that finds losses before the
        timers do (RFC 5681, 3.2; RFC 6675, 5)."""
        return self.finds("resend_first", microseconds(now))

    def resend(self, now: float, start: int, stop: int) -> bool:
        """Whether anything in flight lies from the position `start` on and before `stop`: then that must be sent again at once, and nothing
        else, for a program that knows which stretch is lost (RFC 6675, 5; RFC 8985, 6.2). Positions are those of an Emission."""
        return self.finds("resend", microseconds(now), number("a position", start, 64), number("a position", stop, 64))
