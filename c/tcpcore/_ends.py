"""The ends of tcpcore.py whose times the caller keeps, and what takes their place in TIME-WAIT."""

from __future__ import annotations

import ctypes
from typing import Any, Callable, Iterable, NoReturn, Optional, TypeVar

from tcpcore import _library
from tcpcore._library import (
    DONE, END, END_OF_STREAM, NOTHING, NOT_CONNECTED, NOT_TIME_WAIT, REFUSALS, AddrStruct, Answer, ArriveReportStruct, ConfigStruct,
    IntakeStruct, LentStruct, Refused, StatusStruct, TimeWaitStruct, TrainStruct, TransmitStruct, address, arrive_report_of,
    found_by, library, number, octets, packed, reach, train_of, transmit_of,
)
from tcpcore._records import (
    EMIT_ROOM, ENDINGS, GUARD, PHASES, RESET_ROOM, STRUCT_ROOM, TIME_WAIT_ROOM, TRAIN_ROOM, Address, ArriveReport, Buffer, Config,
    Ending, Lent, Phase, Status, Train, Transmit,
)


def stray_reset(src: Address, dst: Address, data: Buffer) -> Optional[bytes]:
    """The reset that answers bytes which came from `src` to `dst`, where no end is, or None; it goes from `dst` to `src`."""
    source, destination, data = address(src), address(dst), octets(data)
    out, count = ctypes.create_string_buffer(RESET_ROOM), ctypes.c_size_t()
    answer = library()["stray_reset"](source, destination, data, len(data), out, RESET_ROOM, count)
    return ctypes.string_at(out, count.value) if answer == DONE else None


class TimeWait:
    """The record in the place of an end in TIME-WAIT: made by `End.time_wait`, or of the bytes of another. A copy is another record."""

    def __init__(self, data: Buffer) -> None:
        if len(octets(data)) != ctypes.sizeof(TimeWaitStruct):
            raise ValueError(f"the record has {ctypes.sizeof(TimeWaitStruct)} bytes, not {len(octets(data))}")
        self.struct, self.calls = TimeWaitStruct.from_buffer_copy(data), library()
        # Bytes that are no record are found here.
        self.status()

    def __bytes__(self) -> bytes:
        return bytes(self.struct)

    def __reduce__(self) -> tuple[Any, ...]:
        return TimeWait, (bytes(self),)

    def ask(self, name: str, *args: Any) -> None:
        """A call that is done or refused."""
        answer = self.calls[f"time_wait_{name}"](self.struct, *args)
        if answer != DONE:
            raise Refused(answer)

    def arrive(self, src: Address, dst: Address, data: Buffer) -> Answer:
        """What became of the segment."""
        source, destination, data = address(src), address(dst), octets(data)
        return Answer(self.calls["time_wait_arrive"](self.struct, source, destination, data, len(data)))

    def timer(self, timer: int) -> bool:
        """Whether the timer's rule was applied."""
        return found_by(self.calls["time_wait_timer"](self.struct, number("the timer", timer, 32)))

    def emit(self) -> Optional[tuple[bytes, bytes]]:
        """The address and the bytes of a segment, or None."""
        segment, to, count = ctypes.create_string_buffer(TIME_WAIT_ROOM), AddrStruct(), ctypes.c_size_t()
        if not found_by(self.calls["time_wait_emit"](self.struct, segment, TIME_WAIT_ROOM, to, count)):
            return None
        return bytes(to.byte), ctypes.string_at(segment, count.value)

    def pending(self) -> int:
        """The length of the segment that is due, 0 where none is."""
        due = ctypes.c_uint32()
        self.ask("pending", due)
        return due.value

    def abort(self) -> None:
        self.ask("abort")

    def status(self) -> tuple[Phase, Ending]:
        """The phase and the ending."""
        phase, ending = ctypes.c_uint32(), ctypes.c_uint32()
        self.ask("status", phase, ending)
        return PHASES[phase.value], ENDINGS[ending.value]


def config_struct(config: Config) -> ConfigStruct:
    """The C struct of a config."""
    shift = config.window_shift
    return ConfigStruct(
        addr=address(config.addr),
        port=number("the port", config.port, 16),
        mss=number("the MSS", config.mss, 16),
        isn=number("the initial sequence number", config.isn, 32),
        send_capacity=number("the send capacity", config.send_capacity, 64),
        recv_capacity=number("the receive capacity", config.recv_capacity, 64),
        limit=number("the limit", config.limit, 64),
        window_shift=number("the window shift", shift or 0, 8),
        scales=shift is not None,
        sack=bool(config.sack),
        runs=number("the number of runs", config.runs, 16),
    )


HeldType = TypeVar("HeldType", bound="Held")


class Held:
    """What an End and a Connection have in common: the C struct and its memory, which are this object's until `free`, behind `with`, or until
    nothing refers to it."""

    noun = "an end"
    calls: dict[str, Callable[..., Any]]
    # The struct, or a pointer to it.
    end: Any

    def prepare(self, calls: dict[str, Callable[..., Any]], room: int) -> None:
        """The library's calls for this kind, and places for what they write."""
        if room < 1:
            raise ValueError(f"the room is {room}, and receive would have no byte to hand over")
        self.calls = calls
        self.count, self.due, self.told = ctypes.c_size_t(), ctypes.c_uint32(), StatusStruct()
        self.segment = ctypes.create_string_buffer(EMIT_ROOM)
        self.text, self.room = ctypes.create_string_buffer(room), room

    def ask(self, name: str, *args: Any) -> None:
        """A call that is done or refused."""
        answer = self.calls[name](self.end, *args)
        if answer != DONE:
            raise Refused(answer)

    def finds(self, name: str, *args: Any) -> bool:
        """Whether a call found something to do; else nothing is due, or no rule applies. Anything else is refused."""
        return found_by(self.calls[name](self.end, *args))

    def free(self) -> None:
        self.ask("free")

    def __copy__(self) -> NoReturn:
        raise TypeError(f"{self.noun} can't be copied")

    def __deepcopy__(self, memo: object) -> NoReturn:
        raise TypeError(f"{self.noun} can't be copied")

    def __reduce__(self) -> NoReturn:
        raise TypeError(f"{self.noun} can't be stored")

    def __enter__(self: HeldType) -> HeldType:
        return self

    def __exit__(self, *fault: object) -> None:
        # Freed within already: the answer is NO_END.
        self.calls["free"](self.end)

    def __del__(self) -> None:
        # Without a library, or with a Config that isn't one, there is no struct or no call.
        if "end" in self.__dict__:
            self.calls["free"](self.end)

    def read(self, *now: int) -> Optional[bytes]:
        """What `receive` hands over."""
        answer = self.calls["receive"](self.end, *now, self.text, self.room, self.count)
        if answer in (NOTHING, END_OF_STREAM):
            return b"" if answer == END_OF_STREAM else None
        if answer != DONE:
            raise Refused(answer)
        return ctypes.string_at(self.text, self.count.value)

    def peek(self) -> Optional[Lent]:
        """A copy of all that is unread, which stays so; b"" at the end of the stream, None where there is nothing yet."""
        lent = LentStruct()
        answer = self.calls["peek"](self.end, lent)
        if answer in (NOTHING, END_OF_STREAM):
            return Lent(b"", True) if answer == END_OF_STREAM else None
        if answer != DONE:
            raise Refused(answer)
        text = b"".join(ctypes.string_at(piece.at, piece.length) for piece in (lent.first, lent.second) if piece.length > 0)
        return Lent(text, lent.ends == 1)

    def status(self) -> Status:
        self.ask("status", self.told)
        told = {name: getattr(self.told, name) for name in Status._fields}
        return Status(**told | {"phase": PHASES[told["phase"]], "ending": ENDINGS[told["ending"]]})

    def peer(self) -> Optional[tuple[bytes, int]]:
        """The peer's address and port, or None where it isn't known yet."""
        addr, port = AddrStruct(), ctypes.c_uint16()
        answer = self.calls["peer"](self.end, addr, port)
        if answer == NOT_CONNECTED:
            return None
        if answer != DONE:
            raise Refused(answer)
        return bytes(addr.byte), port.value


class End(Held):
    """One end. A call that is refused is raised as `Refused`, so also each that follows `free`, with NO_END. It is freed behind `with`, or
    when nothing refers to it. It can't be copied. `room` is the most bytes that `receive` hands over at once, at least 1. One thread at a
    time uses it."""

    noun = "an end"

    def __init__(self, config: Config, room: int = 1 << 16) -> None:
        told = config_struct(config)
        self.prepare(library(), room)
        self.to = AddrStruct()
        # All of the end lies in it, as long as this object keeps it.
        size = self.calls["room"](told) + STRUCT_ROOM
        self.memory = ctypes.create_string_buffer(size)
        self.end = END()
        answer = self.calls["new_at"](self.end, told, self.memory, size)
        if answer != DONE:
            raise Refused(answer)
        # For the module _batch: where the struct and the room for text lie, which stay there as long as this object.
        self.batch, self.at, self.text_at = _library._batch, ctypes.addressof(self.end.contents), ctypes.addressof(self.text)

    def takes(self, name: str, src: Address, dst: Address, data: Buffer, *args: Any) -> Answer:
        """What became of a segment. Without an end it is refused."""
        source, destination, data = address(src), address(dst), octets(data)
        answer = Answer(self.calls[name](self.end, source, destination, data, len(data), *args))
        if answer in REFUSALS:
            raise Refused(answer)
        return answer

    def connect(self, addr: Address, port: int) -> None:
        self.ask("connect", address(addr), number("the port", port, 16))

    def listen(self) -> None:
        self.ask("listen")

    def send(self, text: Buffer) -> int:
        """How many bytes were taken."""
        if self.batch is not None:
            return int(self.batch.send(self.at, text))
        text = octets(text)
        self.ask("send", text, len(text), self.count)
        return self.count.value

    def receive(self) -> Optional[bytes]:
        """Bytes, b"" at the end of the stream, None where there is nothing yet."""
        if self.batch is not None:
            text: Optional[bytes] = self.batch.receive(self.at, self.text_at, self.room)
            return text
        return self.read()

    def consume(self, count: int) -> int:
        """Takes the first unread bytes away, at most so many: how many they were."""
        self.ask("consume", number("the count", count, 8 * ctypes.sizeof(ctypes.c_size_t)), self.count)
        return self.count.value

    def acknowledge(self) -> None:
        self.ask("acknowledge")

    def close(self) -> None:
        self.ask("close")

    def abort(self) -> None:
        self.ask("abort")

    def timer(self, timer: int) -> bool:
        """Whether the timer's rule was applied."""
        return self.finds("timer", number("the timer", timer, 32))

    def arrive(self, src: Address, dst: Address, data: Buffer) -> Answer:
        """What became of the segment."""
        return self.arrive_with_at_once(src, dst, data)[0]

    def arrive_with_at_once(self, src: Address, dst: Address, data: Buffer) -> tuple[Answer, bool]:
        """What became of the segment, and whether the segment has to be answered at once."""
        if self.batch is not None:
            told: tuple[Answer, bool] = self.batch.arrive(self.at, src, dst, data)
            return told
        answer = self.takes("arrive_with_at_once", src, dst, data, self.due)
        return answer, self.due.value == 1

    def arrive_all(self, src: Address, dst: Address, segments: Iterable[Buffer]) -> list[tuple[Answer, bool]]:
        """`arrive_with_at_once` for each segment in order: what each one tells. All are handed in, whatever the answers are, so that one which
        has to be answered at once is answered behind the last one: `turn` doesn't let it wait."""
        if self.batch is not None:
            told: list[tuple[Answer, bool]] = self.batch.arrive_all(self.at, src, dst, segments)
            return told
        # All are bytes before the first one arrives.
        source, destination, arriving = packed(src), packed(dst), list(map(octets, segments))
        return [self.arrive_with_at_once(source, destination, segment) for segment in arriving]

    def turn(self, src: Address, dst: Address, segments: Iterable[Buffer]) -> tuple[list[Answer], list[tuple[bytes, bytes]]]:
        """`arrive` for each segment in order, with `emit_all` behind each that has to be answered at once (RFC 5681, 4.2), and behind the last
        one: what became of each, and the addresses and bytes of the segments to send. Of no segments it is `emit_all`."""
        if self.batch is not None:
            told: tuple[list[Answer], list[tuple[bytes, bytes]]] = self.batch.turn(self.at, src, dst, segments)
            return told
        source, destination, arriving = packed(src), packed(dst), list(map(octets, segments))
        answers: list[Answer] = []
        out: list[tuple[bytes, bytes]] = []
        for segment in arriving:
            answer, at_once = self.arrive_with_at_once(source, destination, segment)
            answers.append(answer)
            if at_once:
                out += self.emit_all()
        return answers, out + self.emit_all()

    def arrive_with_report(self, src: Address, dst: Address, data: Buffer) -> tuple[Answer, ArriveReport]:
        """What became of the segment, and what it is to the end."""
        told = ArriveReportStruct()
        answer = self.takes("arrive_with_report", src, dst, data, told)
        return answer, arrive_report_of(told)

    def arrive_vouched(self, src: Address, dst: Address, data: Buffer) -> Answer:
        """What became of the segment, whose checksum something else has found right: it isn't looked at."""
        return self.takes("arrive_vouched", src, dst, data)

    def arrive_vouched_with_report(self, src: Address, dst: Address, data: Buffer) -> tuple[Answer, ArriveReport]:
        """The same, and what it is to the end."""
        told = ArriveReportStruct()
        answer = self.takes("arrive_vouched_with_report", src, dst, data, told)
        return answer, arrive_report_of(told)

    def arrive_by(
        self, src: Address, dst: Address, data: Buffer, guard: Optional[int] = GUARD, is_vouched: bool = False
    ) -> tuple[Answer, ArriveReport]:
        """`arrive_with_report` past a guard against segments of somebody who sees nothing of the connection (RFC 5961, 5.2), as `guard` of Rules
        has it; None is no guard. A segment whose checksum a device has found right isn't summed."""
        told, intake = ArriveReportStruct(), IntakeStruct(guard=reach(guard), is_vouched=is_vouched)
        answer = self.takes("arrive_by", src, dst, data, intake, told)
        return answer, arrive_report_of(told)

    def pending(self) -> int:
        """The length of the segment that is due, 0 where none is."""
        self.ask("pending", self.due)
        return self.due.value

    def emit(self) -> Optional[tuple[bytes, bytes]]:
        """The address and the bytes of a segment, or None."""
        if self.batch is not None:
            found: Optional[tuple[bytes, bytes]] = self.batch.emit(self.at)
            return found
        if not self.finds("emit", self.segment, EMIT_ROOM, self.to, self.count):
            return None
        return bytes(self.to.byte), ctypes.string_at(self.segment, self.count.value)

    def emit_all(self) -> list[tuple[bytes, bytes]]:
        """`emit` until nothing is due: the addresses and the bytes of the segments."""
        if self.batch is not None:
            found: list[tuple[bytes, bytes]] = self.batch.emit_all(self.at)
            return found
        return list(iter(self.emit, None))

    def emit_partial(self) -> Optional[tuple[bytes, bytes]]:
        """As `emit`, for a device that sums: the checksum field has the sum of the pseudo-header alone."""
        if not self.finds("emit_partial", self.segment, EMIT_ROOM, self.to, self.count):
            return None
        return bytes(self.to.byte), ctypes.string_at(self.segment, self.count.value)

    def emit_train(self, most: int) -> Optional[tuple[Train, bytes]]:
        """Segments of new text as one, at most so many, for a device that cuts it and sums: what it is, and its bytes, or None."""
        told, whole = TrainStruct(), ctypes.create_string_buffer(TRAIN_ROOM)
        most = number("the number of segments", most, 8 * ctypes.sizeof(ctypes.c_size_t))
        if not self.finds("emit_train", whole, TRAIN_ROOM, most, told):
            return None
        return train_of(told), ctypes.string_at(whole, told.whole.length)

    def emit_acknowledgement(self) -> Optional[tuple[bytes, bytes]]:
        """The acknowledgement that is pending, without data, whatever else is due, or None."""
        if not self.finds("emit_acknowledgement", self.segment, EMIT_ROOM, self.to, self.count):
            return None
        return bytes(self.to.byte), ctypes.string_at(self.segment, self.count.value)

    def resend_first(self) -> bool:
        """Of what is in flight, as much as one segment carries is due again: the first segment, and behind text that leaves room in it the
        FIN, which goes out by itself. Whether anything is in flight."""
        return self.finds("resend_first")

    def resend(self, start: int, stop: int) -> bool:
        """Whether anything in flight lies from the position `start` on and before `stop`: then that must be sent again, and nothing else, but
        for what the peer has reported (RFC 6675, 5; RFC 8985, 6.2). The SYN is at 0, and byte i at 1 + i."""
        return self.finds("resend", number("a position", start, 64), number("a position", stop, 64))

    def transmit(self) -> Optional[tuple[Transmit, bytes]]:
        """What a segment is, and its bytes, or None."""
        told = TransmitStruct()
        if not self.finds("transmit", self.segment, EMIT_ROOM, told):
            return None
        return transmit_of(told), ctypes.string_at(self.segment, told.length)

    def next(self) -> Optional[Transmit]:
        """What `transmit` would report, or None."""
        told = TransmitStruct()
        return transmit_of(told) if self.finds("next", told) else None

    def timers(self) -> int:
        """Bit 1 << t where timer t has to run."""
        self.ask("timers", self.due)
        return self.due.value

    def time_wait(self) -> Optional[TimeWait]:
        """What can take this end's place in TIME-WAIT, once nothing is unread, or None before."""
        struct = TimeWaitStruct()
        answer = self.calls["time_wait"](self.end, struct)
        if answer == NOT_TIME_WAIT:
            return None
        if answer != DONE:
            raise Refused(answer)
        return TimeWait(bytes(struct))
