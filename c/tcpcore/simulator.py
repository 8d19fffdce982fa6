"""Two connections and the link between them, in simulated time: a run takes as long as its computation, and is the same for the same seed.

    simulator = Simulator(rate=2e6, delay=0.02, loss=0.05, seed=3)
    simulator.client.send(bytes(60_000))
    simulator.client.close()
    simulator.run()
    simulator.plot("transfer.svg")
    simulator.save("transfer.pcap")

The client connects, and the server listens. Each side reads whatever comes, and sends what `send` was given as fast as its connection takes
it. `record` has what happened, in order, and `save` writes its segments as a capture, for Wireshark, tcpjudge or the page release/tcp.html.
By default a connection has no congestion window, and takes for lost what its peer's blocks have passed over for a round trip: where a queue
overflows, call `set_congestion` of a side's connection, or set its `window`, and `set_recovery`, as tcpcore.Connection says.
"""

from __future__ import annotations

import heapq
import importlib
import random
import struct
from collections import deque
from typing import Any, Callable, NamedTuple, Optional, TypeVar, Union

from tcpcore import Buffer, Config, Connection, Ending, Phase, Rules, Timer, octets, packed

IP_HEADER = 20
FLAGS = ("FIN", "SYN", "RST", "PSH", "ACK", "URG", "ECE", "CWR")

Value = TypeVar("Value")
# One value for both ways, or that of the way from the client, and that of the way from the server.
Ways = Union[Value, tuple[Value, Value]]


class Segment(NamedTuple):
    """A segment's fields (RFC 9293, 3.1), `flags` as a text such as "SYN,ACK", and `length`, its bytes of text. `position` is where it begins
    as a number that doesn't wrap, the SYN at 0 and byte i of the text at 1 + i, and `again` is whether its text, SYN or FIN was sent before."""

    seq: int
    ack: int
    flags: str
    window: int
    length: int
    position: int
    again: bool


class Event(NamedTuple):
    """What happened at a side, "client" or "server", at a time in seconds. `what` is one of these:

    - "sent": it sent `segment`; behind it "lost" where the link loses it, or "dropped" where the link's queue is full;
    - "arrived": `segment`, which the other side had sent, came to it;
    - "timeout": `timer` expired;
    - "phase": the connection is in `phase` now.

    `released` is how many bytes of the side's text are acknowledged behind the event, and `ordered` how many of the other's came in order."""

    time: float
    side: str
    what: str
    segment: Optional[Segment]
    timer: Optional[Timer]
    phase: Phase
    released: int
    ordered: int


class Packet(NamedTuple):
    """A segment as it left the side that sent it, or came to the other: `what` is "sent" or "arrived", at this side."""

    time: float
    side: str
    what: str
    src: bytes
    dst: bytes
    data: bytes


class Link:
    """One way of the link: `rate` in bits a second (None: any), `delay` in seconds, up to `jitter` seconds more, so that segments overtake each
    other, and `loss`, the part of the segments that is lost. Behind the segment that is being sent at most `queue` others wait, and what comes
    then is dropped; with None there is no queue, and the side emits once the link is free, as a host does whose own link it is."""

    def __init__(self, rate: Optional[float], delay: float, jitter: float, loss: float, queue: Optional[int]) -> None:
        if not (rate is None or rate > 0) or not (delay >= 0 and jitter >= 0) or not 0 <= loss <= 1 or not (queue is None or queue >= 0):
            raise ValueError(f"no link has rate {rate}, delay {delay}, jitter {jitter}, loss {loss} and queue {queue}")
        self.rate, self.delay, self.jitter, self.loss, self.queue = rate, delay, jitter, loss, queue
        # When each segment has left that is being sent or waits.
        self.leaving: deque[float] = deque()

    def free_at(self, now: float) -> float:
        """When a segment may be emitted."""
        while self.leaving and self.leaving[0] <= now:
            self.leaving.popleft()
        return self.leaving[-1] if self.leaving and self.queue is None else now

    def send(self, now: float, size: int, chance: random.Random) -> tuple[str, float]:
        """What becomes of a packet of so many bytes, "arrived", "lost" or "dropped", and when it arrives."""
        if self.queue is not None and len(self.leaving) > self.queue:
            return "dropped", now
        left = (self.leaving[-1] if self.leaving else now) + (0.0 if self.rate is None else 8 * size / self.rate)
        self.leaving.append(left)
        if chance.random() < self.loss:
            return "lost", left
        return "arrived", left + self.delay + (chance.uniform(0, self.jitter) if self.jitter > 0 else 0.0)


class Side:
    """One side: its `connection`, and what its user has `received` so far."""

    def __init__(self, simulator: Simulator, name: str, connection: Connection, addr: Any, link: Link) -> None:
        self.simulator, self.name, self.connection, self.addr, self.link = simulator, name, connection, addr, link
        self.received = bytearray()
        # Whether the other side has closed, and all that it sent was received.
        self.is_at_end = False
        self.waiting: deque[memoryview] = deque()
        self.is_closing = False
        self.phase = Phase.CLOSED
        self.greatest = 0
        self.waits_for_link = False
        # Whether a timer has expired, or what waited is due, and not all is sent yet that was due then: until then no timer expires.
        self.is_bursting = False

    def send(self, text: Buffer) -> None:
        """Sends the text behind what was given before."""
        if self.is_closing:
            raise ValueError(f"the {self.name} was closed")
        self.waiting.append(memoryview(octets(text)))
        self.simulator.at(self.simulator.now, self.simulator.turn, self)

    def close(self) -> None:
        """Closes behind all text that was given."""
        self.is_closing = True
        self.simulator.at(self.simulator.now, self.simulator.turn, self)

    def abort(self) -> None:
        """Aborts the connection: what is queued or unread is lost."""
        self.connection.abort(self.simulator.now)
        self.simulator.at(self.simulator.now, self.simulator.turn, self)

    def read(self, now: float) -> None:
        """Receives all that came."""
        while text := self.connection.receive(now):
            self.received += text
        self.is_at_end |= text == b""

    def feed(self, now: float) -> None:
        """Hands over as much of the text as the connection takes, and closes behind the last of it."""
        while self.waiting:
            text = self.waiting[0][: 1 << 16]
            taken = self.connection.send(now, text)
            self.waiting[0] = self.waiting[0][taken:]
            if taken < len(text):
                return
            if not self.waiting[0]:
                self.waiting.popleft()
        # A close in SYN-SENT would discard the text (RFC 9293, 3.10.4).
        told = self.connection.status()
        if self.is_closing and told.closing == 0 and told.phase != Phase.SYN_SENT:
            self.connection.close(now)


class Simulator:
    """Two connections over a link. Each of its first five arguments is as of a Link, one value for both ways or a pair: (from the client, from
    the server). The configs and the rules of the connections may be given; else `seed` chooses their initial sequence numbers, too."""

    def __init__(
        self,
        rate: Ways[Optional[float]] = None,
        delay: Ways[float] = 0.0,
        jitter: Ways[float] = 0.0,
        loss: Ways[float] = 0.0,
        queue: Ways[Optional[int]] = None,
        seed: int = 0,
        *,
        client: Optional[Config] = None,
        server: Optional[Config] = None,
        rules: Rules = Rules(),
    ) -> None:
        self.chance = random.Random(seed)
        client = client or Config("10.0.0.1", 1, self.chance.getrandbits(32))
        server = server or Config("10.0.0.2", 2, self.chance.getrandbits(32))
        there, back = (Link(*way) for way in zip(*map(both, (rate, delay, jitter, loss, queue))))
        self.now, self.count = 0.0, 0
        self.due: list[tuple[float, int, Callable[..., None], tuple[Any, ...]]] = []
        self.record: list[Event] = []
        self.packets: list[Packet] = []
        self.server = Side(self, "server", Connection.listen(0.0, server, rules), server.addr, back)
        connection = Connection.connect(0.0, client, server.addr, server.port, rules)
        self.client = Side(self, "client", connection, client.addr, there)
        self.sides = self.client, self.server
        for side in self.sides:
            self.at(0.0, self.turn, side)

    def at(self, time: float, call: Callable[..., None], *args: Any) -> None:
        """Calls at this time, behind all that was to be called then."""
        self.count += 1
        heapq.heappush(self.due, (time, self.count, call, args))

    def next_at(self) -> Optional[float]:
        """When something happens next, or None where nothing will."""
        times = [side.connection.poll_at() for side in self.sides if not side.is_bursting] + [time for time, *_ in self.due[:1]]
        return min((time for time in times if time is not None), default=None)

    def step(self) -> bool:
        """Lets the next thing happen; whether there was one."""
        time = self.next_at()
        if time is None:
            return False
        self.now = max(self.now, time)
        if self.due and self.due[0][0] <= self.now:
            _, _, call, args = heapq.heappop(self.due)
            call(*args)
        else:
            for side in self.sides:
                self.expire(side)
        return True

    def run(self, until: Optional[float] = None) -> None:
        """Goes on until nothing happens any more, or up to this time; after an orderly end one side rests in TIME-WAIT for four minutes."""
        while (time := self.next_at()) is not None and (until is None or time <= until):
            self.step()
        if until is not None:
            self.now = max(self.now, until)

    def note(self, side: Side, what: str, segment: Optional[Segment] = None, timer: Optional[Timer] = None) -> None:
        """Records it, and behind it a phase that is new."""
        told = side.connection.status()
        self.record.append(Event(self.now, side.name, what, segment, timer, told.phase, told.released, told.ordered))
        if told.phase != side.phase:
            side.phase = told.phase
            self.record.append(Event(self.now, side.name, "phase", None, None, told.phase, told.released, told.ordered))

    def turn(self, side: Side) -> None:
        """The user of a side reads and sends, and what is due goes out."""
        told = side.connection.status()
        if told.ending in (Ending.NOT_ENDED, Ending.ORDERLY) and told.phase != Phase.LISTEN:
            side.read(self.now)
            if told.ending == Ending.NOT_ENDED:
                side.feed(self.now)
        self.emit(side)

    def emit(self, side: Side) -> None:
        """All that is due goes onto the link, once it is free."""
        other = self.server if side is self.client else self.client
        while (free_at := side.link.free_at(self.now)) <= self.now:
            found = side.connection.transmit(self.now)
            if found is None:
                side.is_bursting = False
                return
            told, data = found
            segment = segment_of(data, told.position, told.numbers > 0 and told.position < side.greatest)
            side.greatest = max(side.greatest, told.position + told.numbers)
            self.note(side, "sent", segment)
            self.packets.append(Packet(self.now, side.name, "sent", packed(side.addr), told.to, data))
            fate, time = side.link.send(self.now, len(data) + IP_HEADER, self.chance)
            if fate == "arrived":
                self.at(time, self.arrive, other, side.addr, told.to, data, segment)
            else:
                self.note(side, fate, segment)
        if not side.waits_for_link:
            side.waits_for_link = True
            self.at(free_at, self.go_on, side)

    def go_on(self, side: Side) -> None:
        side.waits_for_link = False
        self.emit(side)

    def arrive(self, side: Side, src: Any, dst: bytes, data: bytes, segment: Segment) -> None:
        side.connection.arrive(self.now, src, dst, data)
        self.note(side, "arrived", segment)
        self.packets.append(Packet(self.now, side.name, "arrived", packed(src), dst, data))
        self.turn(side)

    def expire(self, side: Side) -> None:
        while (timer := side.connection.timeout(self.now)) is not None:
            side.is_bursting = True
            self.note(side, "timeout", timer=timer)
            self.turn(side)
        # What a policy had wait is due without a timer.
        due = side.connection.poll_at()
        if due is not None and due <= self.now:
            side.is_bursting = True
            self.turn(side)

    def save(self, path: str, at: Optional[str] = None) -> None:
        """Writes the segments of the record into a pcap file, each with the time at which it was sent; or, at "client" or "server", what that
        side sent, and what came to it when it came. release/tcp.html opens it, where it is dropped, and shows and judges each segment."""
        if at not in (None, *(side.name for side in self.sides)):
            raise ValueError(f"no side is called {at!r}")
        with open(path, "wb") as file:
            file.write(struct.pack("<IHHiIII", 0xA1B2C3D4, 2, 4, 0, 0, 65_535, 101))
            for packet in self.packets:
                if packet.what == "sent" if at is None else packet.side == at:
                    whole = ip_header(packet.src, packet.dst, len(packet.data)) + packet.data
                    seconds, micros = divmod(round(packet.time * 1e6), 1_000_000)
                    file.write(struct.pack("<IIII", seconds, micros, len(whole), len(whole)) + whole)

    def plot(self, path: str) -> None:
        """Draws the positions of what was sent, lost, sent again and acknowledged over time, each way that had text, into a file whose name
        says the format. It wants matplotlib."""
        ways = [(side.name, other.name) for side, other in (self.sides, self.sides[::-1]) if self.points(side.name, "sent")]
        figure = importlib.import_module("matplotlib.figure").Figure(figsize=(8, 5 * max(1, len(ways))), layout="constrained")
        for row, (side, other) in enumerate(ways):
            self.draw(figure.add_subplot(len(ways), 1, row + 1), side, other)
        # The same run makes the same file.
        with importlib.import_module("matplotlib").rc_context({"svg.hashsalt": "tcpcore"}):
            figure.savefig(path, metadata={"Date": None} if path.endswith(".svg") else None)

    def points(self, side: str, *what: str) -> list[tuple[float, Segment]]:
        """The segments with text of which this is recorded, and when."""
        found = [(event.time, event.segment) for event in self.record if event.side == side and event.what in what]
        return [(time, segment) for time, segment in found if segment is not None and segment.length > 0]

    def draw(self, axes: Any, side: str, other: str) -> None:
        sent = self.points(side, "sent")
        most = max(event.released for event in self.record if event.side == side)
        # What comes behind, such as TIME-WAIT, would only make the picture narrow.
        until = max(sent[-1][0], next(event.time for event in self.record if event.side == side and event.released == most))
        shown = [event for event in self.record if event.time <= until]
        there = [(event.time, event.ordered) for event in shown if event.side == other]
        back = [(event.time, event.released) for event in shown if event.side == side]
        axes.step(*zip(*there), where="post", color="#59a14f", label=f"in order at the {other}")
        axes.step(*zip(*back), where="post", color="#4e79a7", label="acknowledged")
        kinds = [
            ([(time, it.position) for time, it in sent if not it.again], ".", "#79706e", "sent"),
            ([(time, it.position) for time, it in sent if it.again], "^", "#f28e2b", "sent again"),
            ([(time, it.position) for time, it in self.points(side, "lost", "dropped")], "x", "#e15759", "lost"),
        ]
        for points, mark, colour, label in kinds:
            if points:
                axes.plot(*zip(*points), mark, color=colour, label=label, markersize=5)
        axes.set(xlabel="seconds", ylabel=f"bytes of the {side}")
        axes.legend()


def both(value: Any) -> tuple[Any, Any]:
    """The value of each way."""
    there, back = value if isinstance(value, tuple) else (value, value)
    return there, back


def ip_header(src: bytes, dst: bytes, length: int) -> bytes:
    """The header of an IPv4 packet with a segment of this length (RFC 791, 3.1): not to be fragmented, a time to live of 64."""
    header = struct.pack(">BBHHHBBH", 0x45, 0, IP_HEADER + length, 0, 0x4000, 64, 6, 0) + src + dst
    total = sum(struct.unpack(">10H", header))
    while total > 0xFFFF:
        total = (total & 0xFFFF) + (total >> 16)
    return header[:10] + struct.pack(">H", ~total & 0xFFFF) + header[12:]


def segment_of(data: bytes, position: int, again: bool) -> Segment:
    """The fields of a segment."""
    seq, ack, offset, bits, window = struct.unpack(">IIBBH", data[4:16])
    flags = ",".join(name for at, name in enumerate(FLAGS) if bits >> at & 1)
    return Segment(seq, ack, flags, window, len(data) - 4 * (offset >> 4), position, again)
