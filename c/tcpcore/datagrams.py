"""A Connection over UDP for asyncio: each datagram carries one segment.

    stream = await open_connection("192.0.2.7", 5000)      # one side
    stream = await listen("0.0.0.0", 5000)                  # the other side, which takes one connection

    await stream.write(text)
    text = await stream.read()                              # b"" at the end of the stream
    await stream.close()                                    # this side has no more to send
    await stream.wait_closed()                              # both sides have closed, and TIME-WAIT is over

A connection that the peer resets raises ConnectionResetError, one that is given up TimeoutError, and one that was aborted here
ConnectionAbortedError. Both sides may be in one event loop. Inside the datagrams the two sides have the addresses and ports of CLIENT and
SERVER, whatever a config says, so that their checksums don't depend on what the datagrams pass through. By default it has no congestion
window, and finds losses by a round trip behind a gap (tcpcore.Connection says what `set_congestion`, `window` and `set_recovery` are).
"""

from __future__ import annotations

import asyncio
import secrets
from typing import Any, Callable, Optional

from tcpcore import Buffer, Config, Connection, Ending, Phase, Rules, Timer, octets

# Documentation's addresses (RFC 5737), which no host has.
CLIENT, SERVER = ("192.0.2.1", 1), ("192.0.2.2", 2)
# The most text with which a segment, UDP's header and IPv4's fit in 1,500 bytes.
MSS = 1452


class Stream(asyncio.DatagramProtocol):
    """A connection's stream: `open_connection` and `listen` make it. One task reads at a time, and one writes.

    A subclass whose `send_datagram` does something else, such as to lose some datagrams, is given to them as `kind`."""

    def __init__(self, config: Config, connects: bool, rules: Rules) -> None:
        own, self.peer = (CLIENT, SERVER) if connects else (SERVER, CLIENT)
        self.config, self.connects = config._replace(addr=own[0], port=own[1]), connects
        self.loop = asyncio.get_running_loop()
        peer = self.peer if connects else None
        self.connection = Connection(self.loop.time(), self.config, peer, rules, room=self.config.recv_capacity)
        self.waiters: list[asyncio.Future[None]] = []
        self.deadline: Optional[asyncio.TimerHandle] = None
        self.fault: Optional[OSError] = None
        # Where the peer's datagrams come from and go to: None where the socket is connected, and in LISTEN.
        self.remote: Any = None
        self.is_paused = self.is_due = False
        # The window that the last segment told of.
        self.window = 0

    # What asyncio calls.

    def connection_made(self, transport: Any) -> None:
        self.transport = transport
        self.turn()

    def datagram_received(self, data: bytes, addr: Any) -> None:
        listens = self.remote is None and not self.connects
        if listens:
            self.remote = addr
        if addr == self.remote or self.connects:
            _, report = self.connection.arrive_with_report(self.loop.time(), self.peer[0], self.config.addr, data)
            # An answer that is a loss's sign doesn't wait, and in LISTEN it goes to where the datagram came from.
            if report.at_once or listens:
                self.turn()
            self.wake()
            self.turn_soon()

    def error_received(self, exc: Exception) -> None:
        """A datagram that couldn't be delivered counts as lost."""

    def pause_writing(self) -> None:
        self.is_paused = True

    def resume_writing(self) -> None:
        self.is_paused = False
        self.turn()

    def connection_lost(self, exc: Optional[Exception]) -> None:
        if self.deadline is not None:
            self.deadline.cancel()
        if self.connection.status().ending == Ending.NOT_ENDED:
            self.fault = ConnectionAbortedError("the socket was closed")
        self.wake()

    # What the user calls.

    def local_address(self) -> Any:
        """The socket's address."""
        return self.transport.get_extra_info("sockname")

    def phase(self) -> Phase:
        return self.connection.status().phase

    async def connected(self) -> None:
        """Waits until both sides have opened."""
        await self.until(lambda: self.phase() not in (Phase.LISTEN, Phase.SYN_SENT, Phase.SYN_RECEIVED))
        self.check()

    async def read(self) -> bytes:
        """The bytes that came, at least one, or b"" at the end of the stream."""
        await self.connected()
        while (text := self.connection.receive(self.loop.time())) is None:
            await self.change()
            self.check()
        told = self.connection.status()
        # RFC 9293, 3.8.6.2.2: the peer is told of a window that has grown by so much.
        if told.rcv_wnd - self.window >= min(told.mss, self.config.recv_capacity // 2) and text:
            self.connection.acknowledge(self.loop.time())
        self.turn_soon()
        return text

    async def write(self, text: Buffer) -> None:
        """Writes all of the text; it waits as long as the connection has no room for it."""
        await self.connected()
        left = memoryview(octets(text))
        while left:
            taken = self.connection.send(self.loop.time(), left[: 1 << 16])
            left = left[taken:]
            self.turn_soon()
            if taken == 0:
                await self.change()
            self.check()

    async def close(self) -> None:
        """This side has no more to send. It can still read."""
        await self.connected()
        if self.connection.status().closing == 0:
            self.connection.close(self.loop.time())
            self.turn_soon()

    async def wait_closed(self) -> None:
        """Waits until both sides have closed, all text is acknowledged, and TIME-WAIT is over: this may be four minutes, unless the `time_wait`
        of the rules says twice what a datagram lives on your path. What came can still be read."""
        await self.until(lambda: self.phase() == Phase.CLOSED)
        self.check()

    def abort(self) -> None:
        """Ends the connection by a reset; what is queued or unread is lost."""
        if self.connection.status().ending == Ending.NOT_ENDED and not self.transport.is_closing():
            self.connection.abort(self.loop.time())
            self.turn()

    async def __aenter__(self) -> Stream:
        return self

    async def __aexit__(self, kind: Optional[type[BaseException]], *fault: Any) -> None:
        """Closes, and waits as `wait_closed`; behind a fault it aborts."""
        if kind is None:
            await self.close()
            await self.wait_closed()
        else:
            self.abort()

    # How it goes on.

    def send_datagram(self, data: bytes) -> None:
        self.transport.sendto(data, self.remote)

    def check(self) -> None:
        """Raises what the connection ended by, unless that was in order."""
        ending = self.connection.status().ending
        if self.fault is None and ending == Ending.RESET:
            self.fault = ConnectionResetError("the peer has reset the connection")
        if self.fault is None and ending == Ending.ABORTED:
            self.fault = ConnectionAbortedError("the connection was aborted")
        if self.fault is not None:
            raise self.fault

    def wake(self) -> None:
        """Lets those go on that wait for a change."""
        for waiter in self.waiters:
            if not waiter.done():
                waiter.set_result(None)
        self.waiters.clear()

    async def change(self) -> None:
        """Waits for anything to happen."""
        waiter = self.loop.create_future()
        self.waiters.append(waiter)
        await waiter

    async def until(self, found: Callable[[], bool]) -> None:
        while self.fault is None and not found():
            await self.change()

    def turn_soon(self) -> None:
        """A turn behind the tasks that go on now: an acknowledgement then tells of the room that a reader has made."""
        if not self.is_due:
            self.is_due = True
            self.loop.call_soon(self.turn)

    def emit(self, now: float) -> None:
        while not self.is_paused and (found := self.connection.emit(now)) is not None:
            self.window = self.connection.status().rcv_wnd
            self.send_datagram(found[1])

    def turn(self) -> None:
        """What is due goes out, and timers that have expired do what they do."""
        self.is_due = False
        if self.transport.is_closing():
            return
        now = self.loop.time()
        self.emit(now)
        while (timer := self.connection.timeout(now)) is not None:
            if timer == Timer.USER:
                self.fault = TimeoutError("the peer doesn't answer")
            self.emit(now)
        self.follow()

    def follow(self) -> None:
        """Sets the deadline, and sees to what the connection has come to."""
        told, at = self.connection.status(), self.connection.poll_at()
        if self.deadline is not None:
            self.deadline.cancel()
        # What waits for the socket has to go out before any timer expires.
        self.deadline = None if at is None or self.is_paused else self.loop.call_at(at, self.turn)
        if told.phase == Phase.LISTEN:
            self.remote = None
        if told.ending != Ending.NOT_ENDED:
            self.wake()
        if told.phase == Phase.CLOSED and not self.is_paused:
            self.transport.close()


async def open_connection(
    host: str, port: int, *, config: Optional[Config] = None, rules: Rules = Rules(), kind: Callable[..., Stream] = Stream
) -> Stream:
    """A connection to the one that listens at this UDP address, once it is open."""
    stream = kind(config or Config(*CLIENT, isn=secrets.randbits(32), mss=MSS), True, rules)
    await stream.loop.create_datagram_endpoint(lambda: stream, remote_addr=(host, port))
    try:
        await stream.connected()
    except BaseException:
        stream.abort()
        raise
    return stream


async def listen(
    host: str, port: int, *, config: Optional[Config] = None, rules: Rules = Rules(), kind: Callable[..., Stream] = Stream
) -> Stream:
    """A stream that waits for one connection at this UDP address; port 0 lets the system choose, and `local_address` says which it is. Its
    calls wait until a peer has connected."""
    stream = kind(config or Config(*SERVER, isn=secrets.randbits(32), mss=MSS), False, rules)
    await stream.loop.create_datagram_endpoint(lambda: stream, local_addr=(host, port))
    return stream
