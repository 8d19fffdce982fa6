"""What tcpcore.datagrams does, over UDP sockets of the loopback: all bytes both ways, with losses, copies and swaps; slow readers; and how a
connection ends that isn't in order. python3 streams.py"""

import asyncio
import os
import random
import socket
import sys

sys.path.insert(0, os.path.dirname(os.path.dirname(os.path.realpath(__file__))))
from tcpcore import Config, Refused, Rules  # noqa: E402
from tcpcore.datagrams import CLIENT, SERVER, Stream, listen, open_connection  # noqa: E402

RULES = Rules(first=0.1, least=0.1, greatest=0.3, time_wait=0.5)
HOST = "127.0.0.1"
chance = random.Random(4)
checks = 0


def check(found, wanted):
    global checks
    checks += 1
    if found != wanted:
        sys.exit(f"streams.py: check {checks}: {found!r:.500}, not {wanted!r:.500}")


async def raised(kind, awaited):
    """Whether it raises a fault of this kind."""
    try:
        await awaited
    except kind:
        return True
    return False


class Wild(Stream):
    """It loses, doubles and swaps datagrams, until its user closes: then TIME-WAIT could be over before a FIN comes through."""

    held = None

    def send_datagram(self, data):
        fate = chance.random() if self.connection.status().closing == 0 else 0.5
        if fate < 0.1:
            return
        if fate < 0.2 and self.held is None:
            self.held = data
            return
        super().send_datagram(data)
        if fate > 0.9:
            super().send_datagram(data)
        if self.held is not None:
            super().send_datagram(self.held)
            self.held = None


async def until(found):
    """Waits until it is so, but not for ever."""
    for _ in range(1000):
        if found():
            return
        await asyncio.sleep(0.01)
    check("never", "at some time")


async def pair(rules=RULES, kind=Stream, config=None):
    """Both sides of a connection that is open."""
    server = await listen(HOST, 0, rules=rules, kind=kind, config=config)
    client = await open_connection(*server.local_address(), rules=rules, kind=kind)
    return client, server


async def carry(stream, text, pause=0.0):
    """Writes the text and reads what comes, to the end of the stream, at once; what came."""

    async def write():
        await stream.write(text)
        await stream.close()

    found, writing = bytearray(), asyncio.ensure_future(write())
    while part := await stream.read():
        found += part
        await asyncio.sleep(pause)
    await writing
    await stream.wait_closed()
    return bytes(found)


async def both_ways():
    for kind, size in ((Stream, 300_000), (Stream, 0), (Wild, 200_000)):
        texts = chance.randbytes(size), chance.randbytes(size // 2)
        client, server = await pair(kind=kind)
        check(await asyncio.gather(carry(client, texts[0]), carry(server, texts[1])), list(texts[::-1]))
        check((client.transport.is_closing(), server.transport.is_closing()), (True, True))


async def slow_reader():
    """A writer waits where the reader's buffer and its own are full, and goes on."""
    text = chance.randbytes(100_000)
    client, server = await pair(config=Config(*SERVER, isn=7, recv_capacity=5000))
    writing = asyncio.ensure_future(client.write(text[:90_000]))
    await asyncio.sleep(0.3)
    check(writing.done(), False)
    check(server.connection.status().unread <= 5000, True)
    reading = asyncio.ensure_future(carry(server, b"", pause=0.002))
    await writing
    await client.write(text[90_000:])
    check((await carry(client, b""), await reading), (b"", text))


async def full_socket():
    """Nothing goes out while asyncio's buffer of the socket is full, whatever timers expire, and then all does."""
    client, server = await pair()
    server.pause_writing()
    await client.write(bytes(3000))
    await asyncio.sleep(0.02)
    turns, turn = [], client.turn
    client.turn = lambda: (turns.append(1), turn())
    client.pause_writing()
    await client.write(bytes(30_000))
    reading = asyncio.ensure_future(carry(server, b""))
    await asyncio.sleep(0.7)
    check((server.connection.status().ordered <= 3000, len(turns) < 20), (True, True))
    client.resume_writing()
    server.resume_writing()
    check((await carry(client, b""), await reading), (b"", bytes(33_000)))


class Kept(Stream):
    """It counts what goes out, and keeps it where it is told to."""

    keeps, kept, count = False, b"", 0

    def send_datagram(self, data):
        self.count += 1
        if self.keeps:
            self.kept = data
        else:
            super().send_datagram(data)


async def windows():
    """A reader tells of a window that has grown by a segment, and not of less (RFC 9293, 3.8.6.2.2)."""
    client, server = await pair(kind=Kept, config=Config(*SERVER, isn=7, mss=1452, recv_capacity=6000))
    for size, more in ((3000, 1), (100, 0)):
        await client.write(bytes(size))
        await until(lambda: client.connection.status().queued == 0)
        before = server.count
        check(len(await server.read()), size)
        await (until(lambda: server.count > before) if more else asyncio.sleep(0.05))
        check(server.count - before, more)
    client.abort()
    check(await raised(ConnectionResetError, server.read()), True)


async def strangers():
    """A datagram that isn't from the peer's address counts for nothing, whatever is in it."""
    client, server = await pair(kind=Kept)
    client.keeps = True
    await client.write(b"a line")
    await asyncio.sleep(0.02)
    with socket.socket(socket.AF_INET, socket.SOCK_DGRAM) as strange:
        strange.bind((HOST, 0))
        strange.sendto(client.kept, server.local_address())
        await asyncio.sleep(0.02)
    check((len(client.kept), server.connection.status().ordered), (26, 0))
    client.keeps = False
    check((await server.read(), client.abort()), (b"a line", None))


async def before_a_peer():
    """The calls of one that listens wait for a peer; garbage isn't one."""
    server = await listen(HOST, 0, rules=RULES)
    reading = asyncio.ensure_future(server.read())
    strange = socket.socket(socket.AF_INET, socket.SOCK_DGRAM)
    strange.bind((HOST, 0))
    for size in (0, 1, 20, 1000, 9000):
        strange.sendto(chance.randbytes(size), server.local_address())
    await asyncio.sleep(0.05)
    check((reading.done(), server.remote), (False, None))
    client = await open_connection(*server.local_address(), rules=RULES)
    for size in (0, 20, 1000):
        strange.sendto(chance.randbytes(size), server.local_address())
    await client.write(memoryview(b"a line"))
    check((await reading, server.remote), (b"a line", client.local_address()))
    strange.close()
    check(await asyncio.gather(carry(client, b""), carry(server, b"")), [b"", b""])


async def faults():
    client, server = await pair()
    waiting = asyncio.ensure_future(client.read())
    server.abort()
    check(await raised(ConnectionResetError, waiting), True)
    check(await raised(ConnectionResetError, client.write(b"x")), True)
    check(await raised(ConnectionAbortedError, server.read()), True)
    check(await raised(ConnectionAbortedError, server.wait_closed()), True)
    server.abort()
    # Nobody is there (RFC 9293, 3.8.3): after three timeouts the limit counts.
    none = socket.socket(socket.AF_INET, socket.SOCK_DGRAM)
    none.bind((HOST, 0))
    gone = Rules(first=0.1, least=0.1, greatest=0.3, handshake=0.5)
    check(await raised(TimeoutError, open_connection(*none.getsockname(), rules=gone)), True)
    try:
        await asyncio.wait_for(open_connection(*none.getsockname(), rules=RULES), 0.05)
        check("open", "not open")
    except asyncio.TimeoutError:
        pass
    none.close()
    # The peer's socket is gone.
    client, server = await pair(rules=RULES._replace(user=0.5))
    server.transport.abort()
    check(await raised(ConnectionAbortedError, server.read()), True)
    check(await raised(TimeoutError, client.write(bytes(1_000_000))), True)
    # A fault of the user's aborts.
    client, server = await pair()
    try:
        async with client:
            raise KeyError("the user's")
    except KeyError:
        pass
    check(await raised(ConnectionResetError, server.read()), True)
    # What is wrong in a call.
    wrong = Config(*SERVER, isn=7, mss=1)
    check(await raised(Refused, listen(HOST, 0, config=wrong)), True)
    check(await raised(Refused, open_connection(HOST, 1, config=wrong)), True)
    check(await raised(Refused, listen(HOST, 0, rules=Rules(least=0))), True)
    client, server = await pair()
    check(await raised(TypeError, client.write("text")), True)
    await client.close()
    await client.close()
    check(await raised(Refused, client.write(b"behind the end")), True)
    check(await server.read(), b"")
    check(await asyncio.gather(carry(client, b""), carry(server, b"")), [b"", b""])


async def main():
    await both_ways()
    await slow_reader()
    await full_socket()
    await windows()
    await strangers()
    await before_a_peer()
    await faults()
    check((CLIENT[0], SERVER[0]), ("192.0.2.1", "192.0.2.2"))
    print(f"streams.py: {checks} checks")


if __name__ == "__main__":
    asyncio.run(main())
