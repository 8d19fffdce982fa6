"""A file over UDP, of whose datagrams each tenth is lost.

    python3 udp_file.py [FILE]             both sides in this process
    python3 udp_file.py receive PORT FILE  waits for a file at this UDP port, and writes it
    python3 udp_file.py send HOST PORT FILE

The package comes by `pip install ./c/bindings/python`.
"""

import asyncio
import pathlib
import sys

from tcpcore import Rules
from tcpcore.datagrams import Stream, listen, open_connection

# For a short path: round trips of some milliseconds, and datagrams that live for less than a second.
RULES = Rules(first=0.2, least=0.2, greatest=1.0, time_wait=2.0)


class Lossy(Stream):
    """It loses each tenth datagram."""

    count = 0

    def send_datagram(self, data):
        self.count += 1
        if self.count % 10 != 0:
            super().send_datagram(data)


async def send(host, port, text):
    async with await open_connection(host, port, rules=RULES, kind=Lossy) as stream:
        await stream.write(text)


async def receive(stream):
    """All that comes, up to the end of the stream."""
    found = bytearray()
    async with stream:
        while text := await stream.read():
            found += text
    return found


async def both(text):
    stream = await listen("127.0.0.1", 0, rules=RULES, kind=Lossy)
    found, _ = await asyncio.gather(receive(stream), send(*stream.local_address(), text))
    print(f"{len(found)} bytes came {'as they were sent' if found == text else 'wrong'}")


async def main(words):
    if words[:1] == ["receive"]:
        found = await receive(await listen("0.0.0.0", int(words[1]), rules=RULES, kind=Lossy))
        pathlib.Path(words[2]).write_bytes(found)
        print(f"{len(found)} bytes came")
    elif words[:1] == ["send"]:
        await send(words[1], int(words[2]), pathlib.Path(words[3]).read_bytes())
    else:
        await both(pathlib.Path(words[0]).read_bytes() if words else bytes(range(256)) * 1000)


if __name__ == "__main__":
    asyncio.run(main(sys.argv[1:]))
