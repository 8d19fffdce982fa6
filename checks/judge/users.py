"""Two users of a connection: `users.py serve ADDRESS`, and `users.py ask ADDRESS KIND SIZE SECONDS`, each with its kernel's TCP.
The client leaves where nothing came for so many seconds.

The client's first five bytes are the kind and the size. What the users do then:

    e  echo   the client sends SIZE bytes and closes its half, and has all of them back
    h  half   the client closes its half at once, and the server sends SIZE bytes in small pieces
    d  down   the server sends SIZE bytes and closes, and the client closes after it
    s  slow   the client sends SIZE bytes, and the server reads nothing for a while, so that its window shuts
    r  reset  the client sends SIZE bytes, and the server resets the connection once it has read them
    a  abort  the client resets the connection once it has sent SIZE bytes, whatever comes back
"""

import contextlib
import socket
import struct
import sys
import threading
import time

PORT = 7
PIECE, PAUSE = 700, 0.002
RESETS = struct.pack("ii", 1, 0)


def body(size):
    """Bytes of which no two neighbours are equal."""
    return bytes((i * 7 + i // 251) % 256 for i in range(size))


def read_all(end, take=lambda piece: None):
    while piece := end.recv(65536):
        take(piece)


def answer(end):
    """The server's side of one connection."""
    with end, contextlib.suppress(ConnectionError):
        kind, size = struct.unpack(">cI", end.recv(5, socket.MSG_WAITALL))
        if kind == b"s":
            time.sleep(1)
        if kind == b"d":
            end.sendall(body(size))
            return
        read_all(end, end.sendall if kind in b"ea" else lambda piece: None)
        if kind == b"h":
            text = body(size)
            for at in range(0, size, PIECE):
                end.sendall(text[at : at + PIECE])
                time.sleep(PAUSE)
        if kind == b"s":
            end.sendall(b"done")
        if kind == b"r":
            end.setsockopt(socket.SOL_SOCKET, socket.SO_LINGER, RESETS)


def serve(address):
    with socket.create_server((address, PORT), backlog=64) as server:
        server.setsockopt(socket.SOL_SOCKET, socket.SO_RCVBUF, 20000)
        print("ready", flush=True)
        while True:
            threading.Thread(target=answer, args=[server.accept()[0]], daemon=True).start()


def ask(address, kind, size, patience):
    with socket.create_connection((address, PORT), timeout=patience) as end, contextlib.suppress(ConnectionError, TimeoutError):
        end.sendall(struct.pack(">cI", kind, size) + (b"" if kind in b"hd" else body(size)))
        if kind == b"a":
            end.setsockopt(socket.SOL_SOCKET, socket.SO_LINGER, RESETS)
            return
        if kind != b"d":
            end.shutdown(socket.SHUT_WR)
        read_all(end)


if __name__ == "__main__":
    if sys.argv[1] == "serve":
        serve(sys.argv[2])  # and doesn't come back
    ask(sys.argv[2], sys.argv[3].encode(), int(sys.argv[4]), float(sys.argv[5]))
