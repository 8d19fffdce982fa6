"""The kernel's clients against c/tcpcore/examples/host_echo.c over a TUN device: python3 checks/live/echo.py PROGRAM [--only WORD]

Many at once and in turn, with packets dropped both ways, a refused port, a flood of SYNs, and a client that vanishes.
Every byte is compared, and no connection may be left once all have closed.
"""

import argparse
import contextlib
import os
import random
import select
import signal
import socket
import struct
import subprocess
import sys
import threading
import time

from wire import SYN, enter_namespace, ip_packet, run, set_kernel

DEVICE, SERVER, CLIENT, VANISHING, PORT = "tcpcore1", "10.9.0.2", "10.9.0.1", "10.9.0.3", 7
# Seconds that one connection may take.
LIMIT = 30.0
BACKLOG = 256


def need(what, found, wanted):
    if found != wanted:
        raise AssertionError(f"{what}: {found}, not {wanted}")


class Server:
    """The program, its device set up. `counters` is what it told at its end."""

    def __init__(self, program, numbers):
        words = [program, DEVICE, f"{SERVER}/24", str(PORT), *map(str, numbers)]
        self.process = subprocess.Popen(words, stdout=subprocess.PIPE, text=True)
        need("first line", self.process.stdout.readline(), "ready\n")
        run("ip", "addr", "add", f"{CLIENT}/24", "dev", DEVICE)
        run("ip", "addr", "add", f"{VANISHING}/24", "dev", DEVICE)
        run("ip", "link", "set", DEVICE, "mtu", "1500", "txqueuelen", "10000", "up")
        # A timeout begins at 20 ms: a lossy wire may keep a new measurement from the kernel (RFC 6298, 3).
        run("ip", "route", "replace", "10.9.0.0/24", "dev", DEVICE, "src", CLIENT, "rto_min", "20ms")
        self.counters = {}

    def stop(self):
        """Ends it; every connection has to be gone."""
        self.process.send_signal(signal.SIGTERM)
        text, _ = self.process.communicate(timeout=20)
        need("exit status", self.process.returncode, 0)
        self.counters = {name: int(value) for name, value in (line.split() for line in text.splitlines())}
        need("connections left", self.counters["used"], 0)

    def kill(self):
        if self.process.poll() is None:
            self.process.kill()
            self.process.wait()


def connect(source=CLIENT, port=PORT, receive_buffer=None):
    sock = socket.socket()
    sock.settimeout(LIMIT)
    if receive_buffer is not None:
        sock.setsockopt(socket.SOL_SOCKET, socket.SO_RCVBUF, receive_buffer)
    sock.bind((source, 0))
    sock.connect((SERVER, port))
    return sock


def echo(sock, text):
    """Sends the text while it reads it back, then closes its side, and reads the end of the stream."""
    stop, sent, got = time.monotonic() + LIMIT, 0, 0
    sock.setblocking(False)
    while got < len(text):
        if time.monotonic() > stop:
            raise AssertionError(f"{got} of {len(text)} bytes within {LIMIT:g} s")
        readable, writable, _ = select.select([sock], [sock] if sent < len(text) else [], [], 1.0)
        if writable:
            sent += sock.send(text[sent : sent + 65536])
        if readable:
            piece = sock.recv(65536)
            if not piece or piece != text[got : got + len(piece)]:
                raise AssertionError(f"other bytes than were sent, behind byte {got}")
            got += len(piece)
    sock.settimeout(LIMIT)
    sock.shutdown(socket.SHUT_WR)
    need("behind the end", sock.recv(1), b"")
    sock.close()


def at_once(count, size, seed):
    """So many connections at the same time, each with bytes of its own."""
    faults = []

    def one(number):
        try:
            echo(connect(), random.Random(seed + number).randbytes(size))
        except Exception as fault:
            faults.append(fault)

    threads = [threading.Thread(target=one, args=(number,)) for number in range(count)]
    for thread in threads:
        thread.start()
    for thread in threads:
        thread.join()
    need("faults", faults, [])


def in_order(server, count):
    """Every connection was accepted and closed in order."""
    need("accepted", server.counters["accepted"], count)
    need("closed in order", server.counters["orderly"], count)
    need("malformed", server.counters["malformed"], 0)


def many(server):
    at_once(16, 1000000, 1)
    server.stop()
    in_order(server, 16)


def short(server):
    for number in range(1000):
        echo(connect(), random.Random(number).randbytes(1 + number))
    server.stop()
    in_order(server, 1000)


def dropped(size):
    def case(server):
        at_once(16, size, 100)
        server.stop()
        in_order(server, 16)

    return case


def refused(server):
    for _ in range(3):
        try:
            connect(port=PORT + 1)
        except ConnectionRefusedError:
            continue
        raise AssertionError("a port where nothing listens was opened")
    server.stop()
    need("resets", server.counters["strays"], 3)
    need("accepted", server.counters["accepted"], 0)


def flood_syns(count):
    """SYNs from addresses at which nobody is."""
    raw = socket.socket(socket.AF_INET, socket.SOCK_RAW, socket.IPPROTO_RAW)
    server = socket.inet_aton(SERVER)
    for number in range(count):
        src = bytes([10, 9, 0, 100 + number % 100])
        head = struct.pack(">HHIIBBHHH", 1024 + number // 100, PORT, number, 0, 0x50, SYN, 65535, 0, 0)
        pseudo = src + server + struct.pack(">HH", 6, len(head)) + head
        total = sum(struct.unpack(f">{len(pseudo) // 2}H", pseudo))
        total = (total & 65535) + (total >> 16)
        head = head[:16] + struct.pack(">H", 65535 - (total & 65535) - (total >> 16)) + head[18:]
        raw.sendto(ip_packet(src, server, head), (SERVER, 0))
        if number % 50 == 0:
            time.sleep(0.004)
    raw.close()


def flooded(server):
    count = 20000
    good = connect()
    flood = threading.Thread(target=flood_syns, args=(count,))
    flood.start()
    echo(good, random.Random(7).randbytes(2000000))
    beside = lost = 0
    while flood.is_alive():
        # A handshake that takes longer than the flood needs to fill the backlog is lost, and answered by a reset.
        try:
            echo(connect(), random.Random(beside).randbytes(1000))
            beside += 1
        except ConnectionResetError:
            lost += 1
    need("connections beside the flood", beside > 0, True)
    server.stop()
    need("closed in order", server.counters["orderly"], 1 + beside)
    # At its end a backlog of half-open ends was left, of which good ones may have taken some places.
    counters = server.counters
    need("given up of a backlog", BACKLOG - 16 <= counters["abandoned"] <= BACKLOG, True)
    # All the others made way; the device may have dropped a few.
    gone = counters["abandoned"] + counters["recycled"] + counters["full"]
    need("half-open ends that ended", 0.9 * count <= gone <= count + lost, True)


def vanished(server):
    # It reads nothing, and has room for little: text waits at the program however soon it echoes.
    gone = connect(VANISHING, receive_buffer=4096)
    gone.sendall(random.Random(3).randbytes(20000))
    # Its kernel keeps silent from here on: the address isn't its own any more.
    run("ip", "addr", "del", f"{VANISHING}/24", "dev", DEVICE)
    gone.setblocking(False)
    with contextlib.suppress(BlockingIOError):
        gone.send(bytes(1000))
    echo(connect(), random.Random(4).randbytes(1000000))
    time.sleep(3.5)
    server.stop()
    need("closed in order", server.counters["orderly"], 1)
    need("given up", server.counters["abandoned"], 1)


# The program's numbers: least and greatest timeout, limits of a SYN,ACK and of text, in milliseconds; percent dropped.
# No timeout of the kernel's is above a second here, too: see main.
CASES = (
    ("16 at once", many, ()),
    ("1,000 in turn", short, ()),
    ("2 percent dropped", dropped(200000), (200, 1000, 100000, 100000, 2)),
    ("10 percent dropped", dropped(50000), (200, 1000, 100000, 100000, 10)),
    ("a refused port", refused, ()),
    ("a flood of SYNs", flooded, (1000, 1000, 2000, 100000)),
    ("a client that vanishes", vanished, (1000, 1000, 100000, 2000)),
)


def run_case(program, name, case, numbers):
    began = time.monotonic()
    server = Server(program, numbers)
    try:
        case(server)
    except Exception as fault:
        print(f"{name}: FAILED: {fault}; {server.counters}", flush=True)
        return False
    finally:
        server.kill()
    counters = server.counters
    keys = "arrived", "emitted", "accepted", "recycled", "strays", "abandoned"
    words = " ".join(f"{key} {counters[key]}" for key in keys)
    print(f"{name:24} {time.monotonic() - began:6.2f} s  {words}", flush=True)
    return True


def main():
    parser = argparse.ArgumentParser(description=__doc__)
    parser.add_argument("program")
    parser.add_argument("--only", default="", help="the cases whose names have this in them")
    options = parser.parse_args()
    enter_namespace()
    run("ip", "link", "set", "lo", "up")
    set_kernel("tcp_congestion_control", "reno")
    set_kernel("tcp_no_metrics_save", 1)
    set_kernel("tcp_rto_max_ms", 1000)
    program = os.path.abspath(options.program)
    results = [run_case(program, name, case, numbers) for name, case, numbers in CASES if options.only in name]
    print(f"echo: {sum(results)} passed, {len(results) - sum(results)} failed")
    return 0 if results and all(results) else 1


if __name__ == "__main__":
    sys.exit(main())
