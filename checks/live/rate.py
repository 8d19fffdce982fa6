"""c/tcpcore/examples/host_echo.c through a link of 100 Mbit/s with a queue of 150 kB: python3 checks/live/rate.py PROGRAM [--only WORD]

The program's ends send through a router, whose link to the kernel's client is slowed down by tbf. Measured are the
bytes of text a second that came back, and how many segments went out again: alone, where the program loses 1 percent
of the packets each way, and beside a flow of the kernel's own through the same queue. Each figure has a threshold.
"""

import argparse
import contextlib
import multiprocessing
import os
import random
import socket
import subprocess
import sys
import threading
import time

from echo import DEVICE, SERVER, Server, need
from wire import enter_namespace, run, set_kernel

ROUTER, CLIENT, PORT, BULK = "10.8.0.1", "10.8.0.2", 7, 9
RATE, QUEUE = "100mbit", 150000
# Bytes of text a second in full segments of 1,460 bytes behind headers of IP, TCP and the link.
IDEAL = 100e6 / 8 * 1460 / 1514
CAPACITY = 1 << 20
SYSTEM = "tcp_congestion_control", "reno"
# The kernel's flow begins so many seconds before ours.
AHEAD = 0.5


def client_link(name):
    """The client's side, in a namespace of its own: its device has come with this name."""
    run("ip", "link", "set", "lo", "up")
    run("ip", "addr", "add", f"{CLIENT}/24", "dev", name)
    run("ip", "link", "set", name, "up")
    run("ip", "route", "add", "default", "via", ROUTER)


def send_all(sock, text):
    sock.sendall(text)
    sock.shutdown(socket.SHUT_WR)


def echoed(size):
    """The seconds that an echo of so many bytes takes, every byte compared."""
    text = random.Random(size).randbytes(size)
    began, got = time.monotonic(), 0
    sock = socket.create_connection((SERVER, PORT), timeout=60)
    sender = threading.Thread(target=send_all, args=(sock, text))
    sender.start()
    while piece := sock.recv(1 << 18):
        if piece != text[got : got + len(piece)]:
            raise AssertionError(f"other bytes than were sent, behind byte {got}")
        got += len(piece)
    sender.join()
    need("bytes", got, size)
    return time.monotonic() - began


def counted(count):
    """Reads the kernel's flow."""
    sock = socket.create_connection((ROUTER, BULK), timeout=60)
    while piece := sock.recv(1 << 18):
        count.value += len(piece)


def client():
    """Waits for its device, then measures: each line on its standard input is a size, and whether a flow is beside."""
    enter_namespace()
    print("ready", flush=True)
    client_link(sys.stdin.readline().strip())
    set_kernel(*SYSTEM)
    set_kernel("tcp_no_metrics_save", 1)
    for line in sys.stdin:
        size, beside = map(int, line.split())
        count = multiprocessing.Value("q", 0)
        other = multiprocessing.Process(target=counted, args=(count,))
        if beside:
            other.start()
            time.sleep(AHEAD)
        before, seconds = count.value, echoed(size)
        print(seconds, count.value - before, flush=True)
        if beside:
            other.terminate()
            other.join()


class Client:
    """The process of the client, behind the slow link."""

    def __init__(self):
        words = [sys.executable, os.path.abspath(__file__), "--client", "-"]
        self.process = subprocess.Popen(words, stdin=subprocess.PIPE, stdout=subprocess.PIPE, text=True)
        need("first line", self.process.stdout.readline(), "ready\n")
        run("ip", "link", "add", "near", "type", "veth", "peer", "name", "far", "netns", str(self.process.pid))
        run("ip", "addr", "add", f"{ROUTER}/24", "dev", "near")
        run("ip", "link", "set", "near", "gso_max_segs", "1", "up")
        run("tc", "qdisc", "add", "dev", "near", "root", "tbf", "rate", RATE, "burst", "15k", "limit", str(QUEUE))
        self.say("far")

    def say(self, words):
        self.process.stdin.write(f"{words}\n")
        self.process.stdin.flush()

    def measure(self, size, beside):
        self.say(f"{size} {int(beside)}")
        seconds, count = self.process.stdout.readline().split()
        return float(seconds), int(count)

    def stop(self):
        self.process.terminate()
        self.process.wait(timeout=20)


def send_until_closed(sock):
    with contextlib.suppress(OSError), sock:
        while True:
            sock.send(bytes(1 << 16))


def serve_bulk():
    """The kernel's flow: whoever connects is sent bytes until it has enough."""
    server = socket.create_server((ROUTER, BULK))
    while True:
        sock, _ = server.accept()
        send_until_closed(sock)


def dropped_at_the_queue():
    """How many packets the queue had no room for."""
    words = run("tc", "-s", "qdisc", "show", "dev", "near").split()
    return int(words[words.index("(dropped") + 1].rstrip(","))


# Name, bytes, percent lost, whether the kernel sends too; the least shares of the link's ideal of all flows together,
# of ours and of the kernel's, and the most segments that go out again. Two flows of the kernel's share this queue as
# unevenly: it drops what comes at the wrong moment, and the first one keeps nine tenths of it for seconds.
CASES = (
    ("alone", 24000000, 0, False, 0.85, 0.85, 0, 2500),
    ("1 percent lost", 12000000, 1, False, 0.4, 0.4, 0, 300),
    ("beside the kernel's flow", 24000000, 0, True, 0.85, 0.25, 0.08, 1000),
)


def run_case(program, peer, case):
    name, size, drop, beside, together, least, beside_us, most = case
    server = Server(program, (200, 1000, 100000, 100000, drop, CAPACITY))
    try:
        lost = dropped_at_the_queue()
        seconds, count = peer.measure(size, beside)
        lost = dropped_at_the_queue() - lost
        server.stop()
        ours, theirs, resent = size / seconds / IDEAL, count / seconds / IDEAL, server.counters["resent"]
        print(
            f"{name:26} {seconds:5.2f} s  ours {size / seconds / 1e6:5.2f} MB/s, {100 * ours:.0f} percent of the link, "
            f"the kernel's {count / seconds / 1e6:5.2f} MB/s; resent {resent}, dropped at the queue {lost}",
            flush=True,
        )
        need("share of all flows", ours + theirs >= together, True)
        need("own share", ours >= least, True)
        need("the kernel's share", theirs >= beside_us, True)
        need(f"at most {most} resent", resent <= most, True)
        return True
    except Exception as fault:
        print(f"{name}: FAILED: {fault}; {server.counters}", flush=True)
        return False
    finally:
        server.kill()


def main():
    parser = argparse.ArgumentParser(description=__doc__)
    parser.add_argument("program")
    parser.add_argument("--only", default="", help="the cases whose names have this in them")
    parser.add_argument("--client", action="store_true", help=argparse.SUPPRESS)
    options = parser.parse_args()
    if options.client:
        return client()
    enter_namespace()
    run("ip", "link", "set", "lo", "up")
    set_kernel(*SYSTEM)
    set_kernel("tcp_no_metrics_save", 1)
    set_kernel("ip_forward", 1)
    peer = Client()
    bulk = multiprocessing.Process(target=serve_bulk, daemon=True)
    bulk.start()
    program = os.path.abspath(options.program)
    results = [run_case(program, peer, case) for case in CASES if options.only in case[0]]
    peer.stop()
    print(f"rate: {sum(results)} passed, {len(results) - sum(results)} failed")
    return 0 if results and all(results) else 1


if __name__ == "__main__":
    sys.exit(main())
