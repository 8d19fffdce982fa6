"""Namespaces, a lossy wire between two of them, and captures of what each side sent and was sent."""

import contextlib
import ctypes
import fcntl
import heapq
import os
import random
import select
import struct
import subprocess
import threading
import time

TUNSETIFF, IFF_TUN, IFF_NO_PI = 0x400454CA, 1, 0x1000
CLONE_NEWNET = 0x40000000
RAW = 101
# How long a packet is on its way, and how much longer a late one.
DELAY, LATER = 0.003, 0.015


def run(*words):
    return subprocess.run(list(map(str, words)), check=True, capture_output=True, text=True).stdout


def inside(space, *words):
    """The words of a command in a namespace."""
    return ["ip", "netns", "exec", space, *map(str, words)]


@contextlib.contextmanager
def namespaces(*names):
    """Empty networks of these names, as long as it lasts."""
    with contextlib.ExitStack() as stack:
        for name in names:
            subprocess.run(["ip", "netns", "delete", name], stderr=subprocess.DEVNULL, check=False)
            run("ip", "netns", "add", name)
            stack.callback(run, "ip", "netns", "delete", name)
            run(*inside(name, "ip", "link", "set", "lo", "up"))
        yield


@contextlib.contextmanager
def started(*words, is_ready=None):
    """A program that says "ready" once it is, or is watched until it is. It is stopped at the end."""
    child = subprocess.Popen(list(map(str, words)), stdout=subprocess.PIPE, stderr=subprocess.DEVNULL, text=True)
    try:
        if is_ready is None:
            assert child.stdout.readline() == "ready\n", words
        else:
            until(is_ready)
        yield child
    finally:
        child.kill()
        child.wait()
        child.stdout.close()


def until(holds, seconds=20):
    end = time.monotonic() + seconds
    while not holds():
        assert time.monotonic() < end, "it didn't come in time"
        time.sleep(0.05)


@contextlib.contextmanager
def dumped(space, device, path):
    """A capture of a device's TCP by dumpcap."""
    words = inside(space, "dumpcap", "-q", "-i", device, "-f", "tcp", "-w", path)
    child = subprocess.Popen(words, stderr=subprocess.PIPE, text=True)
    try:
        while "File:" not in child.stderr.readline():
            assert child.poll() is None, "dumpcap ended"
        time.sleep(0.5)
        yield
        time.sleep(1)
    finally:
        child.terminate()
        child.wait()
        child.stderr.close()


def open_tun(space, name, address):
    """A TUN device of a namespace with this address, to which all else is routed."""
    libc = ctypes.CDLL(None, use_errno=True)
    own, other = (os.open(path, os.O_RDONLY) for path in ("/proc/thread-self/ns/net", f"/run/netns/{space}"))
    try:
        assert libc.setns(other, CLONE_NEWNET) == 0, os.strerror(ctypes.get_errno())
        tun = os.open("/dev/net/tun", os.O_RDWR | os.O_NONBLOCK)
        fcntl.ioctl(tun, TUNSETIFF, struct.pack("16sH22x", name.encode(), IFF_TUN | IFF_NO_PI))
    finally:
        assert libc.setns(own, CLONE_NEWNET) == 0
        os.close(own), os.close(other)
    run(*inside(space, "ip", "addr", "add", f"{address}/24", "dev", name))
    run(*inside(space, "ip", "link", "set", name, "mtu", "1500", "txqueuelen", "10000", "up"))
    return tun


class Tun:
    """A kernel's side of a wire."""

    def __init__(self, space, name, address):
        self.file = open_tun(space, name, address)

    def read(self):
        return os.read(self.file, 65536)

    def write(self, packet):
        os.write(self.file, packet)

    def close(self):
        os.close(self.file)


class Capture:
    """A capture file of raw packets."""

    def __init__(self, path):
        self.file = open(path, "wb")
        self.file.write(struct.pack("<IHHiIII", 0xA1B2C3D4, 2, 4, 0, 0, 262144, RAW))

    def add(self, packet):
        seconds, rest = divmod(time.time_ns() // 1000, 1000000)
        self.file.write(struct.pack("<IIII", seconds, rest, len(packet), len(packet)) + packet)

    def close(self):
        self.file.close()


class Relay:
    """Carries packets between two sides, each with a capture of its own: all that it sent, and all that arrived there. `lost`,
    `doubled` and `late` are fractions of them."""

    def __init__(self, sides, paths, seed, lost=0.0, doubled=0.0, late=0.0):
        self.sides, self.captures = sides, [Capture(path) for path in paths]
        self.random, self.fractions = random.Random(seed), (lost, doubled, late)
        self.waiting, self.count, self.is_over = [], 0, False
        self.thread = threading.Thread(target=self.carry)

    def __enter__(self):
        self.thread.start()
        return self

    def __exit__(self, *_):
        self.is_over = True
        self.thread.join()
        for part in *self.captures, *self.sides:
            part.close()

    def send(self, to, packet):
        lost, doubled, late = (self.random.random() < fraction for fraction in self.fractions)
        for copy in range(0 if lost else 1 + doubled):
            self.count += 1
            at = time.monotonic() + DELAY + (LATER if late or copy else 0)
            heapq.heappush(self.waiting, (at, self.count, to, packet))

    def arrive(self):
        while self.waiting and self.waiting[0][0] <= time.monotonic():
            _, _, to, packet = heapq.heappop(self.waiting)
            # What that side has sent already, it sent before this arrived.
            self.take(to)
            self.captures[to].add(packet)
            self.sides[to].write(packet)

    def take(self, side):
        with contextlib.suppress(BlockingIOError):
            while packet := self.sides[side].read():
                if packet[0] >> 4 == 4 and packet[9] == 6:
                    self.captures[side].add(packet)
                    self.send(1 - side, packet)

    def carry(self):
        while not self.is_over:
            wait = max(0.0, self.waiting[0][0] - time.monotonic()) if self.waiting else 0.05
            ready, _, _ = select.select([side.file for side in self.sides], [], [], min(wait, 0.05))
            for number, side in enumerate(self.sides):
                if side.file in ready:
                    self.take(number)
            self.arrive()
