"""The wire between one end and the kernel: a namespace, a TUN device, and a relay that loses, doubles, delays and damages."""

import ctypes
import fcntl
import heapq
import os
import random
import struct
import subprocess
import time
from collections import deque

OURS, KERNEL = bytes([10, 9, 0, 2]), bytes([10, 9, 0, 1])
TUNSETIFF, IFF_TUN, IFF_NO_PI = 0x400454CA, 1, 0x1000
CLONE_NEWNET = 0x40000000
SPACE, HALF = 1 << 32, 1 << 31
FIN, SYN, RST, PSH, ACK = 1, 2, 4, 8, 16


def run(*words):
    return subprocess.run(words, check=True, capture_output=True, text=True).stdout


def enter_namespace():
    """From here on this process sees an empty network of its own, which goes when the process does."""
    if ctypes.CDLL(None, use_errno=True).unshare(CLONE_NEWNET):
        raise OSError(ctypes.get_errno(), "unshare")


def set_kernel(name, value):
    """Sets a variable of the namespace's network, where the kernel has it."""
    path = f"/proc/sys/net/ipv4/{name}"
    if os.path.exists(path):
        with open(path, "w") as file:
            file.write(str(value))


def open_tun():
    """The device's file, its other side being the kernel's 10.9.0.1 with a route to 10.9.0.2."""
    tun = os.open("/dev/net/tun", os.O_RDWR | os.O_NONBLOCK)
    fcntl.ioctl(tun, TUNSETIFF, struct.pack("16sH22x", b"tcpcore0", IFF_TUN | IFF_NO_PI))
    run("ip", "link", "set", "lo", "up")
    run("ip", "addr", "add", "10.9.0.1/24", "dev", "tcpcore0")
    # The queue is long enough for the greatest window, so that the device itself loses nothing.
    run("ip", "link", "set", "tcpcore0", "mtu", "1500", "txqueuelen", "10000", "up")
    return tun


def set_route(*words):
    """The route to our end, with these words behind it."""
    run("ip", "route", "replace", "10.9.0.0/24", "dev", "tcpcore0", "src", "10.9.0.1", *words)


def ip_packet(src, dst, segment):
    """The segment behind an IPv4 header without options (RFC 791, 3.1)."""
    head = struct.pack(">BBHHHBBH4s4s", 0x45, 0, 20 + len(segment), 0, 0x4000, 64, 6, 0, src, dst)
    total = sum(struct.unpack(">10H", head))
    total = (total & 65535) + (total >> 16)
    return head[:10] + struct.pack(">H", 65535 - (total & 65535) - (total >> 16)) + head[12:] + segment


def segment_of(packet):
    """Source, destination and TCP segment of an IPv4 packet, or None."""
    if packet[0] >> 4 != 4 or packet[9] != 6:
        return None
    (total,) = struct.unpack(">H", packet[2:4])
    return packet[12:16], packet[16:20], packet[4 * (packet[0] & 15) : total]


def told(segment):
    """A segment in words."""
    src, dst, seq, ack, offset, flags, window = struct.unpack(">HHIIBBH", segment[:16])
    names = "".join(name for bit, name in ((2, "S"), (1, "F"), (4, "R"), (8, "P"), (16, ".")) if flags & bit)
    options = segment[20 : 4 * (offset >> 4)].hex()
    text = len(segment) - 4 * (offset >> 4)
    return f"{src} > {dst} [{names}] seq {seq} ack {ack} win {window} text {text} options {options or '-'}"


class Direction:
    """The segments of one side: how many, and how many of them carry numbers that it had sent before."""

    def __init__(self):
        self.segments = self.resent = 0
        self.highest = self.window = None
        self.longest = 0

    def note(self, segment):
        self.segments += 1
        (seq,) = struct.unpack(">I", segment[4:8])
        flags = segment[13]
        (self.window,) = struct.unpack(">H", segment[14:16])
        text = len(segment) - 4 * (segment[12] >> 4)
        self.longest = max(self.longest, text)
        numbers = text + bool(flags & SYN) + bool(flags & FIN)
        if flags & RST or numbers == 0:
            return
        if self.highest is not None and 0 < (self.highest - seq) % SPACE < HALF:
            self.resent += 1
        end = (seq + numbers) % SPACE
        if self.highest is None or (end - self.highest) % SPACE < HALF:
            self.highest = end


class Relay:
    """Carries segments both ways. `lost`, `doubled`, `late` and `damaged` are fractions of them; a late one waits up to 20 ms."""

    def __init__(self, seed, lost=0.0, doubled=0.0, late=0.0, damaged=0.0):
        self.random = random.Random(seed)
        self.fractions = lost, doubled, late, damaged
        self.plain = not any(self.fractions)
        self.waiting, self.count = [], 0
        # Whether nothing arrives for now; and the side whose segments are all lost for now.
        self.held, self.muted = False, None
        self.log = deque(maxlen=60)
        self.sides = {OURS: Direction(), KERNEL: Direction()}
        self.fates = {"lost": 0, "doubled": 0, "late": 0, "damaged": 0}

    def take(self, src, dst, segment):
        """A segment was sent. What of it arrives comes out of `arrivals`."""
        self.sides[src].note(segment)
        now = time.monotonic()
        if src == self.muted:
            return self.record(src, segment, "lost")
        if self.plain:
            self.put(now, src, dst, segment)
            return self.record(src, segment, "")
        lost, doubled, late, damaged = (self.random.random() < fraction for fraction in self.fractions)
        delay, place, bit = self.random.uniform(0.001, 0.02), self.random.random(), self.random.randrange(8)
        fate = "lost" if lost else "doubled" if doubled else "late" if late else "damaged" if damaged else ""
        self.record(src, segment, fate)
        if fate:
            self.fates[fate] += 1
        if fate == "damaged":
            at = int(place * len(segment))
            segment = segment[:at] + bytes([segment[at] ^ 1 << bit]) + segment[at + 1 :]
        if fate != "lost":
            self.put(now + (delay if fate == "late" else 0), src, dst, segment)
        if fate == "doubled":
            self.put(now + delay, src, dst, segment)

    def put(self, when, src, dst, segment):
        self.count += 1
        heapq.heappush(self.waiting, (when, self.count, src, dst, segment))

    def record(self, src, segment, fate):
        self.log.append((time.monotonic(), src == OURS, segment, fate))

    def wait(self):
        """How long until something arrives, or None."""
        if self.held or not self.waiting:
            return None
        return max(0.0, self.waiting[0][0] - time.monotonic())

    def arrivals(self):
        """What arrives now, one by one."""
        while not self.held and self.waiting and self.waiting[0][0] <= time.monotonic():
            yield heapq.heappop(self.waiting)[2:]

    def trace(self):
        """The last segments, in words."""
        first = self.log[0][0] if self.log else 0
        return "\n".join(
            f"    {when - first:8.4f} {'ours  ' if ours else 'kernel'} {told(segment)} {fate}"
            for when, ours, segment, fate in self.log
        )
