"""The stacks that are tested, each behind six user calls (RFC 9293, 3.9.1) and a wire that carries IPv4 packets.

A stack is at 10.9.0.1 and the tester at 10.9.0.2. Its calls are listen, connect, send, receive, close and abort; `accept` gives what
listen has opened, `leave` is a user that is gone (it closes both ways), and `wish` asks for what only some stacks can do. A call that a
stack doesn't have raises NotSeen, and the row's verdict is "not seen" (calls.py).
"""

import contextlib
import fcntl
import os
import select
import socket
import struct
import subprocess
import time

from calls import Calls, Gone, dotted, heard, say
from linux import enter_namespace, ip, open_tun
from segments import STACK, TESTER

SIOCGIFFLAGS, IFF_UP = 0x8913, 1


class Linux:
    """The kernel of this machine, in a network namespace of the tester's own, over a TUN device."""

    has_clock = False
    title = "Linux " + os.uname().release.split("-")[0]

    def __init__(self):
        enter_namespace()
        self.wire = open_tun("tcptest0", dotted(STACK))
        self.sockets, self.listeners = [], {}

    def start(self):
        # What one row's errors of ICMP told of the path isn't known to the next one.
        ip("route", "flush", "cache")
        self.read()

    def stop(self):
        for one in [*self.sockets, *self.listeners.values()]:
            one.close()
        self.sockets, self.listeners = [], {}

    def write(self, packet):
        os.write(self.wire, packet)

    def read(self):
        found = []
        with contextlib.suppress(BlockingIOError):
            while True:
                found.append(os.read(self.wire, 70000))
        return found

    def now(self):
        return time.monotonic()

    def pass_time(self, seconds):
        """Waits so long at most: a packet ends the wait."""
        select.select([self.wire], [], [], max(0, seconds))

    def made(self, port, wishes):
        one = socket.socket()
        one.setsockopt(socket.SOL_SOCKET, socket.SO_REUSEADDR, 1)
        one.setsockopt(socket.IPPROTO_TCP, socket.TCP_NODELAY, 1)
        if "capacity" in wishes:
            one.setsockopt(socket.SOL_SOCKET, socket.SO_RCVBUF, wishes["capacity"])
        self.wish_all(one, wishes)
        one.bind((dotted(STACK), port))
        one.setblocking(False)
        return one

    def wish_all(self, one, wishes):
        if "nagle" in wishes:
            one.setsockopt(socket.IPPROTO_TCP, socket.TCP_NODELAY, 1 - wishes["nagle"])
        if "ttl" in wishes:
            one.setsockopt(socket.IPPROTO_IP, socket.IP_TTL, wishes["ttl"])
        if "service" in wishes:
            one.setsockopt(socket.IPPROTO_IP, socket.IP_TOS, wishes["service"])
        if "congestion" in wishes:
            one.setsockopt(socket.IPPROTO_TCP, socket.TCP_CONGESTION, wishes["congestion"].encode())
        if "keep" in wishes:
            # The kernel counts these in seconds.
            idle, interval = (max(1, span // 1000) for span in wishes["keep"])
            one.setsockopt(socket.IPPROTO_TCP, socket.TCP_KEEPIDLE, idle)
            one.setsockopt(socket.IPPROTO_TCP, socket.TCP_KEEPINTVL, interval)
            one.setsockopt(socket.SOL_SOCKET, socket.SO_KEEPALIVE, 1)

    def listen(self, port, **wishes):
        self.listeners[port] = self.made(port, wishes)
        self.listeners[port].listen(16)

    def connect(self, port, to, address=TESTER, **wishes):
        one = self.made(port, wishes)
        self.sockets.append(one)
        try:
            one.connect((dotted(address), to))
        except BlockingIOError:
            return one
        except OSError:
            return None
        return one

    def accept(self, port):
        try:
            one, _ = self.listeners[port].accept()
        except BlockingIOError:
            return None
        one.setblocking(False)
        self.sockets.append(one)
        return one

    def wish(self, one, **wishes):
        self.wish_all(one, wishes)

    def send(self, one, text, urgent=False):
        try:
            return one.send(text, socket.MSG_OOB if urgent else 0)
        except BlockingIOError:
            return 0
        except OSError as fault:
            return Gone(type(fault).__name__)

    def receive(self, one, most=1 << 16):
        try:
            return one.recv(most)
        except BlockingIOError:
            return None
        except OSError as fault:
            # A handshake that isn't done yet is no error.
            return None if fault.errno == 107 else Gone(type(fault).__name__)

    def urgent(self, one):
        """Whether the user is told of urgent data."""
        watch = select.poll()
        watch.register(one, select.POLLPRI)
        return bool(watch.poll(20))

    def is_open(self, one):
        # The first byte of the kernel's record of a connection is its state; 1 is ESTABLISHED.
        return one.getsockopt(socket.IPPROTO_TCP, socket.TCP_INFO, 104)[0] == 1

    def close(self, one):
        with contextlib.suppress(OSError):
            one.shutdown(socket.SHUT_WR)

    def leave(self, one):
        one.close()

    def abort(self, one):
        one.setsockopt(socket.SOL_SOCKET, socket.SO_LINGER, struct.pack("ii", 1, 0))
        one.close()


class Child(Calls):
    """A stack in a program of its own, whose clock is the tester's: it stands still but for what `pass_time` lets pass."""

    has_clock = True
    # The clock goes on by a millisecond, and by more where long spans pass.
    STEPS = ((5000.0, 10.0), (100.0, 1.0), (5.0, 0.1), (0.0, 0.001))

    def __init__(self, title, program, settings=None):
        self.title, self.words, self.settings = title, [program], {**os.environ, **(settings or {})}
        self.child, self.wire, self.control, self.clock = None, None, None, 0.0

    def start(self):
        self.stop()
        self.wire, wire = socket.socketpair(socket.AF_UNIX, socket.SOCK_SEQPACKET)
        self.control, control = socket.socketpair(socket.AF_UNIX, socket.SOCK_SEQPACKET)
        for one in self.wire, wire, self.control, control:
            # A whole window of packets has room, where the user may have that (SO_SNDBUFFORCE).
            with contextlib.suppress(PermissionError):
                one.setsockopt(socket.SOL_SOCKET, 32, 1 << 23)
        self.wire.setblocking(False)
        words = [*self.words, str(wire.fileno()), str(control.fileno())]
        self.child = subprocess.Popen(words, pass_fds=(wire.fileno(), control.fileno()), env=self.settings)
        wire.close()
        control.close()
        self.clock, self.opening = 1000.0, None

    def stop(self):
        if self.child is not None:
            self.wire.close()
            self.control.close()
            try:
                self.child.wait(5)
            except subprocess.TimeoutExpired:  # a stack that hangs has no verdict, and doesn't hold up the next row
                self.child.kill()
                self.child.wait()
            self.child = None

    def say(self, line):
        say(self.control, line, self.title)

    def hear(self, seconds):
        return heard(self.control, seconds, self.title)

    def write(self, packet):
        self.wire.send(packet)
        self.ask("run", 0)

    def read(self):
        found = []
        with contextlib.suppress(BlockingIOError):
            while packet := self.wire.recv(70000):
                found.append(packet)
        return found

    def now(self):
        return self.clock

    def pass_time(self, seconds):
        step = min(max(seconds, 0.001), next(step for least, step in self.STEPS if seconds >= least))
        self.ask("run", round(step * 1000))
        self.clock += step


class Device(Calls):
    """A stack that somebody runs on a TUN device of this machine: the tester is on the kernel's side of it. Its calls are asked for over a
    socket of Unix, and its clock is the machine's."""

    def __init__(self, device, control):
        self.title, self.path = f"the stack at {device}", control
        self.link = socket.socket(socket.AF_PACKET, socket.SOCK_DGRAM, socket.htons(0x0800))
        try:
            self.link.bind((device, 0x0800))
        except OSError as fault:
            raise OSError(f"no device {device} here: {fault.strerror}") from fault
        flags = fcntl.ioctl(self.link, SIOCGIFFLAGS, struct.pack("16s16x", device.encode()))
        if not struct.unpack("16xH14x", flags)[0] & IFF_UP:
            raise OSError(f"the device {device} is down: ip link set {device} up")
        self.link.setblocking(False)
        self.wire, self.device = self.link.fileno(), device
        self.control = socket.socket(socket.AF_UNIX, socket.SOCK_SEQPACKET)
        try:
            self.control.connect(control)
        except OSError as fault:
            raise OSError(f"nobody answers user calls at {control}, a Unix socket of type SEQPACKET: {fault.strerror}") from fault

    def start(self):
        self.finish_opening()
        self.ask("forget")
        self.read()

    def stop(self):
        """Nothing: the program goes on."""

    def say(self, line):
        say(self.control, line, self.title)

    def hear(self, seconds):
        return heard(self.control, seconds, self.title)

    def write(self, packet):
        self.link.sendto(packet, (self.device, 0x0800))

    def read(self):
        found = []
        with contextlib.suppress(BlockingIOError):
            while True:
                packet, where = self.link.recvfrom(70000)
                # What the tester writes comes back as outgoing.
                if where[2] != socket.PACKET_OUTGOING:
                    found.append(packet)
        return found

    now = Linux.now
    pass_time = Linux.pass_time
