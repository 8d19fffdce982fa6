#!/usr/bin/env python3
"""A stack of one's own under tcptest, as an example: LWIPv6 (Debian's liblwipv6-2), a library with threads, sockets and a TUN device.

    lwipv6.py DEVICE SOCKET & sleep 1
    ../tcptest.py --stack tun:DEVICE --control SOCKET

It answers user calls, a line each, as ../README.md has them under "Another stack", and knows nothing else of tcptest. LWIPv6's calls wait,
as those of most sockets do, so each connection has a thread that opens it and sends."""

import ctypes
import queue
import select
import socket
import struct
import subprocess
import sys
import threading

LIBRARY, ADDRESS = ctypes.CDLL("liblwipv6.so.2"), "10.9.0.1"
# The calls that it answers: LWIPv6 has none that resets, and its shutdown sends no FIN.
CALLS = ("forget", "listen", "accept", "connect", "send", "receive", "open", "leave", "wish")
WISHES = {"nagle": (socket.IPPROTO_TCP, socket.TCP_NODELAY), "ttl": (socket.IPPROTO_IP, socket.IP_TTL),
          "service": (socket.IPPROTO_IP, socket.IP_TOS)}
for name in "lwip_stack_new", "lwip_add_tunif":
    getattr(LIBRARY, name).restype = ctypes.c_void_p


def at(address, port):
    return struct.pack("=HHI8x", socket.AF_INET, socket.htons(port), struct.unpack("=I", socket.inet_aton(address))[0])


def mapped(address, network):
    """An IPv4 address, or a mask, as LWIPv6 has them: in 16 bytes (RFC 4291, 2.5.5.2)."""
    return network + socket.inet_aton(address)


def set_option(fd, level, option, value):
    return LIBRARY.lwip_setsockopt(fd, level, option, ctypes.byref(ctypes.c_int(value)), 4) == 0


def is_granted(fd, wishes):
    """Small pieces go out at once unless nagle=1 is wished."""
    for wish in ("nagle=0", *wishes):
        name, _, value = wish.partition("=")
        if name not in WISHES or not set_option(fd, *WISHES[name], 1 - int(value) if name == "nagle" else int(value)):
            return False
    return True


def is_ready(fd, events):
    one = ctypes.create_string_buffer(struct.pack("=ihh", fd, events, 0), 8)
    return LIBRARY.lwip_poll(one, 1, 0) > 0


class Stack:
    """The stack at its device."""

    def __init__(self, device):
        self.stack = LIBRARY.lwip_stack_new()
        net = LIBRARY.lwip_add_tunif(ctypes.c_void_p(self.stack), device.encode(), 0)
        LIBRARY.lwip_add_addr(ctypes.c_void_p(net), mapped(ADDRESS, bytes(10) + b"\xff\xff"), mapped("255.255.255.0", b"\xff" * 12))
        LIBRARY.lwip_ifup_flags(ctypes.c_void_p(net), 0)
        # The kernel's side of the device, at which the tester is.
        subprocess.run(["ip", "link", "set", device, "up"], check=True)

    def bound(self, port):
        fd = LIBRARY.lwip_msocket(ctypes.c_void_p(self.stack), socket.AF_INET, socket.SOCK_STREAM, 0)
        set_option(fd, socket.SOL_SOCKET, socket.SO_REUSEADDR, 1)
        LIBRARY.lwip_bind(fd, at(ADDRESS, port), 16)
        return fd


class Connection:
    """A connection's thread opens it, sends what its user has sent, and lets it go where its user has left."""

    def __init__(self, fd, to=None):
        self.fd, self.is_open, self.fault, self.tasks, self.lock = fd, to is None, None, queue.Queue(), threading.Lock()
        threading.Thread(target=self.run, args=(to,), daemon=True).start()

    def run(self, to):
        if to is not None and LIBRARY.lwip_connect(self.fd, at(*to), 16) < 0:
            self.fault = "refused"
        self.is_open = self.fault is None
        while (text := self.tasks.get()) is not None:
            sent = 0
            while sent < len(text) and self.fault is None:
                with self.lock:
                    count = LIBRARY.lwip_send(self.fd, text[sent:], len(text) - sent, 0)
                self.fault = "reset" if count <= 0 else None
                sent += max(count, 0)
        LIBRARY.lwip_close(self.fd)

    def received(self, most):
        """LWIPv6 has to be asked by one thread at a time about a socket: while it sends nothing is received."""
        if self.fault is not None:
            return f"gone {self.fault}"
        if not self.is_open or not self.lock.acquire(blocking=False):
            return "nothing"
        try:
            return self.taken(most) if is_ready(self.fd, select.POLLIN) else "nothing"
        finally:
            self.lock.release()

    def taken(self, most):
        text = ctypes.create_string_buffer(most)
        count = LIBRARY.lwip_recv(self.fd, text, most, 0)
        if count > 0:
            return f"text {text.raw[:count].hex()}"
        fault, size = ctypes.c_int(0), ctypes.c_int(4)
        LIBRARY.lwip_getsockopt(self.fd, socket.SOL_SOCKET, socket.SO_ERROR, ctypes.byref(fault), ctypes.byref(size))
        return "end" if count == 0 and fault.value == 0 else "gone reset"


class Program:
    """What answers a line."""

    def __init__(self, stack):
        self.stack, self.listeners, self.wishes, self.connections = stack, {}, {}, []

    def handle(self, connection):
        self.connections.append(connection)
        return f"ok {len(self.connections) - 1}"

    def forget(self):
        for connection in self.connections:
            connection.tasks.put(None)
        for fd in self.listeners.values():
            LIBRARY.lwip_close(fd)
        self.listeners, self.connections = {}, []
        return "ok"

    def listen(self, port, *wishes):
        fd = self.stack.bound(int(port))
        if not is_granted(fd, wishes) or LIBRARY.lwip_listen(fd, 16) < 0:
            LIBRARY.lwip_close(fd)
            return "unknown"
        self.listeners[port], self.wishes[port] = fd, wishes
        return "ok"

    def accept(self, port):
        if not is_ready(self.listeners[port], select.POLLIN):
            return "no"
        fd = LIBRARY.lwip_accept(self.listeners[port], None, None)
        is_granted(fd, self.wishes[port])  # an accepted one takes nothing over
        return self.handle(Connection(fd))

    def connect(self, port, address, to, *wishes):
        fd = self.stack.bound(int(port))
        return self.handle(Connection(fd, (address, int(to)))) if is_granted(fd, wishes) else "unknown"

    def wish(self, which, *wishes):
        return "ok" if is_granted(self.connections[int(which)].fd, wishes) else "unknown"

    def send(self, which, digits):
        connection, text = self.connections[int(which)], bytes.fromhex(digits)
        if connection.fault is not None:
            return f"gone {connection.fault}"
        connection.tasks.put(text)
        return f"ok {len(text)}"

    def receive(self, which, most):
        return self.connections[int(which)].received(int(most))

    def open(self, which):
        return f"ok {int(self.connections[int(which)].is_open)}"

    def leave(self, which):
        self.connections[int(which)].tasks.put(None)
        return "ok"

    def answer(self, line):
        name, *words = line.split()
        return getattr(self, name)(*words) if name in CALLS else "unknown"


def main():
    device, path = sys.argv[1:]
    program = Program(Stack(device))
    listener = socket.socket(socket.AF_UNIX, socket.SOCK_SEQPACKET)
    listener.bind(path)
    listener.listen(1)
    print("ready", flush=True)
    tester, _ = listener.accept()
    while line := tester.recv(1 << 17):
        tester.send(program.answer(line.decode()).encode())


if __name__ == "__main__":
    main()
