"""The kernel's side: one socket that doesn't block, and what ss and TCP_INFO say of it."""

import re
import socket
import struct

from wire import run

# Of TCP_INFO's option bits.
SACK, WINDOW_SCALE = 2, 4


class Kernel:
    """A socket of the kernel's, with its user."""

    def __init__(self, sock, traffic):
        self.sock, self.traffic = sock, traffic
        self.error = None

    def is_open(self):
        return self.sock.fileno() >= 0

    def wants_to_read(self):
        return self.traffic.reads and not self.traffic.ended and self.error is None

    def wants_to_write(self):
        return bool(self.traffic.ready(1)) and self.error is None

    def turn(self):
        """Reads what is there and sends what fits."""
        try:
            while self.is_open() and self.wants_to_read():
                found = self.sock.recv(1 << 18)
                self.traffic.take(found)
                self.traffic.ended = found == b""
        except BlockingIOError:
            pass
        except OSError as error:
            self.error = error
        self.write()

    def write(self):
        try:
            while self.is_open() and self.wants_to_write():
                self.traffic.sent += self.sock.send(self.traffic.ready(1 << 18))
        except BlockingIOError:
            pass
        except OSError as error:
            self.error = error

    def options(self):
        """Which options the connection uses."""
        return self.sock.getsockopt(socket.IPPROTO_TCP, socket.TCP_INFO, 104)[5] & 7

    def shut_writing(self):
        self.sock.shutdown(socket.SHUT_WR)

    def keep_alive(self, idle, interval, count):
        """Probes an idle connection after so many seconds, and gives it up where so many probes have no answer."""
        self.sock.setsockopt(socket.SOL_SOCKET, socket.SO_KEEPALIVE, 1)
        options = (socket.TCP_KEEPIDLE, idle), (socket.TCP_KEEPINTVL, interval), (socket.TCP_KEEPCNT, count)
        for option, value in options:
            self.sock.setsockopt(socket.IPPROTO_TCP, option, value)

    def close(self):
        self.sock.close()

    def close_with_reset(self):
        """Closes without lingering: the kernel sends a reset (RFC 9293, 3.10.5)."""
        self.sock.setsockopt(socket.SOL_SOCKET, socket.SO_LINGER, struct.pack("ii", 1, 0))
        self.sock.close()


def new_socket(port, receive_buffer=None):
    sock = socket.socket()
    sock.setsockopt(socket.SOL_SOCKET, socket.SO_REUSEADDR, 1)
    if receive_buffer is not None:
        sock.setsockopt(socket.SOL_SOCKET, socket.SO_RCVBUF, receive_buffer)
    sock.bind(("10.9.0.1", port))
    sock.setblocking(False)
    return sock


def listen(port, receive_buffer=None):
    sock = new_socket(port, receive_buffer)
    sock.listen()
    return sock


def connect(their_port, own_port):
    """A socket whose handshake with our end has begun."""
    sock = new_socket(own_port)
    sock.connect_ex(("10.9.0.2", their_port))
    return sock


def allows(option):
    """Whether the kernel's own settings allow this option."""
    with open(f"/proc/sys/net/ipv4/tcp_{option}") as file:
        return file.read().strip() != "0"


def details(our_port, kernel_port):
    """All that ss tells of the connection, for a failure's report."""
    return run("ss", "-taniomH", f"( sport = :{kernel_port} and dport = :{our_port} )")


def send_window(our_port, kernel_port):
    """The window that the kernel takes our end to have, or None where this ss doesn't tell it."""
    found = re.search(r"snd_wnd:(\d+)", details(our_port, kernel_port))
    return int(found[1]) if found else None


def state(our_port, kernel_port):
    """The state of the connection as ss tells it, or "none"."""
    lines = run("ss", "-tanH", f"( sport = :{kernel_port} and dport = :{our_port} )").split("\n")
    return lines[0].split()[0] if lines[0] else "none"
