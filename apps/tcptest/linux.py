"""A network namespace of the process's own, and a TUN device in it. It wants root, and `ip` of Debian's iproute2."""

import ctypes
import fcntl
import os
import struct
import subprocess

TUNSETIFF, IFF_TUN, IFF_NO_PI, CLONE_NEWNET = 0x400454CA, 1, 0x1000, 0x40000000
entered = []


def enter_namespace():
    """From here on the process sees an empty network, which goes when the process does."""
    if entered:
        return
    if ctypes.CDLL(None, use_errno=True).unshare(CLONE_NEWNET):
        raise OSError(ctypes.get_errno(), "a network namespace wants root")
    entered.append(True)
    ip("link", "set", "lo", "up")


def ip(*words):
    subprocess.run(("ip", *words), check=True, capture_output=True)


def set_kernel(name, value):
    """Sets a variable of net.ipv4 in the namespace that this process has entered, and never one of the machine's own network. Answers
    whether the kernel has it."""
    if not entered:
        raise OSError(f"net.ipv4.{name} would be set for the whole machine: it is set in a network namespace of the tester's own alone")
    path = os.path.normpath(f"/proc/sys/net/ipv4/{name}")
    if not path.startswith("/proc/sys/net/ipv4/") or not os.path.isfile(path):
        return False
    with open(path, "w") as file:
        file.write(str(value))
    return True


def open_tun(name, address):
    """The device's file. Its other side is the kernel's, with this address; nothing that one connection teaches the kernel is kept for
    the next one."""
    tun = os.open("/dev/net/tun", os.O_RDWR | os.O_NONBLOCK | os.O_CLOEXEC)
    fcntl.ioctl(tun, TUNSETIFF, struct.pack("16sH22x", name.encode(), IFF_TUN | IFF_NO_PI))
    set_kernel("tcp_no_metrics_save", 1)
    ip("addr", "add", f"{address}/24", "dev", name)
    ip("link", "set", name, "mtu", "1500", "txqueuelen", "10000", "up")
    return tun
