"""Captures of TCP stacks that are judged: two kernels, gVisor's netstack, slirp4netns and pasta, each under the users of users.py."""

import contextlib
import os
import pathlib
import socket
import subprocess
import sys
import time
from collections import namedtuple

from wires import Relay, Tun, dumped, inside, namespaces, run, started, until

USERS = pathlib.Path(__file__).resolve().parent / "users.py"
CLIENTS, SERVERS = (f"judge-{name}-{os.getpid()}" for name in ("clients", "servers"))
CLIENT, SERVER = "10.7.0.1", "10.7.0.2"
# What slirp4netns and pasta map to the loopback of the namespace that they run in.
GATEWAY = "10.0.2.2"
ASKED = (("e", 1), ("e", 3000), ("h", 4000), ("d", 3000), ("r", 2000), ("a", 2000), ("e", 200000), ("h", 60000), ("d", 100000), ("s", 150000))
# pasta sends what waits on a half-closed connection again and again, as new bytes of the stream, and closes no half after the other.
SHORT = [("e", 1), ("h", 700)]
LOSSY = {"lost": 0.04, "doubled": 0.02, "late": 0.05}


class Taken(namedtuple("Taken", "stack path side is_whole", defaults=[True])):
    """One side of a capture's connections: A opened them. `is_whole` where it was captured at that side, so that nothing that this side
    sent or received is missing."""


def ask_all(address, asked=ASKED, patience=30):
    for kind, size in asked:
        run(*inside(CLIENTS, sys.executable, USERS, "ask", address, kind, size, patience))


@contextlib.contextmanager
def serving(space, address):
    with started(*inside(space, sys.executable, USERS, "serve", address)):
        yield


def kernels(folder):
    """Two kernels with a device between them, whose trains are longer than a segment and whose checksums are left to it."""
    path = folder / "kernels.pcapng"
    with namespaces(CLIENTS, SERVERS):
        run("ip", "link", "add", "veth0", "netns", CLIENTS, "type", "veth", "peer", "name", "veth0", "netns", SERVERS)
        for space, address in (CLIENTS, CLIENT), (SERVERS, SERVER):
            run(*inside(space, "ip", "addr", "add", f"{address}/24", "dev", "veth0"))
            run(*inside(space, "ip", "link", "set", "veth0", "up"))
        with serving(SERVERS, SERVER), dumped(CLIENTS, "veth0", path):
            ask_all(SERVER)
    return [Taken("kernel, trains", path, "A"), Taken("kernel, trains", path, "B", False)]


def relayed(folder, name, make_server, seed, asked=ASKED, **fractions):
    """A kernel's users ask a server of the stack of this name behind a wire, which loses, doubles and reorders where it has `fractions`."""
    wire = "lossy" if fractions else "clean"
    at_client, at_server = paths = [folder / f"{name}-{wire}-{place}.pcap" for place in ("client", "server")]
    with contextlib.ExitStack() as stack:
        stack.enter_context(namespaces(CLIENTS, SERVERS))
        sides = [Tun(CLIENTS, "judge0", CLIENT), make_server(stack)]
        stack.enter_context(Relay(sides, paths, seed, **fractions))
        if name == "kernel":
            stack.enter_context(serving(SERVERS, SERVER))
        ask_all(SERVER, asked)
        # What is lost of the last segments is sent again.
        time.sleep(1 if fractions else 0.2)
    # Each is judged where it was captured, and elsewhere.
    return [Taken(name, at_server, "B"), Taken(name, at_client, "B", False), Taken("kernel", at_client, "A"), Taken("kernel", at_server, "A", False)]


def kernel_side(stack):
    return Tun(SERVERS, "judge0", SERVER)


class Piped:
    """The side of a wire that a program has as its file 3."""

    def __init__(self, stack, *words):
        own, its = socket.socketpair(socket.AF_UNIX, socket.SOCK_SEQPACKET)
        for end in own, its:
            end.setsockopt(socket.SOL_SOCKET, socket.SO_SNDBUF, 4 << 20)
        program = subprocess.Popen(["bash", "-c", f'exec "$@" 3<&{its.fileno()}', "bash", *words], pass_fds=[its.fileno()],
                                   stdout=subprocess.PIPE, text=True)
        its.close()
        stack.callback(program.wait)
        stack.callback(program.kill)
        assert program.stdout.readline() == "ready\n", words
        own.setblocking(False)
        self.socket, self.file = own, own.fileno()

    def read(self):
        return self.socket.recv(65536)

    def write(self, packet):
        self.socket.send(packet)

    def close(self):
        self.socket.close()


def add_uplink():
    """A route out of the servers' namespace, after which pasta shapes its device. Nothing goes there."""
    run("ip", "link", "add", "up0", "netns", SERVERS, "type", "veth", "peer", "name", "up1", "netns", SERVERS)
    for words in (["addr", "add", "10.0.2.100/24", "dev", "up0"], ["link", "set", "up0", "up"], ["link", "set", "up1", "up"],
                  ["route", "add", "default", "via", GATEWAY, "dev", "up0"]):
        run(*inside(SERVERS, "ip", *words))


def tapped(folder, device, words, asked=ASKED, patience=30):
    """A program that is the TCP of a namespace over a device of its own, and its servers' loopback."""
    path = folder / f"{words[0]}.pcapng"
    with namespaces(CLIENTS, SERVERS), serving(SERVERS, "127.0.0.1"):
        add_uplink()
        with started(*inside(SERVERS, *words), is_ready=lambda: "10.0.2.100" in run(*inside(CLIENTS, "ip", "-4", "addr"))):
            time.sleep(0.5)
            with dumped(CLIENTS, device, path):
                ask_all(GATEWAY, asked, patience)
    # Between the device and the program nothing is lost or reordered.
    return [Taken(words[0], path, "B")]


def slirp(folder):
    return tapped(folder, "tap0", ["slirp4netns", "--configure", "--mtu=1500", "--netns-type=path", f"/run/netns/{CLIENTS}", "tap0"])


def pasta(folder):
    words = ["pasta", "--foreground", "--runas", "0", "--config-net", "--mtu", "1500", "--address", "10.0.2.100", "--netmask", "24",
             "--gateway", GATEWAY, "--ns-ifname", "tun0", "--netns", f"/run/netns/{CLIENTS}"]
    return tapped(folder, "tun0", words, [ask for ask in ASKED if ask[0] not in "eh"] + SHORT, patience=3)


def captures(netstack):
    """What makes the captures: functions of a folder, each for the sides that it has captured. `netstack` is netstack.go's program."""
    servers = [("kernel", kernel_side)]
    if netstack is not None:
        servers.append(("gVisor", lambda stack: Piped(stack, netstack, SERVER)))
    wires = [lambda folder, name=name, make=make, fractions=fractions: relayed(folder, name, make, 2, **fractions)
             for name, make in servers for fractions in ({}, LOSSY)]
    return [kernels, *wires, slirp, pasta]
