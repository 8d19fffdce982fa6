"""What ICMP says, both ways: the host's faults to clients, and routers of the namespace to the ends. Each test is a function of the place."""

import contextlib
import errno
import json
import os
import socket
import struct
import subprocess
import sys

import clients
import publishing
from world import CLIENTS, FAR, GATEWAY, SERVERS, Child, need

INNER, OUTSIDE, INSIDE = "usernet-inner", "10.99.0.1", "10.99.0.2"
ROUTER, END, BEHIND = "usernet-router", "usernet-end", ("100.64.2.3", "2001:db8:b::3")


def connecting(host, port, wanted):
    """Connecting fails at once, with this error."""
    with socket.socket() as end:
        end.settimeout(20)
        need("the fault", errno.errorcode[end.connect_ex((host, port))], wanted)


def no_way(place):
    """A host to which there is no way, and one that isn't there, are told apart from one that refuses."""
    place.server("ip", "route", "add", "unreachable", "198.51.100.9")
    with place.usernet(0):
        for host, wanted in ("203.0.113.1", "ENETUNREACH"), ("198.51.100.9", "EHOSTUNREACH"), (GATEWAY, "ECONNREFUSED"):
            place.client(sys.executable, __file__, "--connecting", host, "9", wanted)
        need("unreachable", place.counters()["unreachable"] >= 2, True)
    place.server("ip", "route", "delete", "unreachable", "198.51.100.9")


@contextlib.contextmanager
def inner_network(place, mtu):
    """A network behind the namespace, whose router takes so many bytes towards its one host, which doesn't know."""
    with contextlib.ExitStack() as stack:
        subprocess.run(["ip", "netns", "delete", INNER], stderr=subprocess.DEVNULL)
        subprocess.run(["ip", "netns", "add", INNER], check=True)
        stack.callback(subprocess.run, ["ip", "netns", "delete", INNER])
        place.client("ip", "link", "add", "outside", "mtu", mtu, "type", "veth", "peer", "name", "inside", "netns", INNER)
        for space, device, addr in (CLIENTS, "outside", OUTSIDE), (INNER, "inside", INSIDE):
            place.run(space, ["ip", "address", "add", f"{addr}/24", "dev", device])
            place.run(space, ["ip", "link", "set", device, "up"])
        place.run(INNER, ["ip", "link", "set", "inside", "mtu", "1500"])
        place.run(INNER, ["ip", "route", "add", "default", "via", OUTSIDE])
        place.client("sysctl", "-qw", "net.ipv4.ip_forward=1")
        yield


def narrow(place):
    """A download goes on where the path is narrower than the first link, also narrower than any error may make a packet; and one past it
    by another way is as before."""
    for more in [], ["--no-offloads"]:
        for mtu in 1200, 500:
            with place.usernet(0, *more), inner_network(place, mtu):
                words = ["curl", "-sf", "--max-time", "60", f"http://{GATEWAY}:8081/1000000"]
                found = subprocess.run(place.words(INNER, words), stdout=subprocess.PIPE, check=True).stdout
                need("what came", found == bytes(i % 251 for i in range(1000000)), True)
                counters = place.counters()
                need("errors, narrowed", [counters["errors"] > 0, 0 < counters["narrowed"] <= 3], [True, True])


def carried_further(place):
    """A published port leads to a host behind the namespace. Where nobody is there, or no way, an error ends the handshake or doesn't."""
    entry = {"proto": "tcp", "host_addr": "127.0.0.1", "host_port": 7200, "guest_addr": INSIDE, "guest_port": 8000}
    with publishing.with_api(place) as path, inner_network(place, 1500):
        need("published", "return" in json.loads(publishing.ask(path, publishing.call("add_hostfwd", entry))), True)
        with Child(place.words(INNER, [sys.executable, publishing.__file__, "--accept", "8000"])):
            place.until(lambda: ":8000 " in place.run(INNER, ["ss", "-Htln"]))
            place.server(sys.executable, __file__, "--answered", "7200")
        for code, wanted in (1, "waits"), (13, "waits"), (3, "reset"), (2, "reset"):
            with contextlib.ExitStack() as stack:
                place.run(INNER, ["ip", "link", "set", "inside", "down"])
                child = place.start_client(sys.executable, "-u", __file__, "--object", INSIDE, code)
                stack.enter_context(child)
                place.until(lambda: listens_to_all(place))
                place.server(sys.executable, __file__, f"--{wanted}", "7200")
                place.run(INNER, ["ip", "link", "set", "inside", "up"])
                place.run(INNER, ["ip", "route", "replace", "default", "via", OUTSIDE])


@contextlib.contextmanager
def routed(place):
    """A host behind a router of the host's: by IPv4 and by IPv6."""
    spaces = {ROUTER: [("near", "100.64.1.2", "2001:db8:a::2"), ("far", "100.64.2.2", "2001:db8:b::2")], END: [("end", *BEHIND)]}
    with contextlib.ExitStack() as stack:
        for space in spaces:
            subprocess.run(["ip", "netns", "delete", space], stderr=subprocess.DEVNULL)
            subprocess.run(["ip", "netns", "add", space], check=True)
            stack.callback(subprocess.run, ["ip", "netns", "delete", space])
        place.server("ip", "link", "add", "way", "type", "veth", "peer", "name", "near", "netns", ROUTER)
        place.run(ROUTER, ["ip", "link", "add", "far", "type", "veth", "peer", "name", "end", "netns", END])
        for space, links in (SERVERS, [("way", "100.64.1.1", "2001:db8:a::1")]), *spaces.items():
            for device, v4, v6 in links:
                place.run(space, ["ip", "address", "add", f"{v4}/24", "dev", device])
                place.run(space, ["ip", "address", "add", f"{v6}/64", "dev", device, "nodad"])
                place.run(space, ["ip", "link", "set", device, "up"])
        place.run(ROUTER, ["sysctl", "-qw", "net.ipv4.ip_forward=1", "net.ipv6.conf.all.forwarding=1"])
        for space, *routes in (SERVERS, ("100.64.2.0/24", "100.64.1.2"), ("2001:db8:b::/64", "2001:db8:a::2")), \
                (END, ("100.64.1.0/24", "100.64.2.2"), ("2001:db8:a::/64", "2001:db8:b::2")):
            for to, via in routes:
                place.run(space, ["ip", "route", "add", to, "via", via])
        yield


def traced(place):
    """The routers on the way to a host are seen, the gateway first, by datagrams and by echoes; others' packets still come as far as before."""
    boxes = [] if "WITHOUT_SECCOMP" in os.environ else ["--enable-sandbox", "--enable-seccomp"]
    with routed(place), place.usernet(0, "-6", *boxes):
        for by in [], ["-I"]:
            for host, *wanted in (BEHIND[0], GATEWAY, "100.64.1.2", BEHIND[0]), (BEHIND[1], "fd00::2", "2001:db8:a::2", BEHIND[1]):
                text = place.client("traceroute", "-n", "-q", "1", "-w", "5", "-m", "5", *by, host)
                need("the way", [line.split()[1] for line in text.splitlines()[1:]], wanted)
                text = place.client("ping", "-n", "-c", "2", "-i", "0.1", "-W", "5", host)
                need("echoes", " 2 received" in text, True)
        # An error of a router's is about the echo that met it.
        words = place.words(CLIENTS, ["ping", "-n", "-c", "3", "-i", "0.1", "-W", "5", "-t", "2", BEHIND[0]])
        text = subprocess.run(words, stdout=subprocess.PIPE, text=True).stdout
        need("expired", [f"From 100.64.1.2 icmp_seq={number} Time to live exceeded" in text for number in (1, 2, 3)], [True] * 3)


def listens_to_all(place):
    return len(place.client("cat", "/proc/net/packet").splitlines()) > 1


def object_to(host, code):
    """Answers each SYN to a host by an ICMP error with this code, as its router would."""
    with socket.socket(socket.AF_PACKET, socket.SOCK_DGRAM, socket.htons(0x0800)) as all_packets, \
            socket.socket(socket.AF_INET, socket.SOCK_RAW, socket.IPPROTO_ICMP) as out:
        all_packets.bind(("tun0", 0x0800))
        while True:
            packet, (_, _, kind, *_) = all_packets.recvfrom(65536)
            if kind == socket.PACKET_OUTGOING or packet[9] != 6 or packet[16:20] != socket.inet_aton(host) or packet[33] & 0x12 != 2:
                continue
            message = struct.pack(">BBHI", 3, code, 0, 0) + packet[:28]
            total = sum(struct.unpack(f">{len(message) // 2}H", message))
            total = (total & 0xFFFF) + (total >> 16)
            total = (total & 0xFFFF) + (total >> 16)
            out.sendto(message[:2] + struct.pack(">H", ~total & 0xFFFF) + message[4:], (socket.inet_ntoa(packet[12:16]), 0))


def connected(port, seconds):
    """What becomes of a connection within so many seconds."""
    with contextlib.suppress(ConnectionResetError), socket.create_connection(("127.0.0.1", port), timeout=20) as end:
        end.settimeout(seconds)
        try:
            return end.recv(9)
        except TimeoutError:
            return "waits"
    return "reset"


def cut(place):
    """Datagrams and echoes longer than the device's MTU are put together from their pieces, also where some are lost."""
    for fault, *more in (0,), (0, "--no-offloads"), (1,), (0, "-c", "tap0"):
        if "tap0" in more:
            place.client("ip", "tuntap", "add", "dev", "tap0", "mode", "tap")
        with place.usernet(fault, *more):
            place.client(sys.executable, clients.__file__, "--long", GATEWAY)
            for host in GATEWAY, FAR:
                text = place.client("ping", "-c", "10", "-i", "0.05", "-W", "1", "-s", "20000", host)
                need(f"echoes of {host}", fault > 0 or " 10 received, 0% packet loss" in text, True)
            counters = place.counters()
            # Each datagram was put together once at least, and each echo where none of its pieces was lost.
            need("put together", counters["joined"] >= (80 if fault else 100) and counters["pieces"] >= 12 * 20, True)
    place.client("ip", "link", "delete", "tap0")


PATHS = [no_way, narrow, carried_further, cut, traced]

if __name__ == "__main__":
    word, *words = sys.argv[1:]
    if word == "--connecting":
        connecting(words[0], int(words[1]), words[2])
    elif word == "--object":
        object_to(words[0], int(words[1]))
    elif word == "--answered":
        need("answer", connected(int(words[0]), 20), b"here")
    elif word == "--waits":
        need("the connection", connected(int(words[0]), 3), "waits")
    elif word == "--reset":
        need("the connection", connected(int(words[0]), 10), "reset")
