"""Which of the host's ports and addresses the namespace's datagrams and connections go out by, and whose answers come in. Each test is a
function of the place."""

import contextlib
import os
import socket
import subprocess
import sys
import threading

import world
from ipv6 import FAR6, GATEWAY6
from world import CLIENTS, FAR, GATEWAY, need

OTHER, OTHER6, DEVICE, OUTER, OUTER6 = "192.0.2.7", "2001:db8::7", "outer0", "198.51.100.20", "2001:db8:5::20"
# Of the loopback and of far hosts: tells whom it sees. ELSEWHERE answers from OTHER's port and from one port further. SENDS sends, from the
# loopback, to the port that it is told.
SEES, ELSEWHERE, SENDS = 9001, 9003, 9010
# Seconds within which an answer comes, or none is waited for any longer.
SOON, LONG = 1, 10


def bound(host, port=0):
    end = socket.socket(socket.AF_INET6 if ":" in host else socket.AF_INET, socket.SOCK_DGRAM)
    end.setsockopt(socket.SOL_SOCKET, socket.SO_REUSEADDR, 1)
    end.bind((host, port))
    return end


def serve():
    loopback = {FAR: "127.0.0.1", FAR6: "::1"}
    for far, other in (FAR, OTHER), (FAR6, OTHER6):
        for host, port in (loopback[far], SEES), (far, SEES), (far, SEES + 1):
            start(sees, bound(host, port))
        start(elsewhere, bound(far, ELSEWHERE), [bound(far, ELSEWHERE + 1), bound(other, ELSEWHERE)])
        start(sends, bound(far, SENDS), bound(loopback[far], SENDS))
    print("ready", flush=True)
    threading.Event().wait()


def start(call, *words):
    threading.Thread(target=call, args=words, daemon=True).start()


def sees(end):
    while True:
        _, peer = end.recvfrom(100)
        end.sendto(f"{peer[0]} {peer[1]}".encode(), peer)


def elsewhere(end, others):
    while True:
        _, peer = end.recvfrom(100)
        for other in others:
            other.sendto(b"elsewhere", peer)


def sends(end, from_loopback):
    """To whoever asks, from the loopback, and then an answer."""
    while True:
        _, peer = end.recvfrom(100)
        from_loopback.sendto(b"loopback", peer)
        end.sendto(b"done", peer)


def asked(end, to):
    end.sendto(b"?", to)
    return end.recvfrom(100)


def plain(peer):
    return peer[:2]


def one_socket(far, gateway, other, has_loopback):
    """One socket of the namespace has one port of the host's, wherever it sends; who answers from elsewhere is heard by its own address; the
    host's loopback is once it was asked, as the gateway."""
    own = bound("::" if ":" in far else "0.0.0.0")
    own.settimeout(LONG)
    with own:
        # Nobody of the host's loopback has been asked yet.
        need("the far host alone", [asked(own, (far, SENDS))[0]], [b"done"])
        ports = {asked(own, (far, port))[0].split()[1] for port in (SEES, SEES + 1)}
        if has_loopback:
            data, peer = asked(own, (gateway, SEES))
            need("the gateway", plain(peer), (gateway, SEES))
            ports.add(data.split()[1])
        need("the host's ports", len(ports), 1)
        found = {plain(asked(own, (far, ELSEWHERE))[1]), plain(own.recvfrom(100)[1])}
        need("who answered", found, {(far, ELSEWHERE + 1), (other, ELSEWHERE)})
        answers = {asked(own, (far, SENDS))}
        if has_loopback:
            answers.add(own.recvfrom(100))
        wanted = {(b"done", (far, SENDS))} | ({(b"loopback", (gateway, SENDS))} if has_loopback else set())
        need("from the loopback", {(data, plain(peer)) for data, peer in answers}, wanted)
        own.settimeout(SOON)
        with contextlib.suppress(TimeoutError):
            need("one more", own.recvfrom(100), None)


def unasked(far, port):
    """Tells a far host's process the host's port that this socket has, and then hears who sends there."""
    own = bound("::" if ":" in far else "0.0.0.0")
    own.settimeout(LONG)
    with own:
        print(asked(own, (far, SEES))[0].split()[1].decode(), flush=True)
        while True:
            data, peer = own.recvfrom(100)
            if data == b"end":
                return
            print(data.decode(), peer[0], flush=True)


def send(port, *hosts):
    """Who was never asked sends to a port of the host's: from each of these addresses, and at the end from the first one."""
    port = int(port)
    for host, text in [(host, b"unasked") for host in hosts] + [(hosts[0], b"end")]:
        with bound(host) as end:
            end.sendto(text, (FAR6 if ":" in host else FAR, port))


@contextlib.contextmanager
def servers(place):
    with contextlib.ExitStack() as stack:
        for addr in f"{FAR6}/128", f"{OTHER6}/128", f"{OTHER}/32", "10.0.2.2/32", "10.0.2.3/32", "10.0.2.100/32", "fd00::2/128":
            place.server("ip", "address", "replace", addr, "dev", "lo")
            if FAR6 not in addr:
                stack.callback(place.server, "ip", "address", "delete", addr, "dev", "lo")
        place.start_server(stack, sys.executable, __file__, "--serve")
        yield


def one_port(place):
    """With and without the host's loopback, by both families, with sandbox and filter; and from an address of the host."""
    boxes = [] if "WITHOUT_SECCOMP" in os.environ else ["--enable-sandbox", "--enable-seccomp"]
    for more in [], ["--disable-host-loopback"], boxes, ["--outbound-addr", FAR, "--outbound-addr6", FAR6]:
        with servers(place), place.usernet(0, "-6", *more):
            for words in (FAR, GATEWAY, OTHER), (FAR6, GATEWAY6, OTHER6):
                place.client(sys.executable, __file__, "--one-socket", *words, int("--disable-host-loopback" not in more))
            need("flows", place.counters()["flows_now"], 2)


def heard(place):
    """Whoever sends to the port is heard, as peers are that a third one has told of each other; but nobody who takes an address for his own
    that this network gives a meaning."""
    with servers(place), place.usernet(0, "-6"):
        for far, *hosts in (FAR, OTHER, "10.0.2.2", "10.0.2.3", "10.0.2.100"), (FAR6, OTHER6, "fd00::2"):
            words = place.words(CLIENTS, [sys.executable, __file__, "--unasked", far, 0])
            with world.Child(words, stdout=-1, text=True) as child:
                place.server(sys.executable, __file__, "--send", child.stdout.readline().strip(), *hosts)
                need("who is heard", child.stdout.read(), f"unasked {hosts[0]}\n")
                need("its status", child.wait(LONG), 0)


def by_interface(place):
    """An interface's name stands for its address, of connections and of datagrams; one that isn't there is refused."""
    with servers(place), contextlib.ExitStack() as stack:
        place.server("ip", "link", "add", DEVICE, "type", "veth", "peer", "name", "outer1")
        stack.callback(place.server, "ip", "link", "delete", DEVICE)
        place.server("ip", "link", "set", DEVICE, "up")
        place.server("ip", "address", "add", f"{OUTER}/24", "dev", DEVICE)
        place.server("ip", "address", "add", f"{OUTER6}/64", "dev", DEVICE, "nodad")
        with place.usernet(0, "-6", "--outbound-addr", DEVICE, "--outbound-addr6", DEVICE):
            need("outbound", place.client("curl", "-sf", "--max-time", "20", f"http://{FAR}:8091/"), OUTER)
            for far, wanted in (FAR, OUTER), (FAR6, OUTER6):
                need("datagrams", place.client(sys.executable, __file__, "--seen", far).strip(), wanted)
    for word in "--outbound-addr", "--outbound-addr6":
        call = ["timeout", 5, world.HERE / "out" / place.program_name, "--netns", CLIENTS, word, "nowhere0"]
        done = subprocess.run(place.words(world.SERVERS, call), stderr=subprocess.PIPE, text=True)
        need("it is refused", (done.returncode, f"{word}=nowhere0" in done.stderr), (1, True))


def seen(far):
    with bound("::" if ":" in far else "0.0.0.0") as own:
        own.settimeout(LONG)
        print(asked(own, (far, SEES))[0].split()[0].decode())


MAPPINGS = [one_port, heard, by_interface]

if __name__ == "__main__":
    calls = {"--serve": serve, "--one-socket": lambda far, gateway, other, has: one_socket(far, gateway, other, has == "1"), "--unasked": unasked,
             "--send": send, "--seen": seen}
    calls[sys.argv[1]](*sys.argv[2:])
