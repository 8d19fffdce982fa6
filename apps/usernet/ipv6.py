"""IPv6 over usernet: connections, datagrams, names, echoes and errors, by TUN and by TAP. Each test is a function of the place."""

import contextlib
import errno
import http.server
import os
import socket
import subprocess
import sys
import threading

import world
from paths import INNER
from world import CLIENTS, Handler, need

GATEWAY6, NAMESERVER6, OWN6, FAR6, SILENT6 = "fd00::2", "fd00::3", "fd00::100", "2001:db8::1", "2001:db8:1::9"
LENGTHS = [0, 1, 2, 500, 1451, 1452]


class Server(http.server.ThreadingHTTPServer):
    address_family = socket.AF_INET6


def serve():
    """8081: Handler; 8090: datagrams come back; both at the loopback and at FAR6."""
    for host in "::1", FAR6:
        threading.Thread(target=Server((host, 8081), Handler).serve_forever, daemon=True).start()
        end = socket.socket(socket.AF_INET6, socket.SOCK_DGRAM)
        end.bind((host, 8090))
        threading.Thread(target=echo, args=(end,), daemon=True).start()
    print("ready", flush=True)
    threading.Event().wait()


def echo(end):
    while True:
        data, peer = end.recvfrom(65536)
        end.sendto(data, peer)


@contextlib.contextmanager
def servers(place):
    with contextlib.ExitStack() as stack:
        place.server("ip", "-6", "address", "replace", f"{FAR6}/128", "dev", "lo")
        place.server("ip", "-6", "route", "replace", "unreachable", f"{SILENT6}/128")
        place.start_server(stack, sys.executable, __file__, "--serve")
        yield


def all_of_it(place):
    """What every client does."""
    for host in GATEWAY6, FAR6:
        for length in 0, 1, 1000000:
            text = place.client(sys.executable, __file__, "--get", host, length)
            need(f"{length} bytes of {host}", int(text), length)
        found = place.client("curl", "-sf", "--max-time", "60", "-T", str(place.folder / "large"), f"http://[{host}]:8081/")
        need("upload", found, place.digest("large"))
        place.client(sys.executable, __file__, "--datagrams", host)
    for host in GATEWAY6, NAMESERVER6, FAR6:
        text = place.client("ping", "-6", "-c", "10", "-i", "0.05", "-W", "1", host)
        need(f"echoes of {host}", " 10 received, 0% packet loss" in text, True)
    for host, port, wanted in (GATEWAY6, 9, "ECONNREFUSED"), (SILENT6, 9, "EHOSTUNREACH"), ("2001:db8:2::1", 9, "ENETUNREACH"):
        place.client(sys.executable, __file__, "--connecting", host, port, wanted)
    place.client(sys.executable, __file__, "--questions", NAMESERVER6)


def ipv6(place):
    """By a TUN device and by a TAP device, with offloads and without."""
    with servers(place):
        for *more, device in ("tun0",), ("--no-offloads", "tun0"), ("-c", "tap0"), ("-c", "--no-offloads", "tap0"):
            if device == "tap0":
                place.client("ip", "tuntap", "add", "dev", "tap0", "mode", "tap")
            with place.usernet(0, "-6", *more, device):
                need("the address", f"{OWN6}/64" in place.client("ip", "-6", "address", "show", "dev", device), True)
                all_of_it(place)
                place.until(lambda: place.counters()["now"] == 0)
            if device == "tap0":
                place.client("ip", "link", "delete", "tap0")


def without_own(place):
    """On a TAP device that nobody configures the namespace's kernel makes an address and a route of what the router says."""
    place.client("ip", "tuntap", "add", "dev", "tap0", "mode", "tap")
    place.client("sysctl", "-qw", "net.ipv6.conf.tap0.accept_dad=0")
    with servers(place), place.usernet(0, "-6", "tap0"):
        place.client("ip", "link", "set", "tap0", "mtu", "1400", "up")
        place.until(lambda: " fd00:" in place.client("ip", "-6", "address", "show", "dev", "tap0"))
        place.until(lambda: "default" in place.client("ip", "-6", "route"))
        need("the MTU by the router", place.client("sysctl", "-n", "net.ipv6.conf.tap0.mtu").strip(), "1400")
        need("a page", int(place.client(sys.executable, __file__, "--get", GATEWAY6, 100000)), 100000)
    place.client("ip", "link", "delete", "tap0")


def ipv6_boxed(place):
    """With sandbox and filter; and with an address of the host's to go out by. Its loopback can be left alone, and is reached by no other form
    of its address."""
    boxes = [] if "WITHOUT_SECCOMP" in os.environ else ["--enable-sandbox", "--enable-seccomp"]
    with servers(place), place.usernet(0, "-6", *boxes):
        all_of_it(place)
    with servers(place), place.usernet(0, "-6", *boxes, "--disable-host-loopback", "--outbound-addr6", FAR6):
        need("a page", int(place.client(sys.executable, __file__, "--get", FAR6, 1000)), 1000)
        place.client(sys.executable, __file__, "--connecting", GATEWAY6, 8081, "ECONNREFUSED")
    with servers(place), place.usernet(0, "-6"):
        for host in "::ffff:127.0.0.1", "::127.0.0.1", "fe80::1", "::1":
            place.client(sys.executable, __file__, "--never", host, 8081)
    with place.usernet(0):
        need("no IPv6", OWN6 in place.client("ip", "-6", "address"), False)


def narrow_ipv6(place):
    """A download goes on where a router behind the namespace takes less than its first link, by what ICMPv6 says."""
    with servers(place):
        for more in [], ["--no-offloads"]:
            with place.usernet(0, "-6", *more), contextlib.ExitStack() as stack:
                subprocess.run(["ip", "netns", "delete", INNER], stderr=subprocess.DEVNULL)
                subprocess.run(["ip", "netns", "add", INNER], check=True)
                stack.callback(subprocess.run, ["ip", "netns", "delete", INNER])
                place.client("ip", "link", "add", "outside", "mtu", "1280", "type", "veth", "peer", "name", "inside", "netns", INNER)
                for space, device, addr in (CLIENTS, "outside", "fd01::1"), (INNER, "inside", "fd01::2"):
                    place.run(space, ["ip", "address", "add", f"{addr}/64", "dev", device, "nodad"])
                    place.run(space, ["ip", "link", "set", device, "up"])
                place.run(INNER, ["ip", "link", "set", "inside", "mtu", "1500"])
                place.run(INNER, ["ip", "route", "add", "default", "via", "fd01::1"])
                place.client("sysctl", "-qw", "net.ipv6.conf.all.forwarding=1")
                need("a page", int(place.run(INNER, [sys.executable, __file__, "--get", GATEWAY6, 1000000])), 1000000)
                counters = place.counters()
                need("errors, narrowed", [counters["errors"] > 0, 0 < counters["narrowed"] <= 6], [True, True])
    place.client("sysctl", "-qw", "net.ipv6.conf.all.forwarding=0")


def cut_ipv6(place):
    """Datagrams and echoes longer than the device's MTU are put together from their pieces; also where some are lost, or one comes twice."""
    with servers(place):
        for fault, *more in (0,), (0, "--no-offloads"), (1,), (0, "-c", "tap0"):
            if "tap0" in more:
                place.client("ip", "tuntap", "add", "dev", "tap0", "mode", "tap")
            with place.usernet(fault, "-6", *more):
                for host in GATEWAY6, FAR6:
                    place.client(sys.executable, __file__, "--long", host)
                    text = place.client("ping", "-6", "-c", "10", "-i", "0.05", "-W", "1", "-s", "20000", host)
                    need(f"echoes of {host}", fault > 0 or " 10 received, 0% packet loss" in text, True)
                counters = place.counters()
                need("put together", counters["joined"] >= (80 if fault else 100) and counters["pieces"] >= 12 * 20, True)
        place.client("ip", "link", "delete", "tap0")


def send_long(host):
    from clients import asked

    for number in range(10):
        with socket.socket(socket.AF_INET6, socket.SOCK_DGRAM) as end:
            end.connect((host, 8090))
            texts = [bytes((number * 7 + at * at) % 251 for at in range(length)) for length in (1453, 2953, 9000, 65507)]
            for at, text in enumerate(texts):
                need(f"a datagram of {len(text)}", asked(end, text, texts[:at]) == text, True)


def get(host, length):
    import http.client

    connection = http.client.HTTPConnection(host, 8081, timeout=20)
    connection.request("GET", f"/{length}")
    body = connection.getresponse().read()
    need("the page", body == bytes(i % 251 for i in range(length)), True)
    print(len(body))


def send_datagrams(host):
    """Each comes back as it was; and where nobody is the sender is told."""
    for number in range(10):
        with socket.socket(socket.AF_INET6, socket.SOCK_DGRAM) as end:
            end.settimeout(10)
            end.connect((host, 8090))
            for length in LENGTHS:
                text = bytes((number + at) % 251 for at in range(length))
                end.send(text)
                need("a datagram", end.recv(65536), text)
    with socket.socket(socket.AF_INET6, socket.SOCK_DGRAM) as end:
        end.settimeout(10)
        end.connect((host, 9))
        with contextlib.suppress(ConnectionRefusedError):
            end.send(b"?")
            end.recv(9)
            raise AssertionError("nobody answered")


def connecting(host, port, wanted):
    with socket.socket(socket.AF_INET6) as end:
        end.settimeout(20)
        need("the fault", errno.errorcode[end.connect_ex((host, int(port)))], wanted)


def never(host, port):
    """A SYN to there, which the namespace's kernel wouldn't send by itself, is answered by nothing but a reset, and opens nothing."""
    text = socket.inet_pton(socket.AF_INET6, host)
    own = socket.inet_pton(socket.AF_INET6, "fd00::77")
    segment = bytes([0x10, 0, int(port) >> 8, int(port) & 255]) + bytes(8) + bytes([0x50, 2, 4, 0]) + bytes(4)
    words = own + text + len(segment).to_bytes(4, "big") + bytes([0, 0, 0, 6]) + segment
    total = sum(int.from_bytes(words[at : at + 2], "big") for at in range(0, len(words), 2))
    total = (total & 0xFFFF) + (total >> 16)
    total = (total & 0xFFFF) + (total >> 16)
    segment = segment[:16] + (~total & 0xFFFF).to_bytes(2, "big") + segment[18:]
    with socket.socket(socket.AF_PACKET, socket.SOCK_DGRAM, socket.htons(0x86DD)) as end:
        end.bind(("tun0", 0x86DD))
        end.settimeout(0.7)
        end.send(bytes([0x60, 0, 0, 0, 0, len(segment), 6, 64]) + own + text + segment)
        while True:
            try:
                packet, (_, _, kind, *_) = end.recvfrom(65536)
            except TimeoutError:
                return
            if kind != socket.PACKET_OUTGOING and packet[6] == 6 and packet[24:40] == own:
                need("its bits", packet[53] & 4, 4)


def ask(host):
    from clients import question

    with socket.socket(socket.AF_INET6, socket.SOCK_DGRAM) as end:
        end.settimeout(10)
        end.connect((host, 53))
        end.send(question("a.test"))
        need("the address", end.recv(512)[-4:], socket.inet_aton(world.GATEWAY))


IPV6 = [ipv6, without_own, ipv6_boxed, narrow_ipv6, cut_ipv6]

if __name__ == "__main__":
    calls = {"--get": lambda host, length: get(host, int(length)), "--datagrams": send_datagrams, "--connecting": connecting, "--questions": ask,
             "--serve": serve, "--never": never, "--long": send_long}
    calls[sys.argv[1]](*sys.argv[2:])
