"""The host's name servers, by either family, and what is left alone. Each test is a function of the place."""

import contextlib
import errno
import os
import pathlib
import socket
import sys
import threading

import world
from clients import asked, question
from ipv6 import FAR6, NAMESERVER6
from world import GATEWAY, NAMESERVER, SERVERS, need

LINK6, DEVICE = "fe80::53", "names0"
# What each server says: that of 127.0.0.1 is world.py's own.
BY_V4, BY_V6, BY_LINK = GATEWAY, "192.0.2.66", "192.0.2.77"
LOOPBACK, FAR, LINK = "nameserver 127.0.0.1\n", f"nameserver {FAR6}\n", f"nameserver {LINK6}%{DEVICE}\n"


def serve():
    """Name servers at FAR6 and at an address of one link, which answer over TCP with the address alone."""
    for host, says in (FAR6, BY_V6), (f"{LINK6}%{DEVICE}", BY_LINK):
        place = socket.getaddrinfo(host, 53, socket.AF_INET6)[0][4]
        end, listener = socket.socket(socket.AF_INET6, socket.SOCK_DGRAM), socket.socket(socket.AF_INET6)
        for one in end, listener:
            one.setsockopt(socket.SOL_SOCKET, socket.SO_REUSEADDR, 1)
            one.bind(place)
        listener.listen()
        threading.Thread(target=answer, args=(end, socket.inet_aton(says)), daemon=True).start()
        threading.Thread(target=say, args=(listener, socket.inet_aton(says)), daemon=True).start()
    print("ready", flush=True)
    threading.Event().wait()


def answer(end, says):
    while True:
        data, peer = end.recvfrom(512)
        end.sendto(world.answer_of(data)[:-4] + says, peer)


def say(listener, says):
    while True:
        with listener.accept()[0] as end:
            end.sendall(says)


def ask(host, wanted):
    family = socket.AF_INET6 if ":" in host else socket.AF_INET
    with socket.socket(family, socket.SOCK_DGRAM) as end:
        end.connect((host, 53))
        need(f"what {host} says", socket.inet_ntoa(asked(end, question("a.test"))[-4:]), wanted)
    if wanted != BY_V4:
        with socket.create_connection((host, 53), timeout=20) as end:
            need(f"what {host} says over TCP", socket.inet_ntoa(end.recv(4)), wanted)


def nobody(host):
    """Neither datagrams nor connections lead anywhere."""
    family = socket.AF_INET6 if ":" in host else socket.AF_INET
    with socket.socket(family) as end:
        end.settimeout(10)
        need(f"{host} over TCP", errno.errorcode[end.connect_ex((host, 53))], "ECONNREFUSED")
    with socket.socket(family, socket.SOCK_DGRAM) as end:
        end.connect((host, 53))
        try:
            asked(end, question("a.test"))
        except OSError as fault:
            need(f"{host}", fault.errno in (errno.EHOSTUNREACH, errno.EACCES), True)
        else:
            raise AssertionError(f"{host} was answered")


@contextlib.contextmanager
def servers(place):
    """The name servers, and the file that names them."""
    settings = pathlib.Path("/etc/netns") / SERVERS / "resolv.conf"
    kept = settings.read_text()
    with contextlib.ExitStack() as stack:
        stack.callback(settings.write_text, kept)
        place.server("ip", "-6", "address", "replace", f"{FAR6}/128", "dev", "lo")
        place.server("ip", "link", "add", DEVICE, "type", "veth", "peer", "name", "names1")
        stack.callback(place.server, "ip", "link", "delete", DEVICE)
        for device in DEVICE, "names1":
            place.server("ip", "link", "set", device, "up")
        place.server("ip", "-6", "address", "add", f"{LINK6}/64", "dev", DEVICE, "nodad")
        place.start_server(stack, sys.executable, __file__, "--serve")
        yield settings


def says(place, *words):
    place.client(sys.executable, __file__, *words)


def names_by_family(place):
    """The first name server of either family is asked at that family's address, and that of the other one where there is none. So it is with
    sandbox and filter, which let the interface of a link's address be looked up."""
    boxes = [] if "WITHOUT_SECCOMP" in os.environ else ["--enable-sandbox", "--enable-seccomp"]
    for more in [], boxes:
        with servers(place) as settings, place.usernet(0, "-6", *more):
            for text, by_v4, by_v6 in ((LOOPBACK + FAR, BY_V4, BY_V6), (FAR + LOOPBACK, BY_V4, BY_V6), (FAR + LINK, BY_V6, BY_V6),
                                       (LINK + FAR, BY_LINK, BY_LINK), (LOOPBACK, BY_V4, BY_V4), (LOOPBACK + LINK, BY_V4, BY_LINK)):
                settings.write_text(text)
                says(place, "--ask", NAMESERVER, by_v4, NAMESERVER6, by_v6)
    with servers(place) as settings, place.usernet(0, *boxes):  # without IPv6 inside
        settings.write_text(FAR)
        says(place, "--ask", NAMESERVER, BY_V6)


def no_names(place):
    """Where no name server is named the host's own is asked, as its programs do, but not where its loopback is left alone."""
    with servers(place) as settings:
        for text in "", "search test\n", "nameserver nonsense\n":
            settings.write_text(text)
            with place.usernet(0, "-6"):
                says(place, "--ask", NAMESERVER, BY_V4, NAMESERVER6, BY_V4)
            with place.usernet(0, "-6", "--disable-host-loopback"):
                says(place, "--nobody", NAMESERVER, NAMESERVER6)
        settings.write_text(LOOPBACK)
        with place.usernet(0, "-6", "--disable-host-loopback"):  # it is named
            says(place, "--ask", NAMESERVER, BY_V4, NAMESERVER6, BY_V4)
        with place.usernet(0, "-6", "--disable-dns"):
            says(place, "--nobody", NAMESERVER, NAMESERVER6)


NAMES = [names_by_family, no_names]

if __name__ == "__main__":
    word, *words = sys.argv[1:]
    if word == "--serve":
        serve()
    elif word == "--ask":
        for asks, wanted in zip(words[::2], words[1::2]):
            ask(asks, wanted)
    else:
        for asks in words:
            nobody(asks)
