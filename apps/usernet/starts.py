"""Starts of the program with words of their own, each a function of the place: limits, what is left alone, devices, sandbox and faults."""

import contextlib
import os
import pathlib
import signal
import subprocess
import sys

import clients
import world
from clients import by_name, counted_again, datagrams, download, half_close, iperf, killed_clients, pings, published, refused, upload
from world import FAR, GATEWAY, NAMESERVER, need


def few_flows(place):
    """With a limit of 50 the oldest make way: the newest are served, and no more sockets are open."""
    with place.usernet(0, "--flows", 50):
        descriptors = place.descriptors()
        place.client(sys.executable, clients.__file__, "--questions", NAMESERVER, "300")
        need("flows", place.counters()["flows_now"], 50)
        need("descriptors", place.descriptors(), descriptors + 50)


def left_alone(place):
    """The host's loopback and its name server are left alone where the program is told so; the name server without the loopback isn't. All in
    another network, from another address of the host."""
    words = ["--cidr", "192.168.7.0/24", "--disable-host-loopback"]
    with place.usernet(0, *words):
        place.client(sys.executable, clients.__file__, "--questions", "192.168.7.3", "1")
        for call in ["curl", "-s", "--max-time", "20", "http://192.168.7.2:8080/"], ["curl", "-s", "--max-time", "20", "http://192.168.7.3:8080/"]:
            need("curl's status", place.client_status(*call), 7)
        place.client(sys.executable, clients.__file__, "--forbidden", "192.168.7.2", "8090")
    with place.usernet(0, "--cidr=192.168.7.0/24", "--disable-dns", "--outbound-addr", FAR):
        place.client(sys.executable, clients.__file__, "--forbidden", "192.168.7.3", "53")
        need("by another network", place.client_status("curl", "-sf", "-o", "/dev/null", "http://192.168.7.2:8080/small"), 0)
        need("outbound", place.client("curl", "-sf", "--max-time", "20", f"http://{FAR}:8091/"), FAR)
    with place.usernet(0, "--outbound-addr", "198.51.100.7"):  # nobody's
        need("curl's status", place.client_status("curl", "-s", "--max-time", "20", f"http://{FAR}:8091/"), 7)
        need("the loopback", place.client_status("curl", "-sf", "-o", "/dev/null", f"http://{GATEWAY}:8080/small"), 0)


def tapped(place):
    """Over a TAP device that somebody has made, with offloads and without."""
    for more in [], ["--no-offloads"]:
        place.client("ip", "tuntap", "add", "dev", "tap0", "mode", "tap")
        with place.usernet(0, *more, "-c", "tap0"):
            need("the device", "10.0.2.100/24" in place.client("ip", "-4", "address", "show", "dev", "tap0"), True)
            for call in download, upload, iperf, by_name, datagrams, pings, refused, published:
                call(place)
            place.client("ip", "link", "set", "tap0", "address", "02:00:00:00:00:77")
            place.client("ip", "route", "replace", "default", "via", GATEWAY)
            pings(place)
        place.client("ip", "link", "delete", "tap0")


def boxed(place):
    """With its sandbox and its filter all goes on as before; it has no rights, and sees no files but those of two folders."""
    with place.usernet(0, "--enable-sandbox", "--enable-seccomp"):
        status = dict(line.split(":\t") for line in pathlib.Path(f"/proc/{place.program.pid}/status").read_text().splitlines() if ":\t" in line)
        for name in "CapPrm", "CapEff", "CapBnd":
            need(name, int(status[name], 16), 0)
        need("filter", (status["NoNewPrivs"], status["Seccomp"]), ("1", "2"))
        need("its root", sorted(os.listdir(f"/proc/{place.program.pid}/root")), ["etc", "run"])
        mounts = [line.split()[4:6] for line in pathlib.Path(f"/proc/{place.program.pid}/mountinfo").read_text().splitlines()]
        need("what is mounted below a folder", len(mounts) > 3, True)
        need("what can be written to", [folder for folder, how in mounts if "ro" not in how.split(",")], [])
        for call in download, upload, iperf, by_name, datagrams, pings, refused, published, half_close, killed_clients, counted_again:
            call(place)
        place.program.send_signal(signal.SIGTERM)
        need("status", place.program.wait(10), 0)


def boxed_quietly(place):
    """The filter lets through what streams call by themselves: what is written goes to a device, and a word is at fault."""
    with open(clients.__file__) as file, open(os.devnull, "w") as nowhere:
        words = [world.HERE / "out" / place.program_name, "--netns", world.CLIENTS, "--enable-sandbox", "--enable-seccomp", "--exit-fd", file.fileno()]
        with world.Child(place.words(world.SERVERS, words), stdout=nowhere, stderr=nowhere, pass_fds=[file.fileno()]) as child:
            place.until(lambda: child.poll() is not None or place.client_status("ping", "-c", "1", "-W", "1", GATEWAY) == 0)
            need("it runs", child.poll(), None)
            place.client(sys.executable, clients.__file__, "--many", GATEWAY, "300", "0")
            child.terminate()
            need("its status", child.wait(10), 0)


def refused_words(place):
    """What can't be meant is said, and nothing begins: descriptors that nobody opened, ports that aren't, networks that are too small, names
    that are too long. A program whose descriptors are closed by mistake couldn't be ended, or would write to a connection."""
    path = "/" * 250 + f"run/netns/{world.CLIENTS}"
    publish = ["127.0.0.1:99999:80", "127.0.0.1:7005:80x", "127.0.0.1:7005:", "127.0.0.1:0:80", "127.0.0.1:7005:0", "a:7005:80", "::1:7005:80", "[::1:7005:80",
               "[127.0.0.1]:7005:80", "[::1]7005:80", "[]:7005:80"]
    cidr = ["10.0.2.0/24x", "10.0.2.0/26", "10.0.2.0/0", "10.0.2.0", "10.0.2/24", ""]
    words = [["--ready-fd", "99"], ["-r", "3"], ["-e", "99"], ["-r", "4294967297"], ["-r", "-1"], ["--netns", path], ["--netns-type=path", path],
             *(["--publish", word] for word in publish), *(["--cidr", word] for word in cidr), ["--publish", "127.0.0.1:7006:80", "-r", "3"],
             ["--outbound-addr", ""], ["--outbound-addr6", "10.0.0.1"], ["-m", "575"], ["-6", "-m", "1279"], ["--api-socket", ""], ["--threads", "2"], ["sixteen_is_a_lot"]]
    for call in words:
        space = [] if path in call else ["--netns", world.CLIENTS]
        done = subprocess.run(place.words(world.SERVERS, ["timeout", 5, world.HERE / "out" / place.program_name, *space, *call]), stdout=subprocess.PIPE,
                              stderr=subprocess.DEVNULL)
        need(str(call), (done.returncode, done.stdout), (1, b""))


def name_servers(place):
    """The file of name servers is read again where it has changed: the first one of IPv4 is asked, and what stands in a long remark isn't."""
    settings = pathlib.Path("/etc/netns") / world.SERVERS / "resolv.conf"
    kept = settings.read_text()
    with place.usernet(0):
        for text in "nameserver ::1\nnameserver 127.0.0.1", "#" * 255 + "nameserver 127.0.0.66\nnameserver 127.0.0.1", "nameserver 0.0.0.0", "":
            settings.write_text(text)
            place.client(sys.executable, clients.__file__, "--questions", NAMESERVER, "1")
    settings.write_text(kept)


def few_descriptors(place):
    """Where there may be hardly more descriptors than the program has by itself, flows and connections make way for each other."""
    words = ["prlimit", "--nofile=41", world.HERE / "out" / place.program_name, "--netns", world.CLIENTS]
    with contextlib.ExitStack() as stack:
        child = place.start_server(stack, *words)
        for _ in range(3):
            place.client(sys.executable, clients.__file__, "--questions", NAMESERVER, "3")
            need("it runs", child.poll(), None)


def descriptors_told(place):
    """The line with which podman starts slirp4netns. Who starts the program reads 1 once it is ready, and closes another descriptor to end
    it."""
    ready, tells = os.pipe()
    watched, held = os.pipe()
    space = "--netns-type=path", f"/run/netns/{world.CLIENTS}"
    boxes = [] if "WITHOUT_SECCOMP" in os.environ else ["--enable-sandbox", "--enable-seccomp"]
    words = ["--disable-host-loopback", "--mtu=65520", *boxes, "--enable-ipv6", "-c", "-e", watched, "-r", tells, *space, "tap0"]
    words.insert(0, world.HERE / "out" / place.program_name)
    with world.Child(place.words(world.SERVERS, words), stdout=subprocess.DEVNULL, pass_fds=(tells, watched)) as child:
        need("ready", os.read(ready, 9), b"1")
        need("the device", "10.0.2.100/24" in place.client("ip", "-4", "address", "show", "dev", "tap0"), True)
        need("it runs", child.poll(), None)
        os.close(held)
        need("its status", child.wait(10), 0)
    for descriptor in ready, tells, watched:
        os.close(descriptor)


# What wants libseccomp is passed over where the program was built without it.
BOXES = [] if "WITHOUT_SECCOMP" in os.environ else [boxed, boxed_quietly]
STARTS = [few_flows, few_descriptors, name_servers, refused_words, left_alone, tapped, *BOXES, descriptors_told]
