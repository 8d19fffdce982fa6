"""A hostile namespace, in which fuzz.c writes whatever it likes to the device of a usernet under sanitizers:
hostile.py [PACKETS [SEED]], so many packets of all kinds, 20,000 where none are named.

What must hold: nothing is reported, nothing is left, the limits hold, whoever else is in the namespace is served, and nothing spins.
"""

import argparse
import contextlib
import os
import pathlib
import resource
import select
import signal
import socket
import subprocess
import sys
import time

import ipv6
import publishing
import world
from world import CLIENTS, GATEWAY, HERE, SERVERS, need

# What --help tells, and the most descriptors that are for no connection.
CONNECTIONS, HALF_OPEN, EACH, FLOWS, SPARE = 4096, 1024, 256, 1024, 64
KINDS = "resets", "options", "half_open", "scan", "windows", "storm", "noise", "packets", "endings", "datagrams", "messages", "errors", "pieces", "sixes", "pieces6"
# Seconds within which a client is served, whatever else goes on.
SOON = 10


class Hostile(world.World):
    """The servers of world.py alone, and a network of the host's in which nobody answers."""

    program_name = os.environ.get("PROGRAM", "usernet.sanitized")

    def start_servers(self, stack):
        os.environ["ASAN_OPTIONS"] = os.environ["UBSAN_OPTIONS"] = f"log_path={self.folder}/report:print_stacktrace=1"
        self.start_server(stack, sys.executable, HERE / "world.py", "--serve")
        stack.enter_context(ipv6.servers(self))
        self.server("ip", "link", "add", "silent", "type", "veth", "peer", "name", "nobody")
        self.server("ip", "addr", "add", "198.51.100.2/24", "dev", "silent")
        for device in "silent", "nobody":
            self.server("ip", "link", "set", device, "up")
        self.server("ip", "neigh", "add", "198.51.100.1", "lladdr", "02:00:00:00:00:01", "dev", "silent")

    def reports(self):
        return "".join(file.read_text() for file in self.folder.glob("report*"))

    def fuzz(self, kind, packets, seed=1):
        return int(self.client(HERE / "out/fuzz", kind, packets, seed))

    def served(self, port=8081):
        """A client gets its answer."""
        self.client("curl", "-sf", "-o", "/dev/null", "--max-time", SOON, f"http://{GATEWAY}:{port}/1000")

    def keeps_limits(self):
        found = self.counters()
        need("half-open", found["half_open"] <= HALF_OPEN, True)
        need("most connections", found["most"] <= CONNECTIONS, True)
        need("memory", found["reserved"] <= 1 << 30, True)
        need("flows", found["flows_now"] <= FLOWS, True)
        need("descriptors", self.descriptors() <= CONNECTIONS + FLOWS + SPARE, True)
        return found

    def keeps_descriptors(self):
        """No more than there are connections."""
        self.until(lambda: self.descriptors() <= self.counters()["now"] + self.counters()["flows_now"] + SPARE)

    def spends(self, seconds):
        """The processor time of the whole program in so many seconds."""
        def spent():
            fields = pathlib.Path(f"/proc/{self.program.pid}/stat").read_text().rsplit(")", 1)[1].split()
            return (int(fields[11]) + int(fields[12])) / os.sysconf("SC_CLK_TCK")
        before = spent()
        time.sleep(seconds)
        return spent() - before

    def ends(self, status=0):
        """It ends at once, with nothing left."""
        if status == 0:
            self.program.send_signal(signal.SIGTERM)
        need("status", self.program.wait(30), status)
        need("reports", self.reports(), "")


def everything(place, packets, seed):
    """All kinds in turns, while a client is served again and again."""
    words = place.words(CLIENTS, [HERE / "out/fuzz", "all", packets, seed])
    with world.Child(words, stdout=subprocess.PIPE, text=True) as fuzz:
        while fuzz.poll() is None:
            place.served()
            place.keeps_limits()
            time.sleep(0.2)
        need("packets", int(fuzz.stdout.read()) >= packets, True)
    found = place.keeps_limits()
    place.keeps_descriptors()
    need("some came", min(found[name] for name in ("opened", "refused", "malformed", "strays", "up", "down")) > 0, True)
    place.ends()


def one_kind(place, kind, packets, seed):
    place.fuzz(kind, packets, seed)
    found = place.keeps_limits()
    need("some were put together", kind not in ("pieces", "pieces6") or found["joined"] > 0, True)
    place.served()
    place.keeps_descriptors()
    place.ends()


def words(place):
    """--help has each limit and what it is where nothing is named; what is no word, or no number behind one, is refused."""
    program = HERE / "out" / place.program_name
    text = subprocess.run([program, "--help"], stdout=subprocess.PIPE, text=True, check=True).stdout
    limits = {"connections": CONNECTIONS, "half-open": HALF_OPEN, "memory": 1024, "flows": FLOWS, "strays": 1000}
    for name, number in limits.items():
        line = next((line for line in text.splitlines() if line.startswith(f"  --{name} ")), "")
        need(f"--{name}", f"({number})" in line, True)
    need("what tests alone need", "--test-" in text, False)
    for name in *limits, "test-fault", "test-half-open-each", "test-ports", "test-quiet":
        for wrong in ["0x1"], ["-1"], ["99999999999"], [""], []:
            done = subprocess.run([program, "--netns", CLIENTS, f"--{name}", *wrong], stderr=subprocess.PIPE, text=True)
            need(f"--{name} {wrong}", (done.returncode, f"--{name}" in done.stderr), (1, True))
    need("--version", subprocess.run([program, "--version"], stdout=subprocess.PIPE, text=True, check=True).stdout[:10], "usernet 0.")
    place.ends()


def no_segments(place):
    """A SYN that is no segment opens nothing, and nothing is connected for it."""
    sent = place.fuzz("bad_syns", 3000)
    found = place.counters()
    need("opened, refused, now", [found[name] for name in ("opened", "refused", "most")], [0, 0, 0])
    need("malformed", found["malformed"] >= sent // 5, True)
    place.ends()


def one_place(place):
    """A flood of SYNs to one host and port: the others are served, few of it are connected, and these make way in the end."""
    began = time.monotonic()
    words = place.words(CLIENTS, [HERE / "out/fuzz", "one_place", 19500, 1])
    with world.Child(words, stdout=subprocess.DEVNULL) as fuzz:
        for _ in range(5):
            place.served()
        need("the flood ended", fuzz.wait(60), 0)
    found, seconds = place.keeps_limits(), time.monotonic() - began
    need("few were connected", found["opened"] <= EACH * (seconds + 2), True)
    need("the others were dropped", found["full"] > 10000, True)
    time.sleep(1)
    place.client(sys.executable, HERE / "clients.py", "--half-close", GATEWAY)
    need("some made way", place.counters()["recycled"] > found["recycled"], True)
    place.ends()


def answers(place):
    """What doesn't fit a connection is answered once in half a second."""
    began = time.monotonic()
    place.fuzz("unfit", 20000)
    found, seconds = place.counters(), time.monotonic() - began
    need("answers", found["emitted"] <= 20 + 3 * seconds, True)
    need("withheld ones", found["unsaid"] > 0, True)
    place.served()
    place.ends()


def hold(port, number):
    """Opens so many connections to a port of the host, prints how many, and holds them until its input ends."""
    resource.setrlimit(resource.RLIMIT_NOFILE, (number + 100,) * 2)
    ends = []
    for _ in range(number):
        with contextlib.suppress(OSError):
            ends.append(socket.create_connection(("127.0.0.1", port), timeout=SOON))
    print(len(ends), flush=True)
    sys.stdin.read()


def accept(port):
    """Takes and keeps all connections."""
    resource.setrlimit(resource.RLIMIT_NOFILE, (20000,) * 2)
    with socket.create_server(("0.0.0.0", port), backlog=4096) as server:
        print("ready", flush=True)
        ends = []
        while True:
            ends.append(server.accept())


@contextlib.contextmanager
def holding(place, number):
    """So many connections of the host's to a published port, behind which all are kept. Answers what they are held by."""
    accepts = place.words(CLIENTS, [sys.executable, __file__, "--accept", 8000])
    holds = place.words(SERVERS, [sys.executable, __file__, "--hold", 7000, number])
    with world.Child(accepts, stdout=subprocess.PIPE, text=True) as accepting:
        need("accepts", accepting.stdout.readline(), "ready\n")
        with world.Child(holds, stdin=subprocess.PIPE, stdout=subprocess.PIPE, text=True) as child:
            yield child


def out_of_ports(place):
    """Published until no port of the gateway's is left: the program goes on, and refuses."""
    with holding(place, 100) as child:
        need("held", select.select([child.stdout], [], [], 60)[0] != [], True)
        place.until(lambda: place.counters()["published"] + place.counters()["full"] >= 100)
        need("published", place.counters()["now"] <= 40, True)
    place.until(lambda: place.counters()["now"] == 0)
    place.served()
    place.ends()


def out_of_descriptors(place):
    """No descriptor is left: connections wait, nothing spins, and once there are some again all goes on."""
    most = resource.getrlimit(resource.RLIMIT_NOFILE)[1]

    def limit(number):
        subprocess.run(["prlimit", "--pid", str(place.program.pid), f"--nofile={number}:{most}"], check=True)

    limit(3)
    with holding(place, 10):
        need("doesn't spin", place.spends(1) < 0.3, True)
        place.fuzz("half_open", 2000)
        found = place.counters()
        need("none", [found["published"], found["opened"], found["now"]], [0, 0, 0])
        need("told", found["exhausted"] > 0, True)
        limit(most)
        place.until(lambda: place.counters()["published"] == 10, SOON)
        place.served()
    place.ends()


def small_limits(place, packets):
    """Limits by their words, below what comes."""
    for kind in "endings", "half_open", "windows", "endings":
        place.fuzz(kind, packets)
        found = place.counters()
        need("most connections", found["most"] <= 50, True)
        need("half-open", found["half_open"] <= 20, True)
        need("memory", found["reserved"] <= 4 << 20, True)
    need("some were dropped", found["full"] > 0, True)
    place.ends()


def api_noise(place, packets, seed):
    """Who may write to the API's socket writes what it likes, while the namespace does so, too."""
    words = place.words(CLIENTS, [HERE / "out/fuzz", "all", packets, seed])
    with world.Child(words, stdout=subprocess.DEVNULL) as fuzz:
        publishing.noise(str(place.folder / "api.sock"), seed, 2000)
        fuzz.wait(world.LIMIT)
    place.served()
    place.ends()


def no_device(place):
    """The device is deleted from inside of the namespace: the program ends, and says so."""
    place.client("ip", "link", "delete", "tun0")
    place.ends(1)


def stopped(place):
    """A signal is heard in the midst of a flood."""
    words = place.words(CLIENTS, [HERE / "out/fuzz", "all", 10000000, 1])
    with world.Child(words, stdout=subprocess.DEVNULL, stderr=subprocess.DEVNULL):
        time.sleep(0.5)
        place.program.send_signal(signal.SIGINT)
        need("status", place.program.wait(30), 0)
    need("reports", place.reports(), "")


def calls(place, packets, seed):
    """What runs with what words of the program."""
    small = ["--connections", 50, "--half-open", 20, "--test-half-open-each", 10, "--memory", 4]
    told = ["--enable-ipv6"]
    yield words, (), []
    yield no_segments, (), told
    for kind in KINDS:
        yield one_kind, (kind, packets // 2 // len(KINDS), seed), [*told, "--no-offloads"]
    yield everything, (packets // 2, seed), told
    yield one_place, (), told
    yield answers, (), told
    yield small_limits, (2000,), [*told, *small]
    yield api_noise, (packets // 4, seed), [*told, "--api-socket", place.folder / "api.sock"]
    yield out_of_descriptors, (), told
    yield out_of_ports, (), [*told, "--test-ports", 40]
    yield no_device, (), told
    yield stopped, (), told


def main():
    parser = argparse.ArgumentParser()
    parser.add_argument("packets", type=int, nargs="?", default=20000)
    parser.add_argument("seed", type=int, nargs="?", default=1)
    told = parser.parse_args()
    count = 0
    with Hostile(1 << 20) as place:
        for call, rest, more in calls(place, told.packets, told.seed):
            began = time.monotonic()
            with place.usernet(0, *more):
                try:
                    call(place, *rest)
                except BaseException:
                    print(place.reports())
                    raise
            print(f"{' '.join([call.__name__, *map(str, rest[:1])]):<44} {time.monotonic() - began:6.1f} s", flush=True)
            count += 1
    print(f"usernet in a hostile namespace: {count} passed")


if __name__ == "__main__":
    if "--hold" in sys.argv:
        hold(int(sys.argv[2]), int(sys.argv[3]))
    elif "--accept" in sys.argv:
        accept(int(sys.argv[2]))
    else:
        main()
