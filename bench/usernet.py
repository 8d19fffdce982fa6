"""usernet, slirp4netns and pasta (of passt) in turns, each at an MTU of 1,500 and of 65,520: see usernet.sh."""

import contextlib
import json
import os
import pathlib
import shutil
import statistics
import subprocess
import sys
import time

sys.path.insert(0, str(pathlib.Path(__file__).resolve().parent.parent / "apps/usernet"))
import world
from world import CLIENTS, GATEWAY

TURNS, SECONDS, IN_TURN, OPEN, PORT = 3, 3, 500, 1000, 8084
# The processes of `traffic connect`.
PROCESSES = 8
TRAFFIC = pathlib.Path(__file__).resolve().parent / "out/traffic"


def processor(pid):
    """Seconds of processor time that the process took."""
    fields = pathlib.Path(f"/proc/{pid}/stat").read_text().rsplit(")", 1)[1].split()
    return (int(fields[11]) + int(fields[12])) / os.sysconf("SC_CLK_TCK")


def resident(pid):
    lines = pathlib.Path(f"/proc/{pid}/status").read_text().splitlines()
    return next(int(line.split()[1]) * 1024 for line in lines if line.startswith("VmRSS"))


@contextlib.contextmanager
def usernet(place, *more):
    with place.usernet(0, *more):
        yield place.program.pid


@contextlib.contextmanager
def other(place, words):
    with contextlib.ExitStack() as stack:
        is_ready = lambda: "10.0.2.100" in place.client("ip", "-4", "addr")
        child = place.start_server(stack, *words, is_ready=is_ready)
        time.sleep(0.5)
        yield child.pid
    place.until(lambda: "10.0.2.100" not in place.client("ip", "-4", "addr"))


def slirp(place, mtu=1500):
    return other(place, ["slirp4netns", "--configure", f"--mtu={mtu}", "--netns-type=path", f"/run/netns/{CLIENTS}", "tap0"])


def pasta(place, mtu=1500):
    return other(place, ["pasta", "--foreground", "--runas", "0", "--config-net", "--mtu", mtu, "--address", "10.0.2.100", "--netmask", "24",
                         "--gateway", GATEWAY, "--ns-ifname", "tun0", "--netns", f"/run/netns/{CLIENTS}"])


# podman and rootlesskit pass the longer MTU, and pasta has it by itself.
LONG = ", 64 KiB"
KINDS = {"usernet": usernet, "usernet, no offloads": lambda place: usernet(place, "--no-offloads"), "slirp4netns": slirp, "pasta": pasta,
         f"usernet{LONG}": lambda place: usernet(place, "-m", 65520), f"slirp4netns{LONG}": lambda place: slirp(place, 65520),
         f"pasta{LONG}": lambda place: pasta(place, 65520)}


def stream(place, pid, *words):
    """Megabits a second, and processor seconds a GiB."""
    before = processor(pid)
    told = json.loads(place.client("iperf3", "-J", "-c", GATEWAY, "-t", SECONDS, *words))
    received = told["end"]["sum_received"]
    return received["bits_per_second"] / 1e6, (processor(pid) - before) / (received["bytes"] / 2**30)


def turn(place, kind):
    with KINDS[kind](place) as pid:
        found = {}
        found["up, Mbit/s"], found["up, s a GiB"] = stream(place, pid)
        found["down, Mbit/s"], found["down, s a GiB"] = stream(place, pid, "-R")
        before = processor(pid)
        words = place.client(TRAFFIC, "connect", GATEWAY, PORT, IN_TURN).split()
        found["connections a second"], found["connect, µs"], found["first byte, µs"] = map(float, words)
        found["processor µs a connection"] = (processor(pid) - before) / (PROCESSES * IN_TURN) * 1e6
    with KINDS[kind](place) as pid:  # one that has carried nothing yet: memory of streams may stay
        idle = resident(pid)
        with place.start_client(TRAFFIC, "hold", GATEWAY, PORT, OPEN) as client:
            place.until(lambda: count_open(place) >= OPEN, 60)
            time.sleep(0.5)
            found["bytes a connection"] = (resident(pid) - idle) / OPEN
            client.kill()
        time.sleep(1)
        return found


# pasta at 65,520 loses segments that come up, of which `ss -ti` tells at the client: its timeout is backed off again and again.
PICTURE = """set terminal svg size 1120,330 font 'sans-serif,12' background 'white'
set output '{file}'
set label 1 'pasta, 64 KiB, up: {pasta_up} Mbit/s. Segments are lost on their way into pasta, and the client waits for its' at screen 0.02,0.075
set label 2 'retransmission timeout most of the time (ss -ti there).' at screen 0.02,0.025
set multiplot layout 1,2 margins 0.07,0.98,0.27,0.8 spacing 0.08
set style data histograms
set style histogram clustered gap 1
set style fill solid 0.8 border -1
set grid ytics
set yrange [0:*]
set key above
set xtics font ',11' scale 0
$found << END
{rows}
END
set title 'Mbit/s (more is better)'
plot $found using 2:xtic(1) title 'up' lc 'dark-blue', '' using 3 title 'down' lc 'orange'
unset label
set title 'processor seconds a GiB (less is better)'
plot $found using 4:xtic(1) title 'up' lc 'dark-blue', '' using 5 title 'down' lc 'orange'
"""


def draw(file, kinds, middle):
    """The picture of docs/SPEED.md, by gnuplot."""
    names = ["up, Mbit/s", "down, Mbit/s", "up, s a GiB", "down, s a GiB"]
    rows = [" ".join(['"' + kind.replace(", ", ",\\n") + '"', *(f"{middle(kind, name):.2f}" for name in names)]) for kind in kinds]
    pasta_up = f"{middle('pasta, 64 KiB', 'up, Mbit/s'):,.0f}" if "pasta, 64 KiB" in kinds else "not measured,"
    picture = PICTURE.format(file=file, rows="\n".join(rows), pasta_up=pasta_up)
    subprocess.run(["gnuplot"], input=picture, text=True, check=True)


def count_open(place):
    return len(place.client("ss", "-Htn", "state", "established").splitlines())


def main():
    kinds = [kind for kind in KINDS if kind.startswith("usernet") or shutil.which(kind.split(",")[0])]
    rows = {kind: [] for kind in kinds}
    with world.World(1 << 20) as place:
        # Turns follow each other sooner than a port leaves TIME-WAIT.
        for run in place.server, place.client:
            run("sysctl", "-qw", "net.ipv4.ip_local_port_range=1024 65000", "net.ipv4.tcp_max_tw_buckets=1000")
        place.server("ip", "link", "add", "outside", "type", "veth", "peer", "name", "inside")
        place.server("ip", "addr", "add", "192.0.2.1/24", "dev", "outside")
        for device in "outside", "inside":
            place.server("ip", "link", "set", device, "up")
        place.server("ip", "route", "add", "default", "via", "192.0.2.2")
        place.start_server(place.stack, TRAFFIC, "serve", PORT)
        for _ in range(TURNS):
            for kind in kinds:
                rows[kind].append(turn(place, kind))
                print(kind, {name: round(value, 1) for name, value in rows[kind][-1].items()}, file=sys.stderr, flush=True)
    middle = lambda kind, name: statistics.median(row[name] for row in rows[kind])
    for is_long in False, True:
        shown = [kind for kind in kinds if kind.endswith(LONG) == is_long]
        print("| | " + " | ".join(kind.removesuffix(LONG) for kind in shown) + " |\n|" + "---|" * (len(shown) + 1))
        for name in rows[kinds[0]][0]:
            digits = 1 if "s a GiB" in name else 0
            print(f"| {name} | " + " | ".join(f"{middle(kind, name):,.{digits}f}" for kind in shown) + " |")
        print()
    if len(sys.argv) > 1:
        draw(sys.argv[1], kinds, middle)


if __name__ == "__main__":
    main()
