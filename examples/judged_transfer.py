#!/usr/bin/python3
"""A protocol test, as a CI would run it: a transfer over a network that loses packets, captured at both hosts, and both judged.

    cc -O2 release/tcpjudge.c -o tcpjudge
    sudo examples/judged_transfer.py ./tcpjudge

Three namespaces stand for two hosts and the network between them. What each host sent and was sent is captured at that host, so that a
log has all that the host has seen and nothing that was lost on the way to it. `tcpjudge` says of each segment that a host sent whether it
breaks a rule of the RFCs. A test that can't fail proves nothing: a byte of a segment that was sent again is changed in the capture, and
the judge has to find it. The status is 0 where both hosts are found clean and the changed byte is found.

Put your own programs into SERVER and CLIENT. It wants root, ip, nft, tcpdump, curl, and dpkt for apps/capture/capture.py.
"""

import contextlib
import os
import pathlib
import subprocess
import sys
import tempfile
import time

import dpkt

CAPTURE = pathlib.Path(__file__).resolve().parents[1] / "apps" / "capture" / "capture.py"
SERVER_ADDRESS, CLIENT_ADDRESS, SIZE = "10.7.1.2", "10.7.2.2", 400000
SERVER = ["python3", "-u", "-m", "http.server", "8000", "--bind", SERVER_ADDRESS]
IS_READY = b"Serving HTTP"
CLIENT = ["curl", "--silent", "--show-error", "--fail", "--max-time", "60", f"http://{SERVER_ADDRESS}:8000/file"]
# Each 40th packet is lost, in both directions. Where the kernel has netem, `tc qdisc add dev s root netem loss 3% delay 10ms` does more.
LOSES = "table ip loses { chain between { type filter hook forward priority 0; numgen inc mod 40 == 39 drop; }; }"
FOUND = "another byte where one went before"


def run(*words, **more):
    return subprocess.run(words, check=True, **more)


def inside(space, *words):
    return ["ip", "netns", "exec", space, *words]


@contextlib.contextmanager
def network():
    """The names of the two hosts, which reach each other through a router that loses packets."""
    server, router, client = spaces = [f"{name}-{os.getpid()}" for name in ("server", "router", "client")]
    with contextlib.ExitStack() as stack:
        for space in spaces:
            run("ip", "netns", "add", space)
            stack.callback(run, "ip", "netns", "delete", space)
        for space, device, address in (server, "s", SERVER_ADDRESS), (client, "c", CLIENT_ADDRESS):
            gateway = address[:-1] + "1"
            run("ip", "link", "add", device, "netns", router, "type", "veth", "peer", "name", "wire", "netns", space)
            run(*inside(router, "ip", "address", "add", f"{gateway}/24", "dev", device))
            run(*inside(router, "ip", "link", "set", device, "up"))
            run(*inside(space, "ip", "address", "add", f"{address}/24", "dev", "wire"))
            # One segment at a time, as on a wire, so that single ones are lost.
            run(*inside(space, "ip", "link", "set", "wire", "gso_max_segs", "1", "up"))
            run(*inside(space, "ip", "route", "add", "default", "via", gateway))
        run(*inside(router, "sh", "-c", "echo 1 >/proc/sys/net/ipv4/ip_forward"))
        run(*inside(router, "nft", LOSES))
        yield server, client


@contextlib.contextmanager
def running(words, ready, stream, **more):
    """A program, from when it has said that it is ready until it is stopped; what else it says then."""
    said = []
    with subprocess.Popen(words, **{stream: subprocess.PIPE}, **more) as program:
        lines = getattr(program, stream)
        try:
            assert any(ready in line for line in lines), f"{words} isn't ready"
            yield said
        finally:
            program.terminate()
            said += lines.readlines()


@contextlib.contextmanager
def captured(space, path):
    """A capture of a host, which has all that the host saw."""
    words = ["tcpdump", "-i", "wire", "-n", "-s", "2000", "-B", "65536", "--immediate-mode", "-Z", "root", "-w", str(path), "tcp"]
    with running(inside(space, *words), b"listening on", "stderr") as said:
        yield
        time.sleep(1)  # until the last packets are in the file
    assert b"0 packets dropped by kernel\n" in said, f"the capture isn't complete: {said}"


def transfer(folder):
    """Captures a transfer: the files of what the server and the client have seen."""
    content, paths = os.urandom(SIZE), [folder / "server.pcap", folder / "client.pcap"]
    (folder / "file").write_bytes(content)
    with network() as (server, client), running(inside(server, *SERVER), IS_READY, "stdout", cwd=folder, stderr=subprocess.DEVNULL):
        with captured(server, paths[0]), captured(client, paths[1]):
            assert run(*inside(client, *CLIENT), stdout=subprocess.PIPE).stdout == content, "another file came"
    return paths


def judge(program, path, address):
    """The judge's report of the host with this address."""
    log = run(CAPTURE, "judge", str(path), "--at", address, stdout=subprocess.PIPE).stdout
    judged = subprocess.run([program, "--complete", "-"], input=log, stdout=subprocess.PIPE, check=False)
    assert judged.returncode in (0, 1), f"{program} ends with {judged.returncode}"
    return judged.stdout.decode()


def is_resend(segment, starts, acknowledged):
    """Whether a segment has text that went before and isn't acknowledged."""
    return len(segment.data) > 0 and segment.seq in starts and (segment.seq - acknowledged) % 2**32 < 2**31


def plant(path, planted):
    """Copies the server's capture, with a byte changed in the first segment that it sent again."""
    starts, acknowledged, is_done = set(), 0, False
    with open(path, "rb") as source, open(planted, "wb") as target:
        reader = dpkt.pcap.Reader(source)
        writer = dpkt.pcap.Writer(target, linktype=reader.datalink(), nano=False)
        for when, frame in reader:
            ethernet = dpkt.ethernet.Ethernet(frame)
            segment = ethernet.data.data
            if segment.dport == 8000:
                acknowledged = segment.ack
            elif not is_done and is_resend(segment, starts, acknowledged):
                segment.data = bytes([segment.data[0] ^ 1]) + segment.data[1:]
                segment.sum = ethernet.data.sum = 0  # dpkt sums both anew
                frame, is_done = bytes(ethernet), True
            elif len(segment.data) > 0:
                starts.add(segment.seq)
            writer.writepkt(frame, ts=when)
    assert is_done, "nothing was sent again"


def main():
    if len(sys.argv) != 2:
        sys.exit(__doc__)
    program = os.path.realpath(sys.argv[1])
    with tempfile.TemporaryDirectory() as name:
        folder = pathlib.Path(name)
        server, client = transfer(folder)
        plant(server, folder / "planted.pcap")
        reports = {"server": judge(program, server, SERVER_ADDRESS), "client": judge(program, client, CLIENT_ADDRESS)}
        planted = judge(program, folder / "planted.pcap", SERVER_ADDRESS)
    for host, report in reports.items():
        print(f"{host}: {report}", end="")
    print(f"server, with a byte changed: {planted}", end="")
    sys.exit(not all(report.endswith(" findings 0\n") for report in reports.values()) or FOUND not in planted)


if __name__ == "__main__":
    main()
