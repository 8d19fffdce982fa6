#!/usr/bin/python3
"""capture.py against tshark and tcpkit: test_capture.py TCPKIT

Scripts become captures whose segments tshark reads as the program's report has them, and those that the program refuses
are refused alike; connections of two kernels are captured, and the program reads of their listing what tshark reads of the
capture. What isn't there, or is no capture, is reported in one line. It wants root, ip, tshark and dpkt.
"""

import os
import pathlib
import struct
import subprocess
import sys
import tempfile
import time

HERE = pathlib.Path(__file__).resolve().parent
SCRIPTS = HERE.parents[1] / "crates/test_scripts/data"
FLAGS = "CWR ECE URG ACK PSH RST SYN FIN".split()
FIELDS = "tcp.stream ip.src ip.dst tcp.srcport tcp.dstport tcp.seq_raw tcp.ack_raw tcp.flags tcp.window_size_value tcp.urgent_pointer tcp.options tcp.payload tcp.checksum.status frame.time_epoch ip.version frame.cap_len frame.len".split()
CLIENT, SERVER = "capture-client", "capture-server"


def run(*words, **rest):
    return subprocess.run(list(map(str, words)), check=True, text=True, stdout=subprocess.PIPE,
                          stderr=subprocess.DEVNULL, **rest).stdout


def capture(*words):
    return run("/usr/bin/python3", HERE / "capture.py", *words)


def told(*words):
    """The status of capture.py, what it writes, and its lines on standard error."""
    done = subprocess.run(["/usr/bin/python3", HERE / "capture.py", *map(str, words)], text=True, capture_output=True)
    return done.returncode, done.stdout, done.stderr.splitlines()


def need(what, found, wanted):
    if found != wanted:
        raise AssertionError(f"{what}:\nfound  {found!r}\nwanted {wanted!r}")


def names(bits):
    return ",".join(name for place, name in enumerate(FLAGS) if bits >> (7 - place) & 1) or "-"


def tshark(path):
    """A dict for each TCP segment of a capture, as tshark reads it."""
    words = ["-o", "tcp.check_checksum:TRUE", "-o", "tcp.relative_sequence_numbers:FALSE", "-T", "fields", "-E",
             "occurrence=f", *(word for field in FIELDS for word in ("-e", field))]
    rows = [dict(zip(FIELDS, line.split("\t"))) for line in run("tshark", "-r", path, "-Y", "tcp", *words).splitlines()]
    rows = [row for row in rows if row["tcp.stream"]]
    for row in rows:
        row["flags"] = names(int(row["tcp.flags"], 16) & 255)
        row["options"] = bytes.fromhex(row["tcp.options"])
        row["text"] = row["tcp.payload"].replace(":", "") or "-"
    return rows


def listed(options):
    """The options as the listing has them (docs/FORMATS.md), from their bytes, and how many zeros follow."""
    found, at = [], 0
    while at < len(options) and options[at] != 0:
        kind, length = options[at], 1 if options[at] == 1 else options[at + 1]
        body, number = options[at + 2 : at + length], int.from_bytes(options[at + 2 : at + length], "big")
        if kind == 1:
            found.append("nop")
        elif (kind, length) in ((2, 4), (3, 3)):
            found.append(f"{'mss' if kind == 2 else 'ws'}:{number}")
        elif (kind, length) == (4, 2):
            found.append("sackok")
        elif kind == 5 and length in (10, 18, 26, 34):
            edges = [int.from_bytes(body[i : i + 4], "big") for i in range(0, len(body), 4)]
            found.append("sack:" + "+".join(f"{left}-{right}" for left, right in zip(edges[::2], edges[1::2])))
        else:
            found.append(f"kind{kind}:{body.hex() or '-'}")
        at += length
    return ",".join(found) or "-", len(options) - at


def line_of(number, row):
    options, pad = listed(row["options"])
    return (f"{number} {row['tcp.srcport']} > {row['tcp.dstport']} seq {row['tcp.seq_raw']} ack {row['tcp.ack_raw']} "
            f"reserved 0 flags {row['flags']} window {row['tcp.window_size_value']} urgent {row['tcp.urgent_pointer']} "
            f"options {options} pad {pad} text {row['text']}")


def check_listing(tcpkit, path, folder):
    """The program reads of the listing what tshark reads of the capture, and tshark finds the same streams."""
    rows = tshark(path)
    listing = folder / "listing"
    listing.write_text(capture("listing", path, "--mend"))
    decoded = run(tcpkit, "decode", listing).splitlines()
    need("total", decoded.pop(), f"total {len(rows)} malformed 0")
    for number, (found, row) in enumerate(zip(decoded, rows, strict=True), 1):
        need(f"line {number}", found, line_of(number, row))
    addresses = [f"{row['ip.src']} {row['ip.dst']}" for row in rows]
    need("addresses", [line.rsplit(" ", 1)[0] for line in listing.read_text().splitlines()], addresses)
    counts = {}
    for row in rows:
        counts[row["tcp.stream"]] = counts.get(row["tcp.stream"], 0) + 1
    found = {line.split()[0]: int(line.split()[5]) for line in capture("streams", path).splitlines()}
    need("streams", found, counts)
    for stream, count in counts.items():
        need(f"stream {stream}", len(capture("listing", path, "--stream", stream).splitlines()), count)
    # Without --mend the program finds the same wrong checksums as tshark.
    bad = sum(row["tcp.checksum.status"] == "0" for row in rows)
    listing.write_text(capture("listing", path))
    decoded = subprocess.run([tcpkit, "decode", listing], text=True, stdout=subprocess.PIPE).stdout.splitlines()
    need("wrong checksums", sum(" malformed 3 BadChecksum" in line for line in decoded), bad)
    return len(rows)


def check_refused(fault, script, folder):
    """A script that the program refuses is refused with the same words behind the script's name, and nothing is written."""
    path = folder / "refused.pcap"
    status, written, lines = told("replay", script, path)
    front = fault.replace("tcpkit: ", f"capture.py: {script}: ")
    need(f"{script}: status, output, lines", (status, written, len(lines)), (2, "", 1))
    need(f"{script}: fault", lines[0].startswith(f"{front}: "), True)
    need(f"{script}: a capture", path.exists(), False)


def check_script(tcpkit, script, folder):
    """What the report says of each emission, tshark says of the capture's packet, in the second of its line."""
    done = subprocess.run([tcpkit, "replay", script], text=True, capture_output=True)
    if done.returncode == 2:
        check_refused(done.stderr.rstrip("\n"), script, folder)
        return 0
    events = [number for number, line in enumerate(script.read_text().split("\n"), 1)
              if line and not line.startswith(("#", "config ", "tcpkit "))]
    emitted = [line.split(" ") for line in done.stdout.splitlines()]
    emitted = [words for words in emitted if words[1] == "emit" and words[3] != "none"]
    path = folder / "script.pcap"
    capture("replay", script, path)
    rows = tshark(path)
    repeats = "repeat" in script.read_text()
    if not repeats:
        need(f"{script.name}: packets", len(rows), len(emitted))
    for words, row in zip([] if repeats else emitted, rows):
        found = [words[5], words[7], words[9], words[11], int(words[13])]
        text = 0 if row["text"] == "-" else len(row["text"]) // 2
        need(f"{script.name}: {' '.join(words)}", found, [row["flags"], row["tcp.seq_raw"], row["tcp.ack_raw"],
                                                         row["tcp.window_size_value"], text])
        need("second", int(float(row["frame.time_epoch"])), events[int(words[0]) - 1])
    need(f"{script.name}: checksums", {row["tcp.checksum.status"] for row in rows} <= {"1"}, True)
    return len(rows) and check_listing(tcpkit, path, folder)


def check_refused_lines(tcpkit, folder):
    """Each line of these is a script of its own, most of which the program refuses."""
    script, count = folder / "line.script", 0
    lines = [line for name in ("lines", "ends") for line in (SCRIPTS / f"cases/refused-{name}.scripts").read_bytes().split(b"\n")]
    for line in [*lines, b"config A mss 9000"]:
        script.write_bytes(line)
        done = subprocess.run([tcpkit, "replay", script], text=True, capture_output=True)
        if done.returncode == 2:
            check_refused(done.stderr.rstrip("\n"), script, folder)
            count += 1
    need("refused lines", count > 60, True)


def check_faults(folder):
    """What can't be read or written is one line and status 2, and nothing is written."""
    script, capture_file, text, cut = (folder / name for name in ("good.script", "good.pcap", "text", "cut.pcap"))
    script.write_text("listen B\nconnect A\nemit A\n")
    capture("replay", script, capture_file)
    text.write_text("no capture\n" * 10)
    cut.write_bytes(capture_file.read_bytes()[:30])
    missing, kept = folder / "missing", script.read_bytes()
    cases = [(command, path) for command in ("streams", "listing") for path in (missing, folder, text, cut, script, "-", "/dev/null")]
    cases += [("replay", path, folder / "new.pcap") for path in (missing, folder, capture_file, "-")]
    cases += [("replay", script, path) for path in (missing / "new.pcap", folder, script, "-")]
    for words in cases:
        status, written, lines = told(*words)
        need(f"{words}: status, output, lines", (status, written, len(lines)), (2, "", 1))
        need(f"{words}: one line", lines[0].startswith("capture.py: "), True)
    need("written", [(folder / "new.pcap").exists(), missing.exists(), script.read_bytes()], [False, False, kept])


def segment(ports, seq, bits, text=b""):
    """A segment with a wrong checksum."""
    return struct.pack(">HHIIBBHHH", *ports, seq, 0, 5 << 4, bits, 1000, 0xBAD, 0) + text


def packet_4(data):
    return struct.pack(">BBHHHBBH8s", 0x45, 0, 20 + len(data), 0, 0, 64, 6, 0, bytes([10, 0, 0, 1, 10, 0, 0, 2])) + data


def packet_6(data, options=b""):
    """One of IPv6, with a header of options between."""
    kind = 60 if options else 6
    return struct.pack(">IHBB", 6 << 28, len(options + data), kind, 64) + bytes(15) + b"\1" + bytes(15) + b"\2" + options + data


def write_capture(path, packets):
    """A capture of raw packets, of each no more bytes than its number says."""
    head = struct.pack("<IHHiIII", 0xA1B2C3D4, 2, 4, 0, 0, 65535, 101)
    rows = [struct.pack("<IIII", at, 0, min(most, len(data)), len(data)) + data[:most] for at, (data, most) in enumerate(packets)]
    path.write_bytes(head + b"".join(rows))


def check_streams(folder):
    """Connections have tshark's numbers, with IPv6 and packets that were cut short between them; what is left out is reported."""
    syn, path, whole = 2, folder / "streams.pcap", 65535
    packets = [
        (packet_6(segment((1, 2), 10, syn)), whole),
        (packet_4(segment((1, 2), 10, syn)), whole),
        (packet_6(segment((3, 4), 10, syn), bytes([6, 0, 1, 4, 0, 0, 0, 0])), whole),
        (packet_4(segment((5, 6), 10, 16, bytes(50))), 40),
        (packet_4(segment((7, 8), 10, 16, bytes(50))), 30),
        (packet_4(segment((9, 10), 10, 16, b"x")), whole),
        (packet_4(segment((7, 8), 60, 16, b"y")), whole),
        # The same sockets again: another number, the same number, and after a beginning that wasn't seen.
        (packet_4(segment((1, 2), 99, syn)), whole),
        (packet_4(segment((1, 2), 99, syn)), whole),
        (packet_4(segment((9, 10), 500, syn)), whole),
        (packet_4(segment((5, 6), 60, 16, b"z")), whole),
    ]
    write_capture(path, packets)
    rows, counts = tshark(path), {}
    for row in rows:
        if row["ip.version"] == "4" and row["frame.cap_len"] == row["frame.len"]:
            counts[row["tcp.stream"]] = counts.get(row["tcp.stream"], 0) + 1
    status, written, lines = told("streams", path)
    need("streams", {line.split()[0]: int(line.split()[5]) for line in written.splitlines()}, counts)
    need("streams of both kinds", (len(counts), status), (6, 0))
    need("left out", lines, ["capture.py: left out 2 packets that were cut short, 2 packets of IPv6"])
    for stream, count in counts.items():
        need(f"stream {stream}", len(capture("listing", path, "--stream", stream).splitlines()), count)


def check_hint(folder):
    """Where most checksums are wrong the listing hints at --mend, and nowhere else."""
    wrong, script, right = folder / "wrong.pcap", folder / "right.script", folder / "right.pcap"
    write_capture(wrong, [(packet_4(segment((1, 2), 10, 2)), 65535)] * 3)
    script.write_text("connect A\nemit A\n")
    capture("replay", script, right)
    hint = "capture.py: 3 of 3 checksums are wrong: of packets captured where they were sent --mend makes them right"
    need("hint", [told("listing", *words)[2] for words in ((wrong,), (wrong, "--mend"), (right,))], [[hint], [], []])


def make_namespaces():
    for name in CLIENT, SERVER:
        subprocess.run(["ip", "netns", "delete", name], stderr=subprocess.DEVNULL)
        run("ip", "netns", "add", name)
    run("ip", "link", "add", "veth0", "netns", CLIENT, "type", "veth", "peer", "name", "veth0", "netns", SERVER)
    for name, address in (CLIENT, "10.8.0.1/24"), (SERVER, "10.8.0.2/24"):
        run("ip", "-n", name, "addr", "add", address, "dev", "veth0")
        run("ip", "-n", name, "link", "set", "veth0", "up")


TRAFFIC = """
import socket, sys
if sys.argv[1] == "serve":
    server = socket.create_server(("10.8.0.2", 7))
    print("ready", flush=True)
    while True:
        end, _ = server.accept()
        try:
            while piece := end.recv(65536):
                end.sendall(piece)
        except ConnectionError:
            pass
        end.close()
for size in 1, 5000, 300000:
    with socket.create_connection(("10.8.0.2", 7)) as end:
        end.sendall(bytes(i % 251 for i in range(size)))
        end.shutdown(socket.SHUT_WR)
        while end.recv(65536):
            pass
try:
    socket.create_connection(("10.8.0.2", 9))
except ConnectionRefusedError:
    pass
with socket.socket() as end:
    end.bind(("10.8.0.1", 5555))
    end.setsockopt(socket.SOL_SOCKET, socket.SO_LINGER, bytes([1, 0, 0, 0, 0, 0, 0, 0]))
    end.connect(("10.8.0.2", 7))
"""


def kernels(folder, kind):
    """Connections of two kernels in a capture of this kind."""
    path = folder / f"kernels.{kind}"
    inside = ["ip", "netns", "exec"]
    server = subprocess.Popen([*inside, SERVER, sys.executable, "-c", TRAFFIC, "serve"], stdout=subprocess.PIPE)
    server.stdout.readline()
    words = ["dumpcap", "-q", "-i", "veth0", "-f", "tcp", *(["-P"] if kind == "pcap" else []), "-w", str(path)]
    dumper = subprocess.Popen([*inside, CLIENT, *words], stderr=subprocess.PIPE, text=True)
    while "File:" not in dumper.stderr.readline():
        pass
    time.sleep(1)
    run(*inside, CLIENT, sys.executable, "-c", TRAFFIC, "connect")
    time.sleep(2)
    dumper.terminate()
    dumper.wait()
    server.kill()
    server.wait()
    return path


def main():
    tcpkit, passed = pathlib.Path(sys.argv[1]).resolve(), 0
    with tempfile.TemporaryDirectory() as name:
        folder = pathlib.Path(name)
        folder.chmod(0o777)
        packets = [check_script(tcpkit, script, folder) for script in sorted(SCRIPTS.rglob("*.script"))]
        need("scripts with packets", sum(count > 0 for count in packets) > 20, True)
        passed += len(packets)
        check_refused_lines(tcpkit, folder)
        for check in check_faults, check_streams, check_hint:
            check(folder)
        passed += 4
        make_namespaces()
        try:
            for kind in "pcap", "pcapng":
                count = check_listing(tcpkit, kernels(folder, kind), folder)
                need("packets of kernels", count > 40, True)
                passed += 1
        finally:
            for name in CLIENT, SERVER:
                run("ip", "netns", "delete", name)
    print(f"capture: {passed} passed, {sum(packets)} packets of scripts, 0 left out")


if __name__ == "__main__":
    main()
