"""Captures whose reports are worked out by hand: what `tcpjudge` has to say of them, to the letter.

    python3 checks/judge/captures.py TCPJUDGE
    python3 checks/judge/captures.py --cases FOLDER

The segments are rows, as in rfc_rows.py, one each millisecond. The last line is `N captures, M failed`. With --cases each capture and its
words are written to FOLDER, for `rt try --cases`.
"""

import contextlib
import os
import pathlib
import pty
import random
import shutil
import struct
import subprocess
import sys
import tempfile

from twice import Differs

import captures_of_ipv6
import captures_with_notes
import noting
from making import (
    AT, CLEAN, FORM, HAND, LINKS, NO_PLACE, NOT_WHOLE, ONE, OPENED, OWN, PEER, ROWS, SILENT, TAGGED, TWO, block_of, capture_of, connection,
    from_address, header_of, interface_of, left_to_device, note, obsolete_block, own, packet_block, packet_of, peer, record_of, sections_of,
    simple_block, statistics_of, train_of, trips, verdict, with_port,
)


def of_two_interfaces(order="<"):
    """Packets of two interfaces in turn: of another link, other units, and times that lack five seconds."""
    made = header_of(order) + interface_of(order) + interface_of(order, link=1, resolution=9, offset=5)
    for at, packet in enumerate(HAND):
        made += packet_block(order, at, packet) if at % 2 == 0 else packet_block(order, at - 5000, TAGGED + packet, number=1, resolution=9)
    return made


WRONG_ACK = "   packet 6, 0.005000 s: an acknowledgement of 106, up to which not all came (RFC 9293, 3.4) [relative number 7], and 1 more like it"
WRONG_SYN = "   packet 6, 0.005000 s: a SYN at 500, and the first at 99 (RFC 9293, 3.4)"
CLOSED = ["came 105/300 FIN,ACK", "went 300/106 FIN,ACK", "came 106/301 ACK"]

# The report of one acknowledgement that is too high, as JSON (RFC 8259).
JSON = """\
{"kind":"round_trips","connection":1,"end":"10.0.0.1:1","peer":"10.0.0.2:2","count":2,"least":0.001000,"mean":0.001000,"greatest":0.001000}
{"kind":"end","connection":1,"end":"10.0.0.1:1","peer":"10.0.0.2:2","verdict":"clean","findings":0,"all_rules":false,\
"segments":3,"bytes":5,"wrong_checksums":0}
{"kind":"finding","connection":1,"end":"10.0.0.2:2","peer":"10.0.0.1:1","packet":6,"time":1700000000.005000,\
"rule":"AckBeyond","count":1,"relative":7,"text":"an acknowledgement of 106, up to which not all came (RFC 9293, 3.4)"}
{"kind":"round_trips","connection":1,"end":"10.0.0.2:2","peer":"10.0.0.1:1","count":1,"least":0.001000,"mean":0.001000,"greatest":0.001000}
{"kind":"end","connection":1,"end":"10.0.0.2:2","peer":"10.0.0.1:1","verdict":"found","findings":1,"all_rules":true,\
"segments":3,"bytes":0,"wrong_checksums":0}
{"kind":"capture","packets":6,"connections":1,"is_cut":false,"is_lossy":false,"others":0,"fragments":0,"cut_short":0,"strays":0,"ends":2,\
"all_rules":1,"findings":1}
"""

# The same fault in colors (ECMA-48, 8.3.117): 32 is green, 31 red and 33 yellow, and 0 ends each.
GREEN, RED, YELLOW, PLAIN = "\x1b[32m", "\x1b[31m", "\x1b[33m", "\x1b[0m"
FAULTY = [*HAND, *[packet_of("went 300/106 ACK")] * 2, packet_of("came 100/300 ACK text=HELLO")]
COLORED = (
    "packets 8, connections 1\n" + connection(1, 1, 8, [
        peer(words=f"{GREEN}clean{PLAIN}", segments=4, text=10), f"   {YELLOW}{note('retransmissions', 1, 8, '9293, 3.8.1').strip()}{PLAIN}", TWO,
        own(words=f"{RED}findings 2{PLAIN}", segments=4), f"   {RED}{WRONG_ACK.strip()}{PLAIN}", ONE]) + verdict(2, 2, 1, 1))

# What is passed over: names (4.5), and a block of nobody's.
OTHERS = block_of("<", 4, bytes(4)) + block_of("<", 0xBAD, b"other")
MISSING = "packets are missing: dropped when the capture was taken, or in obsolete packet blocks, which aren't read\n"
LACK = ": packets were dropped when the capture was taken, or are in obsolete packet blocks"


def lossy(number, ends):
    """The report of a capture of which packets are missing."""
    return f"packets {number}, connections 1\n{MISSING}{connection(1, 1, number, ends)}{verdict(2, 0, 0, 0, LACK)}"


LOSSY = lossy(5, [peer(), TWO, own(FORM), ONE])
UNTIMED = CLEAN.replace("0.004000 s", "0.000000 s").replace("0.001000 s", "0.000000 s")
NOTHING = "\nends judged 0, findings 0\nNothing was judged.\n"


def cut_behind(number, ends):
    """The report of a capture of which reading ends behind a packet."""
    return (f"packets {number}, connections 1\nthe capture ends in a record that is cut short or damaged, behind packet {number}\n"
            f"{connection(1, 1, number, ends)}{verdict(2, 0, 0, 0, CUT)}")


CUT = ": the capture's last record is cut short or damaged"
FOUR, LAST = [peer(), ONE, own(FORM, segments=1), ONE], HAND[4]
DAMAGED = f"packets 0, connections 0\nthe capture ends in a record that is cut short or damaged, behind packet 0\nno segment of TCP over IPv4 or IPv6\n{NOTHING}"

# The same of the pcapng form (draft-ietf-opsawg-pcapng).
SECTIONS = {
    f"pcapng, {named} order, units of {units}": (sections_of(HAND, order, resolution), AT, CLEAN, 0)
    for order, named in (("<", "one"), (">", "the other"))
    for resolution, units in ((None, "10^-6, untold"), (6, "10^-6"), (9, "10^-9"), (148, "2^-20"), (3, "10^-3"))
} | {
    "two interfaces of different links": (of_two_interfaces(), AT, CLEAN, 0),
    "two interfaces in the other order": (of_two_interfaces(">"), AT, CLEAN, 0),
    "two sections of different order": (sections_of(HAND[:2]) + sections_of(HAND[2:], ">", 9, 2), AT, CLEAN, 0),
    "other blocks": (header_of("<") + OTHERS + sections_of(HAND)[28:] + OTHERS, AT, CLEAN, 0),
    "an obsolete packet": (sections_of(HAND) + obsolete_block("<", HAND[0]), AT, LOSSY, 0),
    "an obsolete packet in the section before": (sections_of([], ">") + obsolete_block(">", HAND[0]) + sections_of(HAND), AT, LOSSY, 0),
    "text that came in an obsolete packet": (
        sections_of(HAND[:3]) + obsolete_block("<", HAND[3]) + packet_block("<", 3, LAST), AT, lossy(4, [peer(segments=2, text=0), ONE, own(FORM), ONE]), 0),
    "a section that is empty": (sections_of(HAND) + header_of(">"), AT, CLEAN, 0),
    "statistics without drops": (sections_of(HAND) + statistics_of("<", c4=5, c5=0, c7=0), AT, CLEAN, 0),
    "dropped by the interface": (sections_of(HAND) + statistics_of("<", c4=5, c5=1), AT, LOSSY, 0),
    "dropped by the system": (sections_of(HAND, ">") + statistics_of(">", c7=1), AT, LOSSY, 0),
    "dropped in the section before": (sections_of([]) + statistics_of("<", c5=1) + sections_of(HAND, ">"), AT, LOSSY, 0),
    "dropped before a packet": (sections_of(HAND[:4]) + packet_block("<", 4, LAST, lost=1), AT, LOSSY, 0),
    "none dropped before a packet": (sections_of(HAND[:4]) + packet_block("<", 4, LAST, lost=0), AT, CLEAN, 0),
    "simple packets": (header_of("<") + interface_of("<") + b"".join(simple_block("<", packet) for packet in HAND), AT, UNTIMED, 0),
    "simple packets of any length": (header_of(">") + interface_of(">", snaplen=0) + b"".join(simple_block(">", packet) for packet in HAND), AT, UNTIMED, 0),
    "a simple packet that is cut short": (
        header_of("<") + interface_of("<", snaplen=44) + b"".join(simple_block("<", packet, 44) for packet in HAND), AT,
        "packets 5, connections 1\nleft out: segments that are cut short: 1\n"
        + connection(1, 1, 5, [peer(segments=2, text=0), ONE, own(FORM), ONE]).replace("0.004", "0.000").replace("0.001", "0.000") + verdict(2, 0, 0, 0, NOT_WHOLE), 0),
    "a block that is cut": (sections_of(HAND)[:-1], AT, cut_behind(4, FOUR), 2),
    "a block whose lengths differ": (sections_of(HAND)[:-4] + bytes(4), AT, cut_behind(4, FOUR), 2),
    "a length that is no multiple of four": (sections_of(HAND[:4]) + struct.pack("<II", 6, 74) + bytes(100), AT, cut_behind(4, FOUR), 2),
    "a length below 12": (sections_of(HAND[:4]) + struct.pack("<III", 6, 8, 8) + bytes(100), AT, cut_behind(4, FOUR), 2),
    "a length that is too great": (sections_of(HAND[:4]) + block_of("<", 0xBAD, bytes(16777208)), AT, cut_behind(4, FOUR), 2),
    "the greatest length": (sections_of(HAND[:4]) + block_of("<", 0xBAD, bytes(16777204)) + packet_block("<", 4, LAST), AT, CLEAN, 0),
    "an interface that isn't described": (sections_of(HAND[:4]) + packet_block("<", 4, LAST, number=1), AT, cut_behind(4, FOUR), 2),
    "an interface of the section before": (sections_of(HAND[:4]) + header_of("<") + packet_block("<", 4, LAST), AT, cut_behind(4, FOUR), 2),
    "more captured than there is": (
        sections_of(HAND[:4]) + block_of("<", 6, struct.pack("<IIIII", 0, 0, 0, len(LAST) + 4, len(LAST)) + LAST), AT, cut_behind(4, FOUR), 2),
    "units that aren't read": (header_of("<") + interface_of("<", resolution=20), AT, DAMAGED, 2),
    "4096 interfaces": (header_of("<") + interface_of("<") * 4096 + sections_of(HAND)[48:], AT, CLEAN, 0),
    "4097 interfaces": (header_of("<") + interface_of("<") * 4097 + sections_of(HAND)[48:], AT, DAMAGED, 2),
    "another version": (block_of("<", 0x0A0D0D0A, struct.pack("<IHHq", 0x1A2B3C4D, 2, 0, -1)), AT, DAMAGED, 2),
    "no section": (block_of("<", 0x0A0D0D0A, struct.pack("<IHHq", 0, 1, 0, -1)), AT, DAMAGED, 2),
    "no packet in a section": (sections_of([]), [], f"packets 0, connections 0\nno segment of TCP over IPv4 or IPv6\n{NOTHING}", 2),
    "a wrong acknowledgement in a section": (
        sections_of([*HAND, *[packet_of("went 300/106 ACK")] * 2]), AT,
        f"packets 7, connections 1\n{connection(1, 1, 7, [peer(), TWO, own(words='findings 2', segments=4), WRONG_ACK, ONE])}{verdict(2, 2, 1, 1)}", 1),
}

# Of each its capture, the program's words, the report, and the status.
CASES = {
    "microseconds": (capture_of(HAND), AT, CLEAN, 0),
    "nanoseconds": (capture_of(HAND, unit=1), AT, CLEAN, 0),
    "the other order": (capture_of(HAND, order=">"), AT, CLEAN, 0),
    "nanoseconds in the other order": (capture_of(HAND, order=">", unit=1), AT, CLEAN, 0),
    "two tags": (capture_of(HAND, front=TAGGED, link=1), AT, CLEAN, 0),
    "sums left to a device": (capture_of([left_to_device(packet) for packet in HAND]), AT, CLEAN, 0),
    "no place": (
        capture_of(HAND), [], f"packets 5, connections 1\n{connection(1, 1, 5, [peer(), TWO, own(FORM), ONE])}{verdict(2, 0, 0, 0, NO_PLACE)}", 0),
    "a wrong acknowledgement": (
        capture_of([*HAND, *[packet_of("went 300/106 ACK")] * 2]), AT,
        f"packets 7, connections 1\n{connection(1, 1, 7, [peer(), TWO, own(words='findings 2', segments=4), WRONG_ACK, ONE])}{verdict(2, 2, 1, 1)}", 1),
    "colors": (capture_of(FAULTY), [*AT, "--color", "always"], COLORED, 1),
    "no colors": (capture_of(HAND), [*AT, "--color", "never"], CLEAN, 0),
    "colors for a terminal, and this is none": (capture_of(HAND), [*AT, "--color=auto"], CLEAN, 0),
    "colors that there aren't": (capture_of(HAND), [*AT, "--color", "sometimes"], "", 2),
    "an address that is none": (capture_of(HAND), ["--at", "2001:db8::1::2"], "", 2),
    "a report as JSON": (capture_of([*HAND, packet_of("went 300/106 ACK")]), [*AT, "--json"], JSON, 1),
    "a second SYN with another number": (
        capture_of([*HAND, packet_of("came 500 SYN")]), AT,
        f"packets 6, connections 1\n{connection(1, 1, 6, [peer(words='findings 1', segments=4), WRONG_SYN, TWO, own(), ONE])}{verdict(2, 1, 1, 1)}", 1),
    "the ports again, behind an end": (
        capture_of([packet_of(row) for row in [*ROWS, *CLOSED, "came 4000 SYN", "went 9000/4001 SYN,ACK"]]), AT,
        "packets 10, connections 2\n" + connection(1, 1, 8, [peer(segments=5), trips(3), own(segments=3), TWO])
        + connection(2, 9, 10, [peer(segments=1, text=0), ONE, own(segments=1)]) + verdict(4, 0, 0, 2), 0),
    # Who is still in the old connection answers a new SYN by an acknowledgement of the old one (RFC 9293, 3.5, figure 9).
    "an end in the connection before": (
        capture_of([packet_of(row) for row in [*ROWS, "came 105/300 FIN,ACK", "went 300/106 ACK", "came 5000 SYN", "went 300/106 ACK", "came 106 RST"]]), AT,
        "packets 10, connections 2\n" + connection(1, 1, 7, [peer(segments=4), trips(3), own(segments=3), ONE])
        + connection(2, 8, 10, [peer(segments=2, text=0), own(FORM, segments=1)]) + verdict(4, 0, 0, 1), 0),
    "one direction, and the ports again": (
        capture_of([packet_of(row) for row in ["went 299/100 SYN,ACK", "went 300/105 ACK", "went 300/106 FIN,ACK", "went 9000/4001 SYN,ACK"]]), AT,
        "packets 4, connections 2\n" + connection(1, 1, 3, [own(FORM, segments=3), SILENT], OWN, PEER)
        + connection(2, 4, 4, [own(FORM, segments=1), SILENT], OWN, PEER) + verdict(2, 0, 0, 0), 0),
    "a damaged reset ends nothing": (
        capture_of([packet_of(row) for row in [*ROWS, "came 105 RST sum=wrong", "came 500 SYN"]]), AT,
        "packets 7, connections 1\n" + connection(1, 1, 7, [
            peer(words="findings 1", segments=5), WRONG_SYN.replace("packet 6, 0.005000", "packet 7, 0.006000"),
            "   note: wrong checksums: 1, the first in packet 6 (RFC 9293, 3.1)", TWO, own(), ONE]) + verdict(2, 1, 1, 1), 1),
    "many SYNs": (
        capture_of([packet_of(row) for row in [*["came 99 SYN"] * 17, *OPENED[1:], "went 300/106 ACK"]]), AT,
        "packets 20, connections 1\n" + connection(1, 1, 20, [
            peer(segments=18, text=0), note("retransmissions", 16, 2, "9293, 3.8.1"), own(words="findings 1"),
            "   packet 20, 0.019000 s: an acknowledgement of 106, up to which not all came (RFC 9293, 3.4) [relative number 7]", ONE]) + verdict(2, 1, 1, 1), 1),
    # The end's own queue may drop before the capture, so that nothing is said of the gap; but of what is acknowledged behind it.
    "a wrong acknowledgement behind a gap": (
        capture_of([*HAND, packet_of("went 302/106 ACK")]), AT,
        "packets 6, connections 1\n" + connection(1, 1, 6, [
            peer(), TWO, own(words="findings 1", segments=3),
            "   packet 6, 0.005000 s: an acknowledgement of 106, up to which not all came (RFC 9293, 3.4) [relative number 7]",
            note("previous segment not seen", 1, 6, "9293, 3.4"), ONE]) + verdict(2, 1, 1, 1), 1),
    "an acknowledgement before the initial number": (
        capture_of([*HAND, packet_of("went 300/90 ACK")]), AT,
        "packets 6, connections 1\n" + connection(1, 1, 6, [
            peer(), TWO, own(words="findings 1", segments=3),
            "   packet 6, 0.005000 s: an acknowledgement of 90, and one of 105 before it (RFC 9293, 3.10.7.4) [relative number -9]", ONE]) + verdict(2, 1, 1, 1), 1),
    "text before the initial number": (
        capture_of([*HAND, packet_of("went 290/105 ACK text=XY")]), AT,
        "packets 6, connections 1\n" + connection(1, 1, 6, [
            peer(), TWO, own(words="findings 1", segments=3, text=2),
            "   packet 6, 0.005000 s: text or FIN before the first byte of the stream, at 290 (RFC 9293, 3.4) [relative number -9]",
            note("retransmissions", 1, 6, "9293, 3.8.1"), ONE]) + verdict(2, 1, 1, 1), 1),
    "a damaged port": (
        capture_of([*HAND, with_port(HAND[3], 9)]), AT,
        "packets 6, connections 1\nleft out: segments of no connection with a wrong checksum: 1\n"
        + connection(1, 1, 5, [peer(), TWO, own(), ONE]) + verdict(2, 0, 0, 1), 0),
    "a damaged segment": (
        capture_of([packet_of(row) for row in [*ROWS, "came 105/300 ACK text=X sum=wrong"]]), AT,
        "packets 6, connections 1\n" + connection(1, 1, 6, [
            peer(segments=4), "   note: wrong checksums: 1, the first in packet 6 (RFC 9293, 3.1)", TWO, own(), ONE]) + verdict(2, 0, 0, 1), 0),
    "a fragment": (
        capture_of([*HAND, packet_of("came 105/300 ACK text=X", 0x2000)]), AT,
        "packets 6, connections 1\nleft out: fragments: 1\n" + connection(1, 1, 5, [peer(), TWO, own(FORM), ONE]) + verdict(2, 0, 0, 0, NOT_WHOLE), 0),
    "a fragment between others": (
        capture_of([*HAND, from_address(packet_of("came 105/300 ACK text=X", 0x2000), "10.0.0.9")]), AT,
        "packets 6, connections 1\nleft out: fragments: 1\n" + connection(1, 1, 5, [peer(), TWO, own(), ONE]) + verdict(2, 0, 0, 1), 0),
    "a segment that is cut short": (
        capture_of([*HAND, packet_of("came 105/300 ACK text=XYZ")[:-1]]), AT,
        "packets 6, connections 1\nleft out: segments that are cut short: 1\n"
        + connection(1, 1, 5, [peer(), TWO, own(FORM), ONE]) + verdict(2, 0, 0, 0, NOT_WHOLE), 0),
    "trains": (capture_of([train_of(packet) for packet in HAND]), AT, CLEAN, 0),
    "a train that is cut short": (
        capture_of(HAND) + record_of(5, train_of(packet_of("came 105/300 ACK text=XYZ"))[:-1], 1), AT,
        "packets 6, connections 1\nleft out: segments that are cut short: 1\n"
        + connection(1, 1, 5, [peer(), TWO, own(FORM), ONE]) + verdict(2, 0, 0, 0, NOT_WHOLE), 0),
    "whole packets in frames that aren't captured whole": (
        capture_of([]) + b"".join(record_of(at, packet, 4) for at, packet in enumerate(HAND)), AT, CLEAN, 0),
    "the beginning is missing": (
        capture_of(HAND[2:]), AT, "packets 3, connections 1\n"
        + connection(1, 1, 3, [peer(segments=2), ONE, own(FORM, segments=1)]) + verdict(2, 0, 0, 0), 0),
    "no packet": (capture_of([]), [], "packets 0, connections 0\nno segment of TCP over IPv4 or IPv6 (link type 101)\n\nends judged 0, findings 0\nNothing was judged.\n", 2),
} | SECTIONS | captures_of_ipv6.CASES | captures_with_notes.CASES | {f"link {link}": (capture_of(HAND, front=front, link=link), AT, CLEAN, 0) for link, front in LINKS.items()}


def ran(program, capture, words):
    with tempfile.NamedTemporaryFile(suffix=".pcap") as file:
        file.write(capture)
        file.flush()
        done = subprocess.run([program, *words, file.name], capture_output=True, text=True, check=False, timeout=10)
        return done.stdout, done.returncode


def on_terminal(program, capture, stream="stdout", **environment):
    """What the program writes where one of its standard streams is a terminal, and its status. The other one goes nowhere."""
    with tempfile.NamedTemporaryFile(suffix=".pcap") as file:
        file.write(capture)
        file.flush()
        ours, theirs = pty.openpty()
        variables = {name: value for name, value in os.environ.items() if name != "NO_COLOR"} | environment
        streams = {"stdout": subprocess.DEVNULL, "stderr": subprocess.DEVNULL, stream: theirs}
        with subprocess.Popen([program, *AT, file.name], **streams, env=variables) as running:
            os.close(theirs)
            written = b""
            # a terminal whose writer has ended is at fault, and not at its end
            with contextlib.suppress(OSError):
                while more := os.read(ours, 4096):
                    written += more
            os.close(ours)
        return written.decode().replace("\r\n", "\n"), running.returncode


def judge_colors(cases, program):
    """Colors on a terminal, but where NO_COLOR has a value."""
    plain = COLORED
    for code in (GREEN, RED, YELLOW, PLAIN):
        plain = plain.replace(code, "")
    for name, environment, wanted in (("a terminal", {}, COLORED), ("an empty NO_COLOR", {"NO_COLOR": ""}, COLORED), ("NO_COLOR", {"NO_COLOR": "1"}, plain)):
        found = on_terminal(program, capture_of(FAULTY), **environment)
        cases.holds(f"colors, {name}", found == (wanted, 1), f"found {found}, wanted {wanted}")


def judge_progress(cases, program):
    """On a terminal a line tells how far a capture of more than 2^18 packets is read, and is taken away at its end (ECMA-48, 8.3.41)."""
    many = b"".join(record_of(at, b"", 0) for at in range(2**18 - len(HAND)))
    for name, capture, wanted in (("few packets", b"", ""), ("many packets", many, "\rtcpjudge: packet 262144\r\x1b[K")):
        found = on_terminal(program, capture_of(HAND) + capture, "stderr")
        cases.holds(f"progress, {name}", found == (wanted, 0), f"found {found}, wanted {wanted!r}")


def judge_converted(cases, program):
    """The stored captures, by editcap in the pcapng form, with times of micro- and of nanoseconds: the same reports."""
    for path in sorted((pathlib.Path(__file__).parent / "data").glob("*.pcap")):
        wanted = ran(program, path.read_bytes(), ["--at", "10.7.0.1"])
        with tempfile.TemporaryDirectory() as folder:
            fine, made = pathlib.Path(folder, "fine"), pathlib.Path(folder, "made")
            subprocess.run(["editcap", "-F", "nsecpcap", path, fine], check=True)
            for kind, source in (("microseconds", path), ("nanoseconds", fine)):
                subprocess.run(["editcap", "-F", "pcapng", source, made], check=True)
                found = ran(program, made.read_bytes(), ["--at", "10.7.0.1"])
                cases.holds(f"{path.name} in the pcapng form, {kind}", found == wanted, f"found {found}, wanted {wanted}")


def judge_seen(cases):
    """The sections made by hand, by tshark: it reads as many packets, and as long a time. Obsolete packets it reads too."""
    for name, (capture, _, report, status) in SECTIONS.items():
        if status == 2 or "simple" in name or "obsolete" in name:
            continue
        with tempfile.NamedTemporaryFile(suffix=".pcapng") as file:
            file.write(capture)
            file.flush()
            read = subprocess.run(["tshark", "-r", file.name, "-T", "fields", "-e", "frame.time_epoch"], capture_output=True, text=True, check=False)
        seen = [int(time.replace(".", "")) for time in read.stdout.split()]
        micros = (seen[-1] - seen[0]) // 1000 if seen else 0
        holds = read.returncode == 0 and report.startswith(f"packets {len(seen)}, ") and f", 0.{micros:06} s\n" in report
        cases.holds(f"a capture by tshark, {name}", holds, f"tshark {read}, here {report}")


def judge_spoiled(cases, program, count):
    """Captures that are cut, or have other or more bytes: a report or a fault in words, in ten seconds, and never another end."""
    whole = [capture for capture, _, _, _ in CASES.values() if len(capture) < 100000]
    for number in range(count):
        chance = random.Random(number)
        spoiled = bytearray(chance.choice(whole))
        if chance.random() < 0.3:
            del spoiled[chance.randrange(len(spoiled) + 1):]
        if chance.random() < 0.3:
            at = chance.randrange(len(spoiled) + 1)
            spoiled[at:at] = chance.randbytes(chance.choice((1, 2, 4, 16, 1000)))
        for _ in range(chance.choice((0, 1, 1, 2, 5, 20))):
            if spoiled:
                spoiled[chance.randrange(len(spoiled))] = chance.choice((0, 1, 255, chance.randrange(256)))
        with cases.case(f"a spoiled capture, {number}"):
            _, status = ran(program, bytes(spoiled), AT)
            if status not in (0, 1, 2):
                raise Differs(f"status {status}")


def judge_captures(cases, program, spoiled=2000):
    for name, (capture, words, report, status) in CASES.items():
        found = ran(program, capture, words)
        cases.holds(f"a capture, {name}", found == (report, status), f"found {found}, wanted {(report, status)}")
    judge_colors(cases, program)
    judge_progress(cases, program)
    judge_spoiled(cases, program, spoiled)
    noting.judge_notes(cases, program)
    if shutil.which("editcap") and shutil.which("tshark"):
        judge_converted(cases, program)
        judge_seen(cases)
        captures_of_ipv6.judge_dissected(cases)
        noting.judge_analysed(cases, {name: case[0] for name, case in captures_with_notes.CASES.items()})
    else:
        print("judge: left out: editcap and tshark")


def write_cases(folder):
    folder.mkdir(exist_ok=True)
    for name, (capture, words, report, _) in CASES.items():
        place = folder / name.replace(" ", "-").replace(",", "")
        place.write_bytes(capture)
        place.with_name(f"{place.name}.stdout").write_text(report)
        place.with_name(f"{place.name}.args").write_text("\n".join([*words, "{}"]) + "\n")


def main():
    if sys.argv[1] == "--cases":
        write_cases(pathlib.Path(sys.argv[2]))
        return 0
    from judging import Cases

    cases = Cases()
    judge_captures(cases, sys.argv[1])
    print(f"{cases.count} captures, {cases.failed} failed")
    return int(cases.failed > 0)


if __name__ == "__main__":
    raise SystemExit(main())
