"""Captures of TCP over IPv6 (RFC 8200) whose reports are worked out by hand, as captures.py has those over IPv4."""

import ipaddress
import struct
import subprocess
import tempfile

from making import ALL, FORM, HAND, NO_PLACE, NOT_WHOLE, ONE, ROWS, TWO, capture_of, connection, own, packet_of, peer, record_of, sections_of, trips, verdict

from rfc_rows import line_of

OWN, PEER = "[2001:db8::2]:2", "[2001:db8::1]:1"
ADDRESSES = {"10.0.0.2": ipaddress.ip_address("2001:db8::2").packed, "10.0.0.1": ipaddress.ip_address("2001:db8::1").packed}
AT = ["--at", "2001:db8::2"]
HOPS, ROUTE, FRAGMENT, AUTHENTICATED, OPTIONS, TCP = 0, 43, 44, 51, 60, 6


def sum_of(src, dst, segment):
    """The sum of 16-bit words over the pseudo-header (RFC 8200, 8.1) and the segment."""
    data = src + dst + struct.pack(">II", len(segment), TCP) + segment
    data += bytes(len(data) % 2)
    return sum(word for (word,) in struct.iter_unpack(">H", data))


def with_field(segment, field):
    return segment[:16] + struct.pack(">H", field) + segment[18:]


def segment_of(row, addresses):
    """A row's addresses and its segment, whose checksum is right over IPv6, or a wrong one."""
    _, source, target, digits = line_of(row).split(" ")
    src, dst, data = addresses[source], addresses[target], with_field(bytes.fromhex(digits), 0)
    field = -sum_of(src, dst, data) % 65535
    return src, dst, with_field(data, field ^ 256 if "sum=wrong" in row else field)


def within(src, dst, data, *headers, told=None, kind=TCP):
    """Data behind headers of extension, each its kind and its bytes without the next one's kind, in a packet of IPv6 (RFC 8200, 3)."""
    for number, rest in reversed(headers):
        data, kind = bytes([kind]) + rest + data, number
    return struct.pack(">IHBB", 0x60000000, len(data) if told is None else told, kind, 64) + src + dst + data


def packet6_of(row, *headers, told=None, addresses=ADDRESSES):
    src, dst, data = segment_of(row, addresses)
    return within(src, dst, data, *headers, told=told)


def left_to_device(row):
    """The packet with the folded sum over the pseudo-header in place of its checksum."""
    src, dst, data = segment_of(row, ADDRESSES)
    words = sum_of(src, dst, b"") + len(data)
    return within(src, dst, with_field(data, (words - 1) % 65535 + 1))


def fragment(offset, more):
    """A fragment's header (RFC 8200, 4.5): the offset in units of eight bytes, and whether more follow."""
    return FRAGMENT, struct.pack(">BHI", 0, offset * 8 + more, 0xABCD)


def in_6(ends):
    """The lines of ends, with their addresses of IPv6."""
    return [line.replace("10.0.0.2:2", OWN).replace("10.0.0.1:1", PEER) for line in ends]


def connection6(number, first, last, ends):
    return connection(number, first, last, in_6(ends), PEER, OWN)


ENDS = [peer(), TWO, own(), ONE]
CLEAN = f"packets 5, connections 1\n{connection6(1, 1, 5, ENDS)}{verdict(2, 0, 0, 1)}"
HAND6 = [packet6_of(row) for row in ROWS]
MORE = "came 105/300 ACK text=X"
# What stands before a packet, by the kind of link; a loopback's four bytes are the family, which differs from system to system.
FRONTS = [(101, b""), (229, b""), (12, b""), (1, bytes(12) + b"\x86\xdd"), (1, bytes(12) + bytes.fromhex("88a800058100000786dd")),
          (113, bytes(14) + b"\x86\xdd"), (276, b"\x86\xdd" + bytes(18)), *((0, struct.pack("<I", family)) for family in (10, 24, 28, 30)),
          (0, struct.pack(">I", 30))]
# Headers of extension (RFC 8200, 4): of eight bytes, and longer. Authentication has 12 bytes and more (RFC 4302, 2).
PASSED = {
    "options for each hop": [(HOPS, bytes([0, 1, 4]) + bytes(4))],
    "longer options for each hop": [(HOPS, bytes([2, 1, 20]) + bytes(20))],
    "options for the destination": [(OPTIONS, bytes([1, 1, 12]) + bytes(12))],
    "a route at its end": [(ROUTE, bytes([2, 0, 0]) + bytes(4) + bytes(16))],
    "a whole packet with a fragment's header": [fragment(0, 0)],
    "a fragment's header with bits that mean nothing": [(FRAGMENT, struct.pack(">BHI", 255, 6, 0xABCD))],
    "authentication": [(AUTHENTICATED, bytes([4]) + bytes(22))],
    "the shortest authentication": [(AUTHENTICATED, bytes([1]) + bytes(10))],
    "all of them": [
        (HOPS, bytes(7)), (OPTIONS, bytes(7)), (ROUTE, bytes(7)), fragment(0, 0), (AUTHENTICATED, bytes([4]) + bytes(22)), (OPTIONS, bytes([1]) + bytes(14))],
}
PASSED_CASES = {
    f"IPv6, {name}": (capture_of([packet6_of(row, *headers) for row in ROWS]), AT, CLEAN, 0) for name, headers in PASSED.items()
}
OTHER_FRONT = "left out: packets without TCP: 1\n"
# Text at RFC 5952's rules, by its section: 4.1, 4.2.1, 4.2.2, 4.2.3, 4.3, 5.
WRITTEN = {
    "2001:0db8:0000:0000:0000:0000:0000:0003": "2001:db8::3",
    "2001:db8:0:0:0:0:2:1": "2001:db8::2:1",
    "2001:db8:0:1:1:1:1:1": "2001:db8:0:1:1:1:1:1",
    "2001:0:0:1:0:0:0:1": "2001:0:0:1::1",
    "2001:db8:0:0:1:0:0:1": "2001:db8::1:0:0:1",
    "2001:DB8:AAAA:BBBB:CCCC:DDDD:EEEE:1": "2001:db8:aaaa:bbbb:cccc:dddd:eeee:1",
    "::1": "::1",
    "0:0:0:0:0:ffff:192.0.2.1": "::ffff:192.0.2.1",
    "fe80::": "fe80::",
}


def written(spelled, shortest):
    """A capture of an address, named as it may be spelled; the report writes it in one way."""
    addresses = ADDRESSES | {"10.0.0.2": ipaddress.ip_address(spelled).packed}
    capture = capture_of([packet6_of(row, addresses=addresses) for row in ROWS])
    return capture, ["--at", spelled], CLEAN.replace("2001:db8::2", shortest), 0


def left_out(line, packet, lack=NOT_WHOLE, tried=FORM, complete=0, more=0):
    """The report of a packet that is left out behind the five."""
    ends = connection6(1, 1, 5, [peer(), TWO, own(tried), ONE])
    return capture_of(HAND6) + record_of(5, packet, more), AT, f"packets 6, connections 1\nleft out: {line}: 1\n{ends}{verdict(2, 0, 0, complete, lack)}", 0


def between_others(packet):
    """The packet from another address, its checksum as it was."""
    return packet[:8] + ipaddress.ip_address("2001:db8::9").packed + packet[24:]


JSON = """\
{"kind":"round_trips","connection":1,"end":"[2001:db8::1]:1","peer":"[2001:db8::2]:2","count":2,"least":0.001000,"mean":0.001000,"greatest":0.001000}
{"kind":"end","connection":1,"end":"[2001:db8::1]:1","peer":"[2001:db8::2]:2","verdict":"clean","findings":0,"all_rules":false,\
"segments":3,"bytes":5,"wrong_checksums":0}
{"kind":"round_trips","connection":1,"end":"[2001:db8::2]:2","peer":"[2001:db8::1]:1","count":1,"least":0.001000,"mean":0.001000,"greatest":0.001000}
{"kind":"end","connection":1,"end":"[2001:db8::2]:2","peer":"[2001:db8::1]:1","verdict":"clean","findings":0,"all_rules":true,\
"segments":2,"bytes":0,"wrong_checksums":0}
{"kind":"capture","packets":5,"connections":1,"is_cut":false,"is_lossy":false,"others":0,"fragments":0,"cut_short":0,"strays":0,"ends":2,\
"all_rules":1,"findings":0}
"""
LINK_CASES = {
    f"IPv6, link {link}, {front.hex() or 'nothing'} before it": (capture_of(HAND6, front=front, link=link), AT, CLEAN, 0) for link, front in FRONTS
}
CASES = LINK_CASES | PASSED_CASES | {
    f"IPv6, {spelled} as {shortest}": written(spelled, shortest) for spelled, shortest in WRITTEN.items()} | {
    "IPv6 in the pcapng form": (sections_of(HAND6, ">", 9), AT, CLEAN, 0),
    "IPv6 as JSON": (capture_of(HAND6), [*AT, "--json"], JSON, 0),
    "IPv6, no place": (
        capture_of(HAND6), [], f"packets 5, connections 1\n{connection6(1, 1, 5, [peer(), TWO, own(FORM), ONE])}{verdict(2, 0, 0, 0, NO_PLACE)}", 0),
    "IPv6, sums left to a device": (capture_of([left_to_device(row) for row in ROWS]), AT, CLEAN, 0),
    "IPv6, trains, which tell no length": (capture_of([packet6_of(row, told=0) for row in ROWS]), AT, CLEAN, 0),
    # RFC 2675, 2: the payload's length is 0, and an option for each hop tells it.
    "IPv6, jumbograms": (
        capture_of([packet6_of(row, (HOPS, bytes([0, 0xC2, 4]) + struct.pack(">I", 8 + len(packet) - 40)), told=0) for row, packet in zip(ROWS, HAND6)]),
        AT, CLEAN, 0),
    "IPv6, what fills a frame up behind the packet": (capture_of([packet + bytes(6) for packet in HAND6]), AT, CLEAN, 0),
    "both versions, the same ports": (
        capture_of([packet for pair in zip(HAND, HAND6) for packet in pair]), [],
        "packets 10, connections 2\n"
        + connection(1, 1, 9, [peer(), trips(2, 2, 2, 2), own(FORM), trips(1, 2, 2, 2)])
        + connection6(2, 2, 10, [peer(), trips(2, 2, 2, 2), own(FORM), trips(1, 2, 2, 2)])
        + verdict(4, 0, 0, 0, NO_PLACE), 0),
    "IPv6, a damaged segment": (
        capture_of([*HAND6, packet6_of("came 105/300 ACK text=X sum=wrong")]), AT,
        "packets 6, connections 1\n" + connection6(1, 1, 6, [
            peer(segments=4), "   note: wrong checksums: 1, the first in packet 6 (RFC 9293, 3.1)", TWO, own(), ONE]) + verdict(2, 0, 0, 1), 0),
    "IPv6, a damaged address": (
        capture_of([*HAND6, between_others(packet6_of(MORE))]), AT,
        "packets 6, connections 1\nleft out: segments of no connection with a wrong checksum: 1\n" + connection6(1, 1, 5, ENDS) + verdict(2, 0, 0, 1), 0),
    "IPv6, a wrong acknowledgement": (
        capture_of([*HAND6, packet6_of("went 300/106 ACK")]), AT,
        "packets 6, connections 1\n" + connection6(1, 1, 6, [
            peer(), TWO, own(words="findings 1", segments=3),
            "   packet 6, 0.005000 s: an acknowledgement of 106, up to which not all came (RFC 9293, 3.4) [relative number 7]", ONE])
        + verdict(2, 1, 1, 1), 1),
    "IPv6, a first fragment": left_out("fragments", packet6_of(MORE, fragment(0, 1))),
    "IPv6, a later fragment": left_out("fragments", packet6_of(MORE, fragment(1, 0))),
    "IPv6, a fragment behind options": left_out("fragments", packet6_of(MORE, (HOPS, bytes(7)), fragment(0, 1))),
    "IPv6, a fragment of UDP": left_out("packets without TCP", within(*ADDRESSES.values(), bytes(16), fragment(0, 1), kind=17), "", ALL, 1),
    "IPv6, a fragment between others": left_out("fragments", between_others(packet6_of(MORE, fragment(0, 1))), "", ALL, 1),
    "IPv6, a segment that is cut short": left_out("segments that are cut short", packet6_of(MORE)[:-1]),
    "IPv6, a train that is cut short": left_out("segments that are cut short", packet6_of(MORE, told=0)[:-1], more=1),
    "IPv6, a header of TCP that is cut short": left_out("segments that are cut short", packet6_of(MORE)[:59]),
    "IPv6, options that are cut short": left_out("segments that are cut short", packet6_of(MORE, (OPTIONS, bytes(7)))[:47]),
    "IPv6, longer options than there are bytes": left_out("segments that are cut short", packet6_of(MORE, (OPTIONS, bytes([4]) + bytes(6)))),
    "IPv6, no room for a header of TCP": left_out("segments that are cut short", within(*ADDRESSES.values(), bytes(19))),
    "IPv6, a header that is cut short": left_out("packets without TCP", HAND6[0][:39], "", ALL, 1),
    "IPv6, UDP": left_out("packets without TCP", within(*ADDRESSES.values(), bytes(8), kind=17), "", ALL, 1),
    "IPv6, no next header": left_out("packets without TCP", within(*ADDRESSES.values(), b"", (OPTIONS, bytes(7)), kind=59), "", ALL, 1),
    "IPv6, on a route": left_out("packets without TCP", packet6_of(MORE, (ROUTE, bytes([2, 0, 1]) + bytes(20))), "", ALL, 1),
    "another version behind IPv6's type": (
        capture_of([packet_of(row) for row in ROWS], front=bytes(12) + b"\x86\xdd", link=1), [],
        "packets 5, connections 0\nleft out: packets without TCP: 5\nno segment of TCP over IPv4 or IPv6 (link type 1)\n\n"
        "ends judged 0, findings 0\nNothing was judged.\n", 2),
}

# What tshark 4.0 doesn't read: Linux' family on a loopback, and lengths of 0.
UNREAD = ("IPv6, link 0, 0a000000 before it", "IPv6, trains, which tell no length", "IPv6, jumbograms")


def judge_dissected(cases):
    """The clean captures by tshark: it finds five segments, whose checksums are right but where a device is to make them so."""
    for name, (capture, _, report, _) in CASES.items():
        if report != CLEAN or name in UNREAD:
            continue
        with tempfile.NamedTemporaryFile(suffix=".pcap") as file:
            file.write(capture)
            file.flush()
            words = ["tshark", "-o", "tcp.check_checksum:TRUE", "-r", file.name, "-Y", "tcp", "-T", "fields", "-e", "tcp.checksum.status"]
            ran = subprocess.run(words, capture_output=True, text=True, check=False)
        wanted = "0" if "left to a device" in name else "1"
        cases.holds(f"a capture by tshark, {name}", ran.stdout.split() == [wanted] * 5, f"found {ran}")
