"""What captures are made of by hand, and the lines of their reports: packets of IPv4 and IPv6, both forms of captures, ends and notes."""

import struct

from rfc_rows import OPENED, line_of

from judge import octets

OWN, PEER = "10.0.0.2:2", "10.0.0.1:1"
TAGGED = bytes(12) + bytes.fromhex("88a800058100000708 00")
# What stands before a packet, by the kind of link.
LINKS = {101: b"", 1: bytes(12) + b"\x08\x00", 0: struct.pack("<I", 2), 113: bytes(14) + b"\x08\x00", 276: b"\x08\x00" + bytes(18)}


def packet_of(row, fragment=0):
    """A row's segment in a packet of IPv4 (RFC 791, 3.1)."""
    _, source, target, digits = line_of(row).split(" ")
    data = bytes.fromhex(digits)
    return struct.pack(">BBHHHBBH", 0x45, 0, 20 + len(data), 0, fragment, 64, 6, 0) + octets(source) + octets(target) + data


def left_to_device(packet):
    """The packet with the sum over the pseudo-header alone in place of its checksum (RFC 9293, 3.1)."""
    words = sum(struct.unpack(">4H", packet[12:20])) + 6 + len(packet) - 20
    return packet[:36] + struct.pack(">H", (words - 1) % 65535 + 1) + packet[38:]


def with_port(packet, port):
    """The packet from another port, its checksum as it was."""
    return packet[:20] + struct.pack(">H", port) + packet[22:]


def from_address(packet, address):
    """The packet from another address, its checksum as it was."""
    return packet[:12] + octets(address) + packet[16:]


def capture_of(packets, order="<", unit=1000, front=b"", link=101):
    """A capture in the pcap form (draft-ietf-opsawg-pcap, 4 and 5)."""
    magic = {1000: 0xA1B2C3D4, 1: 0xA1B23C4D}[unit]
    made = struct.pack(f"{order}IHHiIII", magic, 2, 4, 0, 0, 262144, link)
    for at, packet in enumerate(packets):
        made += record_of(at, front + packet, 0, order, unit)
    return made


def record_of(at, data, more, order="<", unit=1000):
    """A record of millisecond `at`, of a frame with so many more bytes than were captured (section 5)."""
    return struct.pack(f"{order}IIII", 1700000000, at * 1000000 // unit, len(data), len(data) + more) + data


def train_of(packet):
    """The packet of IPv4 that tells no length, as a device is still to cut it."""
    return packet[:2] + bytes(2) + packet[4:]


def block_of(order, kind, body):
    """A block of the pcapng form (draft-ietf-opsawg-pcapng, 3.1)."""
    body += bytes(-len(body) % 4)
    return struct.pack(f"{order}II", kind, 12 + len(body)) + body + struct.pack(f"{order}I", 12 + len(body))


def options_of(order, **values):
    """Options (3.5), each by its code."""
    made = b"".join(struct.pack(f"{order}HH", int(code[1:]), len(value)) + value + bytes(-len(value) % 4) for code, value in values.items())
    return made + bytes(4) if made else b""


def header_of(order):
    """What begins a section (4.1), whose length isn't told."""
    return block_of(order, 0x0A0D0D0A, struct.pack(f"{order}IHHq", 0x1A2B3C4D, 1, 0, -1))


def interface_of(order, link=101, resolution=None, offset=None, snaplen=262144):
    """An interface (4.2), with if_tsresol, 9, and if_tsoffset, 14."""
    options = {}
    if resolution is not None:
        options["c9"] = bytes([resolution])
    if offset is not None:
        options["c14"] = struct.pack(f"{order}q", offset)
    return block_of(order, 1, struct.pack(f"{order}HHI", link, 0, snaplen) + options_of(order, **options))


def ticks_of(at, resolution=6):
    """Millisecond `at` of the captures in units of 10^-n, or of 2^-(n - 128): the first unit that isn't before it."""
    second = 2 ** (resolution - 128) if resolution >= 128 else 10**resolution
    return -(-(1700000000000 + at) * second // 1000)


def packet_block(order, at, packet, number=0, resolution=6, lost=None):
    """An enhanced packet (4.3), with epb_dropcount, 4."""
    ticks = ticks_of(at, resolution)
    options = b"" if lost is None else options_of(order, c4=struct.pack(f"{order}Q", lost))
    head = struct.pack(f"{order}IIIII", number, ticks >> 32, ticks & 0xFFFFFFFF, len(packet), len(packet))
    return block_of(order, 6, head + packet + bytes(-len(packet) % 4) + options)


def simple_block(order, packet, snaplen=262144):
    """A simple packet (4.4)."""
    return block_of(order, 3, struct.pack(f"{order}I", len(packet)) + packet[:snaplen])


def obsolete_block(order, packet):
    """A packet in an obsolete block (appendix A)."""
    return block_of(order, 2, struct.pack(f"{order}HHIIII", 0, 0, 0, 0, len(packet), len(packet)) + packet)


def statistics_of(order, **drops):
    """Statistics of the first interface (4.6), with isb_ifdrop, 5, and isb_osdrop, 7."""
    return block_of(order, 5, bytes(12) + options_of(order, **{code: struct.pack(f"{order}Q", count) for code, count in drops.items()}))


def sections_of(packets, order="<", resolution=None, first=0):
    """A section of one interface and these packets."""
    blocks = [packet_block(order, at, packet, resolution=6 if resolution is None else resolution) for at, packet in enumerate(packets, first)]
    return header_of(order) + interface_of(order, resolution=resolution) + b"".join(blocks)


def connection(number, first, last, ends, source=PEER, target=OWN):
    """A connection's lines."""
    return f"\n{number}  {source} > {target}, packets {first} to {last}, 0.{last - first:03}000 s\n" + "".join(f"   {end}\n" for end in ends)


def verdict(ends, findings, broken, complete, lack=""):
    """The last lines."""
    told = f"{broken} of {ends} ends sent what TCP forbids, whatever the network did to it." if broken else "No end sent what the rules that were tried forbid."
    return f"\nends judged {ends}, findings {findings}\n{told}\nAcknowledgements and blocks were judged at {complete} of {ends} ends{lack}.\n"


ROWS = [*OPENED, "came 100/300 ACK text=HELLO", "went 300/105 ACK"]
HAND = [packet_of(row) for row in ROWS]
AT = ["--at", "10.0.0.2"]
NO_PLACE = ": --at ADDRESS names the end where the capture was taken"
NOT_WHOLE = ": packets are cut short, or are fragments"
FORM, ALL = "form and positions alone", "all rules"


def peer(tried=FORM, words="clean", segments=3, text=5):
    return f"{PEER}: {words} ({tried}), {segments} segments, {text} bytes of text"


def own(tried=ALL, words="clean", segments=2, text=0):
    return f"{OWN}: {words} ({tried}), {segments} segments, {text} bytes of text"


def trips(count, least=1, mean=1, greatest=1):
    """The line of round trips, in milliseconds, a mean rounded down to microseconds."""
    return f"   round trips: {count}, least {least / 1000:.6f} s, mean {mean * 1000 // 1 / 1000000:.6f} s, greatest {greatest / 1000:.6f} s"


def note(words, count, first, section):
    """The line of a note."""
    return f"   note: {words}: {count}, the first in packet {first} (RFC {section})"


# Round trips of SYN and text, and of a SYN.
TWO, ONE = trips(2), trips(1)
SILENT = f"{PEER}: sent nothing, nothing judged"
CLEAN = f"packets 5, connections 1\n{connection(1, 1, 5, [peer(), TWO, own(), ONE])}{verdict(2, 0, 0, 1)}"


def reported(rows, ends, tried=1, words=AT):
    """A capture of rows, a millisecond each, its words, and the report of one connection without a finding."""
    count = len(rows)
    return (capture_of([packet_of(row) for row in rows]), words,
            f"packets {count}, connections 1\n{connection(1, 1, count, ends)}{verdict(2, 0, 0, tried)}", 0)
