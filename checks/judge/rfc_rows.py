"""Logs whose reports are worked out by hand from the RFCs: what `tcpjudge` has to say of them, to the letter.

    python3 checks/judge/rfc_rows.py [TCPJUDGE]

Judges each row as a complete log and as another, by TCPJUDGE and the second program, or by the second program alone. The last line is
`N rows, M failed`.
"""

import struct
import sys

from twice import Judges

from end import ACK, FIN, PSH, RST, SYN
from judge import report
from program import hexadecimal, with_checksum

FLAGS = {"SYN": SYN, "ACK": ACK, "RST": RST, "FIN": FIN, "PSH": PSH}
OWN, PEER = (bytes([10, 0, 0, 2]), 2), (bytes([10, 0, 0, 1]), 1)


def line_of(words):
    """`came|went SEQ[/ACK] FLAG,FLAG [options=HEX] [text=TEXT] [port=PEERS] [window=FIELD] [sum=wrong]` as a line of a log, the numbers as the RFC's figures
    have them."""
    way, numbers, flags, *more = words.split(" ")
    seq, _, acknowledged = numbers.partition("/")
    more = dict(word.split("=", 1) for word in more)
    options, text = bytes.fromhex(more.get("options", "")), more.get("text", "").encode()
    peer = PEER[0], int(more.get("port", PEER[1]))
    (source, port), (target, to) = (OWN, peer) if way == "went" else (peer, OWN)
    bits = sum(FLAGS[flag] for flag in flags.split(","))
    offset = (20 + len(options)) // 4 << 4
    data = struct.pack(">HHIIBBHHH", port, to, int(seq), int(acknowledged or 0), offset, bits, int(more.get("window", 65535)), 0, 0) + options + text
    data = with_checksum(source, target, data)
    if more.get("sum") == "wrong":
        data = data[:16] + bytes([data[16] ^ 1]) + data[17:]
    dotted = [".".join(map(str, address)) for address in (source, target)]
    return f"{way} {dotted[0]} {dotted[1]} {hexadecimal(data)}"


def counts(segments, findings=0):
    return f"segments {segments} findings {findings}\n"


# A connection between two ends whose next numbers are then 100 and 300, as it was before some figures begin.
OPENED = ["came 99 SYN", "went 299/100 SYN,ACK", "came 100/300 ACK"]
OPENS = ["went 99 SYN", "came 299/100 SYN,ACK", "went 100/300 ACK"]

# RFC 9293, 3.5 and 3.6, line by line, at each end that speaks: no segment of them breaks a rule.
FIGURES = {
    "Figure 6, basic three-way handshake, A": ["went 100 SYN", "came 300/101 SYN,ACK", "went 101/301 ACK", "went 101/301 ACK text=DATA"],
    "Figure 6, B": ["came 100 SYN", "went 300/101 SYN,ACK", "came 101/301 ACK", "came 101/301 ACK text=DATA"],
    "Figure 7, simultaneous connection synchronization, A": ["went 100 SYN", "came 300 SYN", "went 100/301 SYN,ACK", "came 300/101 SYN,ACK"],
    "Figure 7, B": ["went 300 SYN", "came 100 SYN", "went 300/101 SYN,ACK", "came 100/301 SYN,ACK"],
    "Figure 8, recovery from old duplicate SYN, A": ["went 100 SYN", "came 300/91 SYN,ACK", "went 91 RST", "came 400/101 SYN,ACK", "went 101/401 ACK"],
    "Figure 8, B": ["came 90 SYN", "went 300/91 SYN,ACK", "came 91 RST", "came 100 SYN", "went 400/101 SYN,ACK", "came 101/401 ACK"],
    "Figure 9, half-open connection discovery, A": ["went 400 SYN", "came 300/100 ACK", "went 100 RST", "went 400 SYN"],
    "Figure 9, B": [*OPENED, "came 400 SYN", "went 300/100 ACK", "came 100 RST", "came 400 SYN"],
    "Figure 10, active side causes half-open connection discovery, A": ["came 300/100 ACK text=TEN-OCTETS", "went 100 RST"],
    "Figure 10, B": [*OPENED, "went 300/100 ACK text=TEN-OCTETS", "came 100 RST"],
    "Figure 11, old duplicate SYN initiates a reset on two passive sockets, A": ["came 300/91 SYN,ACK", "went 91 RST"],
    "Figure 11, B": ["came 90 SYN", "went 300/91 SYN,ACK", "came 91 RST"],
    "Figure 12, normal close sequence, A": [*OPENS, "went 100/300 FIN,ACK", "came 300/101 ACK", "came 300/101 FIN,ACK", "went 101/301 ACK"],
    "Figure 12, B": [*OPENED, "came 100/300 FIN,ACK", "went 300/101 ACK", "went 300/101 FIN,ACK", "came 101/301 ACK"],
    "Figure 13, simultaneous close sequence, A": [*OPENS, "went 100/300 FIN,ACK", "came 300/100 FIN,ACK", "went 101/301 ACK", "came 301/101 ACK"],
    "Figure 13, B": [*OPENED, "went 300/100 FIN,ACK", "came 100/300 FIN,ACK", "went 301/101 ACK", "came 101/301 ACK"],
}

# Windows of four bytes and of none, and a SYN that shifts by three.
NARROW = ["came 99 SYN window=4", "went 299/100 SYN,ACK", "came 100/300 ACK window=4"]
SHUT = ["came 99 SYN window=0", "went 299/100 SYN,ACK", "came 100/300 ACK window=0"]
SCALED = ["came 99 SYN options=03030300 window=4", "went 299/100 SYN,ACK"]

SECOND_SYN = ["came 90 SYN", "went 300/91 SYN,ACK", "came 100 SYN", "went 400/101 SYN,ACK"]
TEXT_CAME = [*OPENED, "came 100/300 ACK text=HELLO", "went 300/105 ACK"]
NOT_ALL_CAME = "an acknowledgement of {}, up to which not all came (RFC 9293, 3.4)\n"
GOES_BACK = "an acknowledgement of {}, and one of {} before it (RFC 9293, 3.10.7.4)\n"
BEFORE_FIRST = "text or FIN before the first byte of the stream, at {} (RFC 9293, 3.4)\n"
UNJUDGED = "note: order, acknowledgements and blocks aren't judged, as segments may be missing\n"
ANOTHER_BYTE = "another byte where one went before, in the text at {} (RFC 9293, 3.4)\n"
BEYOND = "text or FIN up to position {}, and the FIN at {} (RFC 9293, 3.4)\n"
AHEAD = "a segment without text behind all that was sent, at {} (RFC 9293, 3.10.7.4)\n"
BEYOND_WINDOW = "text beyond the window, at {} (RFC 9293, 3.8.6)\n"
STRAY = "a reset at {}, which was neither sent nor acknowledged (RFC 9293, 3.5.2)\n"
GAP = "text or FIN behind a gap in what was sent, at {} (RFC 9293, 3.4)\n"
BEFORE_ACK = "text before the SYN is acknowledged, at {} (RFC 9293, 3.10.2)\n"
AFTER_RESET = "text or FIN after the end's own reset, at {} (RFC 9293, 3.10.5)\n"
WRONG_SUM = "no segment: the checksum is wrong (RFC 9293, 3.1)\n"


def with_bad_option(rows, place, options):
    """The rows, one of them with these bytes as its options."""
    way, numbers, flags, *more = rows[place].split(" ")
    return [*rows[:place], " ".join([way, numbers, flags, f"options={options}", *more]), *rows[place + 1 :]]


def with_note(count, first, segments):
    return f"note: wrong checksums: {count}, the first in line {first} (RFC 9293, 3.1)\n{counts(segments)}"


def with_unjudged(words):
    """The report of a log that may lack something: before its last line it says what isn't judged."""
    *lines, last = words.splitlines(keepends=True)
    return "".join([*lines, UNJUDGED, last])


def both(rows, words, status):
    """A row with the same findings whether it is complete or not."""
    return rows, (words, status), (words, status)


# Each row: its lines, and the report with its status of a complete log and of another.
ROWS = {name: both(rows, counts(len(rows)), 0) for name, rows in FIGURES.items()} | {
    # What follows the reset of Figure 11: the end listens, and takes another SYN, whatever its number and its own are.
    "B of Figure 11 goes on listening": both(
        [*FIGURES["Figure 11, B"], "came 3000000000 SYN", "went 300/3000000001 SYN,ACK", "came 3000000001/301 ACK text=HI", "went 301/3000000003 ACK"],
        counts(7), 0),
    # A segment in SYN-RECEIVED that isn't a reset doesn't lead to another number (3.10.7.4: a SYN that does is not taken itself).
    "another number without a reset": both(SECOND_SYN, f"line 4: a SYN at 400, and the first at 300 (RFC 9293, 3.4)\n{counts(4, 1)}", 1),
    "what no SYN opened is acknowledged behind a reset": (
        [*OPENED, "came 100 RST", "went 300/500 ACK"], (f"line 5: {NOT_ALL_CAME.format(500)}{counts(5, 1)}", 1), (counts(5), 0)),
    # An option of length 0, and a byte behind the end of the options: the text may be taken (3.1, MUST-7).
    "text behind an illegal option": both(with_bad_option(TEXT_CAME, 3, "08000000"), counts(5), 0),
    "text behind bad padding": both(with_bad_option(TEXT_CAME, 3, "00000001"), counts(5), 0),
    "no more than the text behind an illegal option": (
        [*with_bad_option(TEXT_CAME, 3, "08000000"), "went 300/106 ACK"], (f"line 6: {NOT_ALL_CAME.format(106)}{counts(6, 1)}", 1), (counts(6), 0)),
    # Only the first one is wrong: what follows it continues from what came before it.
    "one acknowledgement too high": (
        [*OPENED, "came 100/300 ACK text=HELLO", "went 300/106 ACK", "went 300/105 ACK"],
        (f"line 5: {NOT_ALL_CAME.format(106)}{counts(6, 1)}", 1), (counts(6), 0)),
    "an acknowledgement goes back": ([*TEXT_CAME, "went 300/100 ACK"], (f"line 6: {GOES_BACK.format(100, 105)}{counts(6, 1)}", 1), (counts(6), 0)),
    # The SYN is at 299, the first byte at 300 (3.4).
    "text at the SYN's number": both([*OPENED, "went 299/100 ACK text=HI"], f"line 4: {BEFORE_FIRST.format(299)}{counts(4, 1)}", 1),
    "text before the SYN's number": both([*OPENED, "went 200/100 ACK text=HI"], f"line 4: {BEFORE_FIRST.format(200)}{counts(4, 1)}", 1),
    "a keep-alive at the SYN's number": both([*OPENED, "went 299/100 ACK text=x"], counts(4), 0),
    # Text waits for the acknowledgement of the SYN (3.10.2). A FIN doesn't, where no text is queued (3.10.4), nor does a SYN's own text (3.4),
    # nor that of TCP Fast Open (RFC 7413, 2).
    "text before the SYN is acknowledged": (
        [*OPENED[:2], "went 300/100 ACK text=HI"], (f"line 3: {BEFORE_ACK.format(300)}{counts(3, 1)}", 1), (counts(3), 0)),
    "text where a number before the SYN's is acknowledged": (
        ["went 99 SYN", "came 299/99 SYN,ACK", "went 100/300 ACK text=HI"], (f"line 3: {BEFORE_ACK.format(100)}{counts(3, 1)}", 1), (counts(3), 0)),
    "a FIN before the SYN is acknowledged": both([*OPENED[:2], "went 300/100 FIN,ACK"], counts(3), 0),
    "text in a SYN": both(["went 99 SYN text=HI", "came 299/102 SYN,ACK", "went 102/300 ACK"], counts(3), 0),
    "text behind Fast Open": both(["came 99 SYN options=22020101", *OPENED[1:2], "went 300/100 ACK text=HI"], counts(3), 0),
    "text behind a SYN with an illegal option": both(["came 99 SYN options=08000000", *OPENED[1:2], "went 300/100 ACK text=HI"], counts(3), 0),
    # A reset at SND.NXT aborts the connection (3.10.5). One elsewhere answers a segment of another, and so may one before the acknowledgement
    # of the SYN (3.5.2).
    "text after the own reset": (
        [*OPENED, "went 300/100 ACK text=HI", "went 302 RST", "went 302/100 ACK text=HO"], (f"line 6: {AFTER_RESET.format(302)}{counts(6, 1)}", 1), (counts(6), 0)),
    "a FIN after the own reset": ([*OPENED, "went 300/100 RST,ACK", "went 300/100 FIN,ACK"], (f"line 5: {AFTER_RESET.format(300)}{counts(5, 1)}", 1), (counts(5), 0)),
    "an acknowledgement after the own reset": both([*OPENED, "went 300 RST", "went 300/100 ACK", "went 300 RST"], counts(6), 0),
    "text after a reset to another port": both(
        [*OPENED, "came 77/300 ACK port=3", "went 300 RST port=3", "went 300/100 ACK text=HI"], counts(6), 0),
    "text after a reset elsewhere": both([*OPENED, "came 100/200 ACK", "went 200 RST", "went 300/100 ACK text=HI"], counts(6), 0),
    "text after a reset before the SYN is acknowledged": both(
        ["went 99 SYN", "came 299/150 ACK", "went 150 RST", "came 299/100 SYN,ACK", "went 100/300 ACK text=HI"], counts(5), 0),
    # SND.NXT is behind all that went without a gap (3.3.1, 3.4). A log that lacks segments may lack what went before.
    "text behind a gap": (
        [*OPENED, "went 300/100 ACK text=HI", "went 303/100 ACK text=HO"], (f"line 5: {GAP.format(303)}{counts(5, 1)}", 1), (counts(5), 0)),
    "a FIN behind a gap": ([*OPENED, "went 301/100 FIN,ACK"], (f"line 4: {GAP.format(301)}{counts(4, 1)}", 1), (counts(4), 0)),
    "a gap is filled": (
        [*OPENED, "went 302/100 ACK text=LO", "went 300/100 ACK text=HE", "went 302/100 ACK text=LO"],
        (f"line 4: {GAP.format(302)}{counts(6, 1)}", 1), (counts(6), 0)),
    "text again leaves no gap": both(
        [*OPENED, "went 300/100 ACK text=HELLO", "went 300/100 ACK text=HE", "went 302/100 ACK text=LLO!"], counts(6), 0),
    # An acknowledgement is at SND.NXT (3.10.7.4), a keep-alive right before it (3.8.4), and one behind an older SND.NXT, too.
    "an acknowledgement behind SND.NXT": ([*OPENED, "went 301/100 ACK"], (f"line 4: {AHEAD.format(301)}{counts(4, 1)}", 1), (counts(4), 0)),
    "an acknowledgement behind SND.NXT and text": (
        [*OPENED, "went 300/100 ACK text=HI", "went 303/100 ACK", "went 302/100 ACK"], (f"line 5: {AHEAD.format(303)}{counts(6, 1)}", 1), (counts(6), 0)),
    "an acknowledgement behind the FIN": (
        [*OPENED, "went 300/100 FIN,ACK", "went 301/100 ACK", "went 302/100 ACK"], (f"line 6: {AHEAD.format(302)}{counts(6, 1)}", 1), (counts(6), 0)),
    "acknowledgements at SND.NXT and before it": both([*OPENED, "went 300/100 ACK text=HI", "went 302/100 ACK", "went 301/100 ACK", "went 300/100 ACK"], counts(7), 0),
    # Where nothing may be missing, what is against what came is told first.
    "an acknowledgement of nothing that came, behind SND.NXT": (
        [*OPENED, "went 301/150 ACK"], (f"line 4: {NOT_ALL_CAME.format(150)}{counts(4, 1)}", 1), (counts(4), 0)),
    # Text ends at SND.UNA + SND.WND (3.8.6), but for a probe where that is 0 (3.8.6.1), and for TCP Fast Open before the SYN is acknowledged (RFC
    # 7413, 4.2). The window of a SYN isn't scaled (RFC 7323, 2.2), and a shift above 14 is 14 (RFC 7323, 2.3). A FIN may go where the window
    # has no room (3.10.4).
    "text up to the window of a SYN with TCP Fast Open": both(
        ["came 99 SYN options=2206aaaaaaaa0000 window=4", "went 299/100 SYN,ACK", "went 300/100 ACK text=HELL"], counts(3), 0),
    "text of TCP Fast Open again as a probe": both(
        ["went 99 SYN options=2206aaaaaaaa0000 text=HELLO", "came 299/100 SYN,ACK window=0", "went 100/300 ACK text=HELLO"], counts(3), 0),
    "text beyond the window": (
        [*NARROW, "went 300/100 ACK text=HELLO"], (f"line 4: {BEYOND_WINDOW.format(300)}{counts(4, 1)}", 1), (counts(4), 0)),
    "text up to the window": both([*NARROW, "went 300/100 ACK text=HELL", "came 100/302 ACK window=4", "went 304/100 ACK text=O!"], counts(6), 0),
    "text beyond the window that moved": (
        [*NARROW, "went 300/100 ACK text=HELL", "came 100/302 ACK window=4", "went 304/100 ACK text=O!!"],
        (f"line 6: {BEYOND_WINDOW.format(304)}{counts(6, 1)}", 1), (counts(6), 0)),
    "a FIN behind a full window": both([*NARROW, "went 300/100 FIN,ACK text=HELL", "came 100/305 ACK window=0"], counts(5), 0),
    "a probe of one byte": both([*SHUT, "went 300/100 ACK text=H"], counts(4), 0),
    "a probe of two bytes": both([*SHUT, "went 300/100 ACK text=HE"], counts(4), 0),
    "a window that is scaled": both([*SCALED, "came 100/300 ACK window=1", "went 300/100 ACK text=HELLO!!!"], counts(4), 0),
    "text beyond a window that is scaled": (
        [*SCALED, "came 100/300 ACK window=1", "went 300/100 ACK text=HELLO!!!!"], (f"line 4: {BEYOND_WINDOW.format(300)}{counts(4, 1)}", 1), (counts(4), 0)),
    "the window of a SYN isn't scaled": (
        [*SCALED, "came 100/300 ACK window=0", "went 300/100 ACK text=HELLO"], (f"line 4: {BEYOND_WINDOW.format(300)}{counts(4, 1)}", 1), (counts(4), 0)),
    "a window behind a SYN whose options can't be read": both(
        ["came 99 SYN options=03030714 window=4", "went 299/100 SYN,ACK", "came 100/300 ACK window=1", "went 300/100 ACK text=HELLO-HELLO"], counts(4), 0),
    "a window of a reset is none": (
        [*SHUT[:2], "came 100/300 RST,ACK window=9 port=3", "came 100/300 ACK window=2", "went 300/100 ACK text=HELLO"],
        (f"line 5: {BEYOND_WINDOW.format(300)}{counts(5, 1)}", 1), (counts(5), 0)),
    # A reset has the number of the acknowledgement that it answers, or 0 and an acknowledgement of all (3.5.2); an abort's is at SND.NXT (3.10.5).
    "a reset behind SND.NXT": ([*OPENED, "went 301 RST"], (f"line 4: {STRAY.format(301)}{counts(4, 1)}", 1), (counts(4), 0)),
    "a reset before the SYN's number": ([*OPENED, "went 298 RST"], (f"line 4: {STRAY.format(298)}{counts(4, 1)}", 1), (counts(4), 0)),
    "resets at numbers that were sent": both([*OPENED, "went 300/100 ACK text=HI", "went 302 RST", "went 300/100 RST,ACK", "went 299 RST"], counts(7), 0),
    "resets that answer what came": both(
        ["went 99 SYN", "came 299/150 ACK", "came 299/90 SYN,ACK", "went 150 RST", "went 90 RST", "went 90/300 RST,ACK"], counts(6), 0),
    "a reset at another number than that of the acknowledgement": (
        ["went 99 SYN", "came 299/150 ACK", "went 151 RST"], (f"line 3: {STRAY.format(151)}{counts(3, 1)}", 1), (counts(3), 0)),
    "a reset that answers a SYN": both([*OPENED, "came 4294967295 SYN text=HI", "went 0/2 RST,ACK"], counts(5), 0),
    "resets that don't acknowledge all": (
        [*OPENED, "came 700 SYN text=HI", "went 0/702 RST,ACK", "went 0 RST"], (f"line 5: {STRAY.format(0)}{counts(6, 2)}", 1), (counts(6), 0)),
    "a reset that answers another port": both([*OPENED, "came 700/500 ACK port=3", "went 500 RST port=3"], counts(5), 0),
    "a reset that answers another port goes to the peer": (
        [*OPENED, "came 700/500 ACK port=3", "went 500 RST"], (f"line 5: {STRAY.format(500)}{counts(5, 1)}", 1), (counts(5), 0)),
    "a reset of an end whose SYN never went": both(["came 299/91 SYN,ACK", "went 92 RST"], counts(2), 0),
    "a reset behind SND.NXT once a reset came": both([*OPENED, "came 150 RST", "went 301 RST"], counts(5), 0),
    "an acknowledgement behind SND.NXT once a reset came": both([*OPENED, "came 150 RST", "went 301/100 ACK"], counts(5), 0),
    # What comes with other ports is of another connection (3.10.7). A reset leads an end back to LISTEN, and another peer may come.
    "text from another port is acknowledged": (
        [*OPENED, "came 100/300 ACK text=HELLO port=3", "went 300/105 ACK"], (f"line 5: {NOT_ALL_CAME.format(105)}{counts(5, 1)}", 1), (counts(5), 0)),
    "a SYN from another port": (
        ["went 99 SYN", "came 299/100 SYN,ACK port=3", "went 100/300 ACK text=HI"], (f"line 3: {NOT_ALL_CAME.format(300)}{counts(3, 1)}", 1), (counts(3), 0)),
    "an acknowledgement from another port": (
        ["came 99 SYN", "went 299/100 SYN,ACK", "came 100/300 ACK port=3", "went 300/100 ACK text=HI"],
        (f"line 4: {BEFORE_ACK.format(300)}{counts(4, 1)}", 1), (counts(4), 0)),
    "another byte behind an acknowledgement from another port": both(
        [*OPENED, "went 300/100 ACK text=HI", "came 100/302 ACK port=3", "went 300/100 ACK text=Ho"], f"line 6: {ANOTHER_BYTE.format(300)}{counts(6, 1)}", 1),
    "a gap behind a reset from another port": (
        [*OPENED, "came 100 RST port=3", "went 303/100 ACK text=HO"], (f"line 5: {GAP.format(303)}{counts(5, 1)}", 1), (counts(5), 0)),
    "another peer behind a reset": both(
        [*FIGURES["Figure 11, B"], "came 500 SYN port=3", "went 700/501 SYN,ACK port=3", "came 501/701 ACK text=HI port=3", "went 701/503 ACK port=3"],
        counts(7), 0),
    "text of the first peer behind another": (
        [*FIGURES["Figure 11, B"], "came 500 SYN port=3", "went 700/501 SYN,ACK port=3", "came 501/701 ACK text=HI", "went 701/503 ACK port=3"],
        (f"line 7: {NOT_ALL_CAME.format(503)}{counts(7, 1)}", 1), (counts(7), 0)),
    # Nothing of a reset is taken, neither its text nor its SYN and what that offers (3.5.3, 3.10.7).
    "text of a reset is acknowledged": (
        [*OPENED, "came 100/300 RST,ACK text=HI", "went 300/102 ACK"], (f"line 5: {NOT_ALL_CAME.format(102)}{counts(5, 1)}", 1), (counts(5), 0)),
    "a SYN with RST is acknowledged": (["came 99 SYN,RST", "went 299/100 SYN,ACK"], (f"line 2: {NOT_ALL_CAME.format(100)}{counts(2, 1)}", 1), (counts(2), 0)),
    # What the SYN offered can't be read.
    "a SYN with an illegal option": both(
        ["came 100 SYN options=0303070800000000", "went 300/101 SYN,ACK options=0402010103030701"], counts(2), 0),
    # It came damaged, so that no end may take it (3.1, MUST-3).
    "damaged text is acknowledged": (
        [*OPENED, "came 100/300 ACK text=HELLO sum=wrong", "went 300/105 ACK"], (f"line 5: {NOT_ALL_CAME.format(105)}{counts(5, 1)}", 1), (counts(5), 0)),
    "wrong checksums": (
        [*OPENED, "went 300/100 ACK text=HI sum=wrong", "went 300/100 ACK text=HI", "went 302/100 ACK text=HO sum=wrong"],
        (f"line 4: {WRONG_SUM}{counts(6, 2)}", 1), (with_note(2, 4, 6), 0)),
    "an illegal option that goes out is no damage": both(
        [*OPENED, "went 300/100 ACK options=08000000"], f"line 4: no segment: no option begins at byte 20 (RFC 9293, 3.1)\n{counts(4, 1)}", 1),
    # SEG.SEQ = SND.NXT - 1, with a byte of any value or without (3.8.4).
    "a keep-alive with a byte": both([*OPENED, "went 300/100 ACK text=HI", "went 301/100 ACK text=x", "went 302/100 ACK text=HO"], counts(6), 0),
    "a keep-alive with a byte at SND.UNA - 1": both([*OPENED, "went 300/100 ACK text=HI", "came 100/302 ACK", "went 301/100 ACK text=x"], counts(6), 0),
    "keep-alives with a byte behind the FIN": both(
        [*OPENED, "went 300/100 FIN,ACK text=HI", "went 302/100 ACK text=x", "went 302/100 ACK text=y", "went 300/100 FIN,ACK text=HI"], counts(7), 0),
    "no keep-alive has two bytes": both(
        [*OPENED, "went 300/100 ACK text=HI", "went 300/100 ACK text=Ho"], f"line 5: {ANOTHER_BYTE.format(300)}{counts(5, 1)}", 1),
    "no keep-alive is before SND.NXT - 1": both(
        [*OPENED, "went 300/100 ACK text=HI", "went 300/100 ACK text=x"], f"line 5: {ANOTHER_BYTE.format(300)}{counts(5, 1)}", 1),
    "no keep-alive is at SND.NXT": both(
        [*OPENED, "went 300/100 FIN,ACK text=HI", "went 303/100 ACK text=x"], f"line 5: {BEYOND.format(5, 3)}{counts(5, 1)}", 1),
    # Nothing that the end sent: nothing is judged.
    "only what came": both(["came 99 SYN"], counts(1), 2),
    "nothing": both([], counts(0), 2),
}


def found_and_wanted(report_of):
    """Of each row its name, what is reported of it and what is wanted, complete and not."""
    for name, (rows, complete, other) in ROWS.items():
        lines = [line_of(row) for row in rows]
        yield f"{name}, complete", report_of(lines, True), complete
        yield f"{name}, not complete", report_of(lines, False), (with_unjudged(other[0]), other[1])


def judge_rows(cases, judges):
    """Each row by both judges."""
    for name, found, wanted in found_and_wanted(judges.report):
        cases.holds(name, found == wanted, f"{found} for {wanted}")


def main():
    compared = list(found_and_wanted(Judges(sys.argv[1]).report if len(sys.argv) > 1 else report))
    failed = [(name, found, wanted) for name, found, wanted in compared if found != wanted]
    for name, found, wanted in failed:
        print(f"FAILED: {name}: {found} for {wanted}")
    print(f"{len(compared)} rows, {len(failed)} failed")
    return int(len(failed) > 0)


if __name__ == "__main__":
    raise SystemExit(main())
