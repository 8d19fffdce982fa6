"""Captures with notes of windows, sizes, timestamps, blocks and order, whose reports are worked out by hand from docs/JUDGE.md."""

from making import AT, ONE, OPENED, TWO, capture_of, connection, left_to_device, note, own, packet_of, peer, reported, trips, verdict

WINDOWS, AGAIN, MISSING, DUPLICATES = "9293, 3.8.6", "9293, 3.8.1", "9293, 3.4", "5681, 2"


def times(time, echo):
    """A timestamp and its echo, as a row's word (RFC 7323, 3.2)."""
    return f"options=0101080a{time:08x}{echo:08x}"


def blocks(*edges):
    """Blocks, as a row's word (RFC 2018, 3)."""
    return f"options=0101{5:02x}{2 + 4 * len(edges):02x}" + "".join(f"{edge:08x}" for edge in edges)


TIMED = [f"came 99 SYN {times(5, 0)}", f"went 299/100 SYN,ACK {times(50, 5)}", f"came 100/300 ACK {times(6, 50)}"]
PERMITTED = ["came 99 SYN options=04020101", "went 299/100 SYN,ACK options=04020101", "came 100/300 ACK"]
SCALED = ["came 99 SYN options=03030200", "went 299/100 SYN,ACK options=03030100 window=100", "came 100/300 ACK"]
SIZED = ["came 99 SYN options=02040064", *OPENED[1:]]
HUNDRED, MORE = "A" * 100, "A" * 101
# A gap before each, and acknowledgements with blocks: the newest first.
APART = ["came 102/300 ACK text=AA", f"went 300/100 ACK {blocks(102, 104)}", "came 106/300 ACK text=BB", "came 110/300 ACK text=CC",
         "came 114/300 ACK text=DD", "came 118/300 ACK text=EE"]
GAPS = note("previous segment not seen", 5, 4, MISSING)
LONG = "segments longer than the peer's SYN allows"
OF_DEVICE = [packet_of(row) for row in [*SIZED, f"went 300/100 ACK text={MORE}"]]

CASES = {
    # Packet 4 ends where the SYN's window did. 7 falls by one unit of the shift, and 9 by less.
    "a window that shrinks": reported(
        [*SCALED, "went 300/100 ACK window=50", "came 100/300 ACK text=X", "went 300/101 ACK window=50", "went 300/101 ACK window=49",
         "came 101/300 ACK text=Y", "went 300/102 ACK window=48"],
        [peer(segments=4, text=2), trips(3), own(segments=5), note("windows that shrink", 1, 7, WINDOWS), ONE]),
    "an older acknowledgement, whose window ends before": reported(
        [*OPENED, "came 101/300 ACK text=X", "came 100/300 ACK text=X", "went 300/102 ACK", "came 102/301 ACK", "came 102/300 ACK"],
        [peer(segments=6, text=2), note("previous segment not seen", 1, 4, MISSING), note("out of order", 1, 5, MISSING), ONE,
         own(segments=2), ONE]),
    # Text and options count, and 100 are allowed.
    "segments that are longer than the SYN allows": reported(
        [*SIZED, f"went 300/100 ACK text={HUNDRED}", f"went 400/100 ACK text={MORE}", f"went 501/100 ACK text={HUNDRED} options=01010101"],
        [peer(segments=2, text=0), ONE, own(segments=4, text=301), note(LONG, 2, 5, "9293, 3.7.1"), ONE]),
    "a long segment without a size in the SYN": reported(
        [*OPENED, f"went 300/100 ACK text={'A' * 536}", f"went 836/100 ACK text={'A' * 537}"],
        [peer(segments=2, text=0), ONE, own(segments=3, text=1073), note(LONG, 1, 5, "9293, 3.7.1"), ONE]),
    "a long segment where the SYN allows less than 64": reported(
        ["came 99 SYN options=02040001", *OPENED[1:], f"went 300/100 ACK text={'A' * 64}", f"went 364/100 ACK text={'A' * 65}"],
        [peer(segments=2, text=0), ONE, own(segments=3, text=129), note(LONG, 1, 5, "9293, 3.7.1"), ONE]),
    "a long segment that a device cuts": (
        capture_of([*OF_DEVICE[:3], left_to_device(OF_DEVICE[3])]), AT,
        f"packets 4, connections 1\n{connection(1, 1, 4, [peer(segments=2, text=0), ONE, own(segments=2, text=101), ONE])}{verdict(2, 0, 0, 1)}", 0),
    "timestamps": reported(
        [*TIMED, "went 300/100 ACK text=A", f"went 301/100 ACK text=B {times(49, 6)}", f"went 302/100 ACK text=C {times(51, 7)}",
         f"went 303/100 ACK text=D {times(51, 5)}", f"went 304/100 ACK text=E {times(51, 6)}"],
        [peer(segments=2, text=0), ONE,
         own(segments=6, text=5), note("timestamps left out", 1, 4, "7323, 3.2"), note("timestamps that fall", 1, 5, "7323, 4.1"),
         note("echoes of a timestamp that didn't come", 2, 6, "7323, 4.3"), ONE]),
    "timestamps of one SYN alone": reported(
        [TIMED[0], *OPENED[1:], "went 300/100 ACK text=A", "came 100/301 ACK"],
        [peer(segments=3, text=0), ONE, own(segments=2, text=1), trips(2)]),
    # SND.UNA is 303, and SND.NXT 305: probes are at 302 and 303. Behind what is sent again at 303 it may be at 304.
    "segments without text before SND.NXT": reported(
        [*OPENED, "went 300/100 ACK text=HELLO", "came 100/303 ACK", "went 303/100 ACK", "went 302/100 ACK", "went 304/100 ACK", "went 301/100 ACK",
         "went 303/100 ACK text=L", "went 304/100 ACK"],
        [peer(segments=3, text=0), ONE,
         own(segments=8, text=6), note("retransmissions", 1, 10, AGAIN), note("segments without text before SND.NXT", 2, 8, "9293, 3.10.7.4"), ONE]),
    # The last four texts are behind the first block of packet 11.
    "a first block that isn't the newest": reported(
        [*PERMITTED, *APART, f"went 300/100 ACK {blocks(118, 120, 102, 104)}", f"went 300/100 ACK {blocks(102, 104, 118, 120)}"],
        [peer(segments=7, text=10), GAPS, ONE,
         own(segments=4), note("duplicate acknowledgements", 3, 5, DUPLICATES), note("first blocks that aren't the newest", 1, 11, "2018, 4"), ONE]),
    "a first block in which text came": reported(
        [*PERMITTED, *APART, f"went 300/100 ACK {blocks(118, 120, 102, 104)}", "came 102/300 ACK text=AA",
         f"went 300/100 ACK {blocks(102, 104, 118, 120)}"],
        [peer(segments=8, text=12), GAPS, note("retransmissions", 1, 11, AGAIN), ONE,
         own(segments=4), note("duplicate acknowledgements", 3, 5, DUPLICATES), ONE]),
    "blocks that touch": reported(
        [*PERMITTED, APART[0], f"went 300/100 ACK {blocks(102, 103, 103, 104)}"],
        [peer(segments=3, text=2), note("previous segment not seen", 1, 4, MISSING), ONE,
         own(), note("duplicate acknowledgements", 1, 5, DUPLICATES), note("blocks that touch", 1, 5, "2018, 3"), ONE]),
    # A duplicate's is in the second block (RFC 2883, 4.2).
    "a duplicate's block in another": reported(
        [*PERMITTED, APART[0], f"went 300/100 ACK {blocks(103, 104, 102, 104)}"],
        [peer(segments=3, text=2), note("previous segment not seen", 1, 4, MISSING), ONE,
         own(), note("duplicate acknowledgements", 1, 5, DUPLICATES), ONE]),
    # What packet 5 reports didn't come twice; what packet 7 does did (RFC 2883, 4.1).
    "blocks before the acknowledgement": reported(
        [*PERMITTED, "came 100/300 ACK text=AA", f"went 300/102 ACK {blocks(100, 102)}", "came 100/300 ACK text=AA",
         f"went 300/102 ACK {blocks(100, 102)}"],
        [peer(segments=4, text=4), note("retransmissions", 1, 6, AGAIN), TWO,
         own(segments=3), note("blocks before the acknowledgement", 1, 5, "2018, 4"), ONE]),
    "text before the SYN is acknowledged": reported(
        [*OPENED[:2], "went 300/100 ACK text=A"],
        [peer(segments=1, text=0), ONE, own(text=1), note("text before the SYN is acknowledged", 1, 3, "9293, 3.10.2")]),
    "text after the end's own reset": reported(
        [*OPENED, "went 300 RST", "went 300/100 ACK text=A"],
        [peer(segments=2, text=0), ONE, own(segments=3, text=1), note("text after the end's own reset", 1, 5, "9293, 3.10.5"), ONE]),
    "text beyond the window": reported(
        ["came 99 SYN window=3", OPENED[1], "came 100/300 ACK window=3", "went 300/100 ACK text=HELLO"],
        [peer(segments=2, text=0), ONE, own(text=5), note("text beyond the window", 1, 4, WINDOWS), ONE]),
    "a reset that answers nothing": reported(
        [*OPENED, "went 9999 RST"],
        [peer(segments=2, text=0), ONE, own(), note("resets that answer nothing", 1, 4, "9293, 3.5.2"), ONE]),
}
