"""Captures with notes, and with no note where one is near, whose reports are worked out by hand from the definitions of docs/JUDGE.md."""

import captures_with_options
from making import AT, FORM, ONE, OPENED, TWO, capture_of, note, own, packet_of, peer, reported as case, trips

AGAIN, FAST, LATE, MISSING = "9293, 3.8.1", "5681, 3.2", "9293, 3.4", "9293, 3.4"
DUPLICATES, WINDOWS, ALIVE, SHRINK = "5681, 2", "9293, 3.8.6", "9293, 3.8.4", "windows that shrink"


FOUR = [*OPENED, "went 300/100 ACK text=AA", "went 302/100 ACK text=BB", "went 304/100 ACK text=CC", "went 306/100 ACK text=DD", "came 100/302 ACK"]
DUPLICATE, SECOND = "came 100/302 ACK", "went 302/100 ACK text=BB"
# Of the four the first is timed, from millisecond 3 to 7.
TIMED = trips(2, 1, 2.5, 4)
WITHOUT_SYN = ["came 100/300 ACK", "went 300/100 ACK window=5", "came 100/300 ACK text=HELLO"]

JSON = """\
{"kind":"note","connection":1,"end":"10.0.0.1:1","peer":"10.0.0.2:2","name":"DuplicateAck","count":3,"first":9}
{"kind":"round_trips","connection":1,"end":"10.0.0.1:1","peer":"10.0.0.2:2","count":1,"least":0.001000,"mean":0.001000,"greatest":0.001000}
{"kind":"end","connection":1,"end":"10.0.0.1:1","peer":"10.0.0.2:2","verdict":"clean","findings":0,"all_rules":false,\
"segments":6,"bytes":0,"wrong_checksums":0}
{"kind":"note","connection":1,"end":"10.0.0.2:2","peer":"10.0.0.1:1","name":"Retransmission","count":1,"first":12}
{"kind":"note","connection":1,"end":"10.0.0.2:2","peer":"10.0.0.1:1","name":"FastRetransmission","count":1,"first":12}
{"kind":"round_trips","connection":1,"end":"10.0.0.2:2","peer":"10.0.0.1:1","count":2,"least":0.001000,"mean":0.002500,"greatest":0.004000}
{"kind":"end","connection":1,"end":"10.0.0.2:2","peer":"10.0.0.1:1","verdict":"clean","findings":0,"all_rules":true,\
"segments":6,"bytes":10,"wrong_checksums":0}
{"kind":"capture","packets":12,"connections":1,"is_cut":false,"is_lossy":false,"others":0,"fragments":0,"cut_short":0,"strays":0,"ends":2,\
"all_rules":1,"findings":0}
"""

CASES = {
    # What is sent again isn't timed (RFC 6298, 3).
    "sent again": case(
        [*OPENED, "went 300/100 ACK text=HELLO", "went 300/100 ACK text=HELLO", "came 100/305 ACK"],
        [peer(segments=3, text=0), ONE, own(segments=3, text=10), note("retransmissions", 1, 5, AGAIN), ONE]),
    "sent again in other pieces": case(
        [*OPENED, "went 300/100 ACK text=HE", "went 302/100 ACK text=LLO", "went 301/100 ACK text=ELLO!", "came 100/306 ACK"],
        [peer(segments=3, text=0), ONE, own(segments=4, text=10), note("retransmissions", 1, 6, AGAIN), ONE]),
    "a FIN that is sent again": case(
        [*OPENED, "went 300/100 FIN,ACK", "went 300/100 FIN,ACK"],
        [peer(segments=2, text=0), ONE, own(segments=3), note("retransmissions", 1, 5, AGAIN), ONE]),
    "sent again after three duplicate acknowledgements": case(
        [*FOUR, *[DUPLICATE] * 3, SECOND, "came 100/308 ACK"],
        [peer(segments=7, text=0), note("duplicate acknowledgements", 3, 9, DUPLICATES), ONE,
         own(segments=6, text=10), note("retransmissions", 1, 12, AGAIN), note("fast retransmissions", 1, 12, FAST), TIMED]),
    "sent again after two": case(
        [*FOUR, *[DUPLICATE] * 2, SECOND, "came 100/308 ACK"],
        [peer(segments=6, text=0), note("duplicate acknowledgements", 2, 9, DUPLICATES), ONE,
         own(segments=6, text=10), note("retransmissions", 1, 11, AGAIN), TIMED]),
    "sent again after three, and once more": case(
        [*FOUR, *[DUPLICATE] * 3, SECOND, DUPLICATE, SECOND],
        [peer(segments=7, text=0), note("duplicate acknowledgements", 4, 9, DUPLICATES), ONE,
         own(segments=7, text=12), note("retransmissions", 2, 12, AGAIN), note("fast retransmissions", 1, 12, FAST), TIMED]),
    "three duplicates of another number": case(
        [*FOUR, *[DUPLICATE] * 3, "went 304/100 ACK text=CC"],
        [peer(segments=6, text=0), note("duplicate acknowledgements", 3, 9, DUPLICATES), ONE,
         own(segments=6, text=10), note("retransmissions", 1, 12, AGAIN), TIMED]),
    "notes as JSON": (capture_of([packet_of(row) for row in [*FOUR, *[DUPLICATE] * 3, SECOND]]), [*AT, "--json"], JSON, 0),
    # RFC 5681, 2: nothing is outstanding; text; another window, twice; a FIN.
    "no duplicate acknowledgements": case(
        [*OPENED, "came 100/300 ACK", "went 300/100 ACK text=AA", "came 100/300 ACK text=X", "came 101/300 ACK window=1000", "came 101/300 ACK",
         "came 101/300 FIN,ACK"],
        [peer(segments=7, text=1), note(SHRINK, 1, 7, WINDOWS), ONE, own(segments=2, text=2), ONE]),
    "a gap, and what fills it": case(
        [*OPENED, "came 100/300 ACK text=AA", "came 104/300 ACK text=CC", "came 102/300 ACK text=BB", "went 300/106 ACK", "came 102/300 ACK text=BB"],
        [peer(segments=6, text=8), note("previous segment not seen", 1, 5, MISSING), note("out of order", 1, 6, LATE),
         note("retransmissions", 1, 8, AGAIN), ONE, own(), ONE]),
    "a gap that is filled from its middle": case(
        [*OPENED, "came 100/300 ACK text=AA", "came 108/300 ACK text=EE", "came 104/300 ACK text=CC", "came 102/300 ACK text=BB",
         "came 106/300 ACK text=DD", "came 104/300 ACK text=CC"],
        [peer(segments=8, text=12), note("previous segment not seen", 1, 5, MISSING), note("out of order", 3, 6, LATE),
         note("retransmissions", 1, 9, AGAIN), ONE, own(segments=1), ONE]),
    "two gaps that one segment fills": case(
        [*OPENED, "came 100/300 ACK text=AA", "came 104/300 ACK text=CC", "came 108/300 ACK text=EE", "came 102/300 ACK text=BBCCDD",
         "came 106/300 ACK text=DD"],
        [peer(segments=7, text=14), note("previous segment not seen", 2, 5, MISSING), note("out of order", 1, 7, LATE),
         note("retransmissions", 1, 8, AGAIN), ONE, own(segments=1), ONE]),
    "what was lost before the capture, after three duplicates": case(
        [*OPENED, "came 102/300 ACK text=BB", *["went 300/100 ACK"] * 4, "came 100/300 ACK text=AA"],
        [peer(segments=4, text=4), note("previous segment not seen", 1, 4, MISSING), note("retransmissions", 1, 9, AGAIN),
         note("fast retransmissions", 1, 9, FAST), ONE, own(segments=5), note("duplicate acknowledgements", 4, 5, DUPLICATES), ONE]),
    "an acknowledgement behind what wasn't seen": case(
        [*OPENED, "came 105/300 ACK", "came 105/300 ACK text=X"],
        [peer(segments=4, text=1), note("previous segment not seen", 1, 4, MISSING), ONE, own(segments=1), ONE]),
    # A keep-alive has one byte or none; a byte that isn't acknowledged is sent again.
    "keep-alives": case(
        [*OPENED, "came 100/300 ACK text=AA", "went 300/102 ACK", "came 101/300 ACK", "came 101/300 ACK text=Z", "went 300/102 ACK",
         "came 102/300 ACK text=B", "came 102/300 ACK text=B"],
        [peer(segments=7, text=5), note("retransmissions", 1, 10, AGAIN), note("keep-alives", 2, 6, ALIVE), TWO, own(segments=3), ONE]),
    "a reset is no note": case(
        [*OPENED, "came 5000 RST"], [peer(segments=3, text=0), ONE, own(segments=1), ONE]),
    "zero windows": case(
        [*OPENED, "went 300/100 ACK window=0", "went 300/100 ACK window=0", "went 300/100 ACK window=1", "went 300/100 FIN,ACK window=0"],
        [peer(segments=2, text=0), ONE, own(segments=5), note("zero windows", 2, 4, WINDOWS), note(SHRINK, 2, 4, WINDOWS), ONE]),
    "a full window": case(
        [*OPENED, "went 300/100 ACK window=5", "came 100/300 ACK text=HELL", "came 104/300 ACK text=O"],
        [peer(segments=4), note("window full", 1, 6, WINDOWS), ONE, own(segments=2), note(SHRINK, 1, 4, WINDOWS), ONE]),
    "a full window, behind a shift": case(
        ["came 99 SYN options=03030200", "went 299/100 SYN,ACK options=03030100", "came 100/300 ACK", "went 300/100 ACK window=3",
         "came 100/300 ACK text=HEL", "came 103/300 ACK text=LO!"],
        [peer(segments=4, text=6), note("window full", 1, 6, WINDOWS), ONE, own(segments=2), note(SHRINK, 1, 4, WINDOWS), ONE]),
    "a full window, by a SYN's, which has no shift": case(
        ["came 99 SYN options=03030200", "went 299/100 SYN,ACK options=03030100 window=5", "came 100/300 ACK text=HELLO"],
        [peer(segments=2), note("window full", 1, 3, WINDOWS), ONE, own(segments=1), ONE]),
    "a full window, where one end offers a shift alone": case(
        ["came 99 SYN options=03030200", "went 299/100 SYN,ACK", "came 100/300 ACK window=3", "went 300/100 ACK text=HEL"],
        [peer(segments=2, text=0), ONE, own(segments=2, text=3), note("window full", 1, 4, WINDOWS), ONE]),
    "a full window, where the shift isn't known": case(WITHOUT_SYN, [peer(segments=2), own(FORM, segments=1)], 0),
    # One segment is timed at a time (RFC 6298, 3): the first of two.
    "round trips": case(
        [*OPENED, "went 300/100 ACK text=AA", "went 302/100 ACK text=BB", "came 100/302 ACK", "came 100/304 ACK", "went 304/100 ACK text=CC",
         "came 100/306 ACK"],
        [peer(segments=5, text=0), ONE, own(segments=4, text=6), trips(3, 1, 4 / 3, 2)]),
    "an acknowledgement of a part": case(
        [*OPENED, "went 300/100 ACK text=HELLO", "came 100/302 ACK", "came 100/305 ACK"],
        [peer(segments=4, text=0), ONE, own(segments=2, text=5), trips(2, 1, 1.5, 2)]),
} | captures_with_options.CASES
