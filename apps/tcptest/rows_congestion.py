"""Rows: how much is sent, and how long what isn't acknowledged waits (RFC 9293, 3.8.1; RFC 5681, 3.1; RFC 6928; RFC 6298)."""

import contextlib

from broken import AcknowledgesItself, Again, Bursts, Repeats, Says, drops, is_syn
from flights import ROUND_TRIP, sender, several, told, total
from lab import NotSeen, by_timeouts, given, is_text, need
from rows import row
from segments import SYN, ahead, mss

# A timeout that has grown to so many seconds may be the greatest one (RFC 6298, 2.5).
GREATEST = 59


@row("MUST-19", "3.8.1", "what isn't acknowledged is sent again, with the same bytes, and the timeout doubles", lambda: Again())
def backs_off(lab):
    peer = sender(lab)
    peer.open()
    found, end = several(peer, 5, 1), lab.now() + by_timeouts(3)
    # The first that comes again may be a probe of silence (RFC 8985, 7), from which the timeout starts anew.
    while len(found) < 5 and (one := peer.take(max(0, end - lab.now()))) is not None:
        need(one.text == b"wwwww" and one.seq == found[0].seq, f"what comes again is {peer.said(one)}")
        found.append(one)
    spans = [b.when - a.when for a, b in zip(found, found[1:])]
    need(len(spans) >= 3, f"{len(spans)} times again in {by_timeouts(3):.0f} s")
    need(all(b > 1.5 * a or b > GREATEST for a, b in zip(spans[1:], spans[2:])), f"after {told(spans)}")
    return f"after {told(spans)}"


@row("MUST-19", "RFC 6298, 2.5", "where the timeout is bounded it is by 60 s or more", lambda: Repeats(20))
def greatest_timeout(lab):
    peer = sender(lab)
    peer.open()
    peer.send(b"to nobody")
    lab.skip(400)
    found = [one.when for one in peer.arrived if is_text(one)]
    given(len(found) > 1, "nothing is sent again")
    longest = max(b - a for a, b in zip(found, found[1:]))
    need(longest >= GREATEST, f"{len(found)} times in 400 s, at most {longest:.0f} s apart")
    return f"{len(found)} times in 400 s, at most {longest:.0f} s apart"


@row("", "3.8.1", "a SYN and a SYN,ACK that aren't answered are sent again", lambda: Says(drops, is_syn, after=2))
def syn_again(lab):
    peer, other = lab.peer(), lab.peer()
    began = lab.now()
    first = peer.connected()
    lab.call("listen", other.port)
    other.syn()
    spans = []
    for one, seq in (peer, first.seq), (other, other.syn_answered().seq):
        # How late isn't asked: there are stacks whose first timeout of a SYN is of 6 s.
        found = one.take(by_timeouts(2))
        need(found is not None and found.flags & SYN and found.seq == seq, f"within {by_timeouts(2):.1f} s {one.said(found)}")
        spans.append(found.when - began)
    return f"SYN after {1000 * spans[0]:.0f} ms, SYN,ACK after {1000 * spans[1]:.0f} ms"


@row("MUST-19~", "RFC 5681, 3.1; RFC 6928", "a connection begins with 10 segments at most", lambda: AcknowledgesItself())
def initial_window(lab):
    peer = sender(lab)
    peer.open(options=mss(1000))
    found = several(peer, 60000, 1)
    distinct = len({one.seq for one in found})
    need(distinct <= 10 and total(found) <= 15000, f"{distinct} segments, {total(found)} bytes")
    return f"{distinct} segments, {total(found)} bytes in flight, of 60,000 that the window has room for"


class Receiver:
    """Takes what the stack's user sends without an end, and acknowledges each segment a round trip later, as a receiver would that reports
    no blocks. `rounds` are the bytes that came in each round trip, `counts` their segments, and `longest` is the longest one."""

    def __init__(self, peer):
        self.peer, self.kept, self.rounds, self.counts, self.longest = peer, [], [], [], 0

    def fits(self, segment):
        return ahead(segment.seq, self.peer.rcv) <= 0 < ahead(segment.end(), self.peer.rcv)

    def turn(self):
        """A round trip."""
        peer = self.peer
        found = [one for one in peer.all(ROUND_TRIP) if is_text(one)]
        self.rounds.append(sum(len(text) for text in {one.seq: one.text for one in found}.values()))
        self.counts.append(len(found))
        for one in found:
            self.longest = max(self.longest, len(one.text))
            self.kept.append(one)
            while (fits := next(filter(self.fits, self.kept), None)) is not None:
                peer.rcv = fits.end()
            self.kept = [kept for kept in self.kept if ahead(kept.end(), peer.rcv) > 0]
            peer.acknowledge()
        peer.send(b"w" * 40000)
        return found


@row("MUST-19", "RFC 5681, 3.1", "in slow start a segment more is sent for each that is acknowledged, and no more",
     lambda: AcknowledgesItself(after=12))
def slow_start(lab):
    peer = sender(lab)
    peer.open(options=mss(1000))
    peer.send(b"w" * 40000)
    receiver = Receiver(peer)
    for _ in range(3):
        receiver.turn()
    sizes = receiver.rounds
    given(sizes[0] > 0 and sizes[1] > sizes[0], f"in round trips {words(sizes)}: the congestion window isn't what limits the stack")
    need(grows_as_acknowledged(receiver), f"in round trips {words(sizes)}")
    return f"in round trips {words(sizes)}"


def grows_as_acknowledged(receiver, threshold=0):
    """By a full segment for each acknowledgement, however little that acknowledges; and by one more, since what lies in which round trip is
    told by silence alone. Behind two segments that come first up to a threshold: a timeout sends one, and two are a probe of silence, which
    has repaired the loss."""
    grown = [a + (count + 1) * receiver.longest for a, count in zip(receiver.rounds, receiver.counts)]
    if receiver.counts[0] == 2:
        grown[0] = max(grown[0], threshold + receiver.longest)
    return all(b <= most for b, most in zip(receiver.rounds[1:], grown))


@row("MUST-19", "RFC 5681, 3.1", "behind a loss the window grows as in slow start to a threshold, and by a segment in a round trip then",
     lambda: AcknowledgesItself(after=12))
def congestion_avoidance(lab):
    peer = sender(lab)
    peer.open(options=mss(1000))
    with contextlib.suppress(NotSeen):  # a machine may be set to another one
        lab.call("wish", peer.user, congestion="reno")
    before = several(peer, 40000, 2)
    # All of it is lost, and nothing behind it.
    is_there = lab.wait(by_timeouts(1), lambda: any(one.seq == before[0].seq for one in peer.arrived))
    given(is_there, f"the first segment isn't sent again within {by_timeouts(1):.1f} s")
    receiver = Receiver(peer)
    # CUBIC's threshold is seven tenths of what was in flight (RFC 9438, 4.6), and Reno's is half of it. Where a probe of silence has found
    # the loss the window is the threshold at once (RFC 8985, 7.4.2).
    while len(receiver.rounds) < 25 and max(receiver.rounds, default=0) < 0.75 * total(before):
        receiver.turn()
    given(max(receiver.rounds) >= 0.75 * total(before), f"in round trips {words(receiver.rounds)} of {total(before)} that were lost")
    start = len(receiver.rounds) - 1
    for _ in range(4):
        receiver.turn()
    sizes = receiver.rounds
    said = f"{total(before)} bytes are lost; in round trips then {words(sizes)}"
    need(grows_as_acknowledged(receiver, 0.7 * total(before)), said)
    # Four, and two more that silence may have told to be of another round trip.
    need(max(sizes[start:]) <= sizes[start] + 6 * receiver.longest, said)
    return said


def words(sizes):
    return ", ".join(map(str, sizes))


@row("MUST-19", "RFC 5681, 3.1", "after the timeout one segment goes out, and the others wait for its acknowledgement", lambda: Bursts())
def one_after_timeout(lab):
    peer = sender(lab)
    peer.open(options=mss(1000))
    before = several(peer, 4000, 2)
    is_there = lab.wait(by_timeouts(1), lambda: any(one.seq == before[0].seq for one in peer.arrived))
    given(is_there, f"the first segment isn't sent again within {by_timeouts(1):.1f} s")
    lab.wait(0.05)
    found = {one.seq for one in peer.arrived if is_text(one)}
    # The last one may have gone out as a probe of silence.
    need(len(found) <= 2, f"{len(found)} segments again at once")
    return f"{len(before)} in flight, {len(found)} of them again at once"
