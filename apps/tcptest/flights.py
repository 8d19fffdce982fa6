"""What rows about sending share: a stack's user sends, and what comes is gathered, and acknowledged."""

from lab import NotSeen, given, is_text
from segments import ahead, mss, scale

# The tester answers a SYN so late, so that the stack measures a round trip, and doesn't probe silence at once (RFC 8985, 7).
ROUND_TRIP = 0.08


def sender(lab):
    """A peer to which text is sent."""
    peer = lab.peer()
    peer.delay = ROUND_TRIP
    return peer


def flight(peer, size):
    """The stack's user sends so much; what comes without an answer, each segment once."""
    peer.send(b"w" * size)
    found = {}
    for one in peer.all(0.03 if peer.lab.stack.has_clock else 0.06):
        if is_text(one):
            found.setdefault(one.seq, one)
    return list(found.values())


def total(segments):
    return sum(len(one.text) for one in segments)


def warm(peer, size=30000):
    """The stack's user sends so much, and all is acknowledged half a round trip later, so that the congestion window opens."""
    peer.send(b"x" * size)
    while found := [one for one in peer.all(ROUND_TRIP / 2) if is_text(one)]:
        peer.acknowledge(max(found, key=lambda one: ahead(one.end(), peer.rcv)))


def several(peer, size, least):
    """A flight of so many segments at least, on which the row stands."""
    found = flight(peer, size)
    if 0 < len(found) < least:
        # Its congestion window is smaller yet.
        peer.acknowledge(found[-1])
        warm(peer)
        found = flight(peer, size)
    given(len(found) >= least, f"{len(found)} segments in flight, where the row wants {least}")
    return found


def scaled(peer, shift, window):
    """The tester's windows are shifted by so much; those of the SYN aren't. The row asks what becomes of that."""
    peer.open_asked(mss(1000) + scale(shift), window, 4096)
    if peer.answer.option(3) is None:
        raise NotSeen("the stack doesn't agree on scaling")


def told(spans):
    return ", ".join(f"{1000 * span:.0f}" for span in spans) + " ms"
