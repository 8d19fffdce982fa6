"""Rows: what is sent, when and again (RFC 9293, 3.7.4 and 3.8.6.2.1; RFC 5681, 3.2; RFC 7323, 2.2 and 2.3; RFC 2018, 5)."""

import contextlib

from broken import AcknowledgesItself, Again, Bursts, Fault, Hears, Says, Splits, drops, has_text, is_syn, sets
from flights import flight, scaled, sender, several, total, warm
from lab import NotSeen, by_timeouts, given, is_text, lasts, need, timely
from rows import SHOULD, row
from segments import PERMITS, ahead, blocks, mss, scale


@row("", "RFC 5681, 3.2", "the third duplicate acknowledgement has the first segment sent again", lambda: Again(), SHOULD)
def fast_retransmit(lab):
    peer = sender(lab)
    peer.open(options=mss(1000))
    warm(peer)
    before = several(peer, 6000, 4)
    for _ in range(3):
        peer.acknowledge()
    # A timeout is of 200 ms and more.
    found = peer.take(0.15)
    timely(found is not None and found.seq == before[0].seq and is_text(found), f"within 150 ms {peer.said(found)}")
    return f"after {1000 * (found.when - before[-1].when):.0f} ms {peer.said(found)}"


@row("", "RFC 2018, 5.1", "what a block has is not sent again in front of what is missing", lambda: AllAgain(), SHOULD)
def blocks_heeded(lab):
    peer = sender(lab)
    before, again = blocked(peer)
    if before[0].seq not in {seq for seq, _ in again}:
        first = peer.until(is_text, by_timeouts(1))
        again += [] if first is None else [(first.seq, True)]
    again += [(one.seq, True) for one in peer.all(0.08) if is_text(one)]
    had = sorted(ahead(seq, before[0].seq) for seq, is_had in again if is_had and seq in {one.seq for one in before[1:]})
    given(again, "nothing is sent again")
    need(not had, f"the first begins at 0; of what a block had those that begin at {had} are sent again")
    return f"of {len(before)} segments the first alone"


def blocked(peer):
    """Five segments in flight, of which all but the first are reported, one by one. Answers them, and the numbers of what came meanwhile,
    each with whether a block had it by then."""
    peer.open(options=mss(1000) + PERMITS)
    if peer.answer.option(4) is None:
        raise NotSeen("the stack doesn't agree on blocks")
    warm(peer)
    before, had, again = several(peer, 5000, 4), set(), []
    for one in before[1:]:
        had.add(one.seq)
        peer.acknowledge(options=blocks((before[1].seq, one.end())))
        peer.lab.read()
        again += [(found.seq, found.seq in had) for found in peer.arrived if is_text(found)]
        peer.arrived.clear()
    return before, again


class AllAgain(Bursts):
    """As Bursts; each segment goes out once."""


@row("", "RFC 2018, 8", "what a block had is sent again where the peer has it no more", lambda: Trusts())
def reneging(lab):
    peer = sender(lab)
    before, _ = blocked(peer)
    peer.all(0.05)
    peer.acknowledge(before[0])
    found = peer.until(lambda one: is_text(one) and one.seq == before[1].seq, by_timeouts(2))
    need(found is not None, f"the second segment isn't sent again within {by_timeouts(2):.0f} s")
    return f"{peer.said(found)}, {found.when - before[0].when:.2f} s after the first"


class Trusts(Fault):
    """What a block has had is never sent again."""

    def begin(self, lab):
        super().begin(lab)
        self.had = set()

    def came(self, segment):
        self.had |= set(segment.edges())
        return [segment]

    def went(self, segment):
        return [] if has_text(segment) and any(ahead(segment.seq, left) >= 0 > ahead(segment.seq, right) for left, right in self.had) else [segment]


@row("MUST-17", "3.7.4", "Nagle's rule can be turned off: small pieces go out at once", lambda: Says(drops, has_text, after=1))
def nagle_off(lab):
    peer = sender(lab)
    peer.open(nagle=0)
    peer.send(b"a")
    lab.wait(0.01)
    peer.send(b"b")
    found = peer.all(0.1)
    given(found, "the user's text isn't sent")
    timely({one.text for one in found} >= {b"a", b"b"} or any(one.text == b"ab" for one in found), f"within 0.1 s {len(found)} segments")
    return f"{len(found)} segments for two bytes"


@row("SHLD-7", "3.7.4", "with Nagle's rule a small piece waits while something is unacknowledged", lambda: AcknowledgesItself(), SHOULD)
def nagle_on(lab):
    peer = sender(lab)
    peer.open(nagle=1)
    with contextlib.suppress(NotSeen):  # some don't take it over from who listens
        lab.call("wish", peer.user, nagle=1)
    for letter in b"a", b"b", b"c":
        peer.send(letter)
        lab.wait(0.01)
    found = peer.all(0.1)
    given(found, "the user's text isn't sent")
    need([one.text for one in found] == [b"a"], f"what goes out is {[one.text for one in found]}")
    peer.acknowledge(found[0])
    found = peer.take()
    need(found is not None and found.text == b"bc", f"then {peer.said(found)}")
    return "one of three bytes; once it is acknowledged the other two together"


@row("MUST-38", "3.8.6.2.1", "no small segment is sent where the window has little room", lambda: Splits(300))
def no_silly_segments(lab):
    peer = sender(lab)
    peer.open(options=mss(1000), window=3000)
    before = flight(peer, 20000)
    given(0 < total(before) <= 3000, f"{total(before)} bytes in a window of 3,000")
    peer.acknowledge(before[0], window=3000 - len(before[0].text) + 200)
    found = [one for one in peer.all(0.15) if is_text(one) and ahead(one.seq, lasts(before)) >= 0]
    small = [len(one.text) for one in [*before, *found] if len(one.text) < 900]
    need(not small, f"texts of {small} bytes while more waits")
    return f"with room for 200 bytes {len(found)} segments more"


@row("MUST-1", "3.1", "a window above 32,767 is no negative one", lambda: Hears(sets(window=0), lambda one: one.window > 32767))
def window_unsigned(lab):
    sent = {}
    # One that isn't negative in 16 bits either shows what the stack sends at once.
    for window in 30000, 60000:
        peer = sender(lab)
        peer.open(window=window)
        sent[window] = total(flight(peer, 2000))
        given(window > 32767 or sent[window] > 0, "nothing is sent in a window of 30,000")
    need(sent[60000] >= sent[30000], f"{sent[60000]} bytes at once in a window of 60,000, and {sent[30000]} in one of 30,000")
    return f"{sent[60000]} bytes at once, as in a window of 30,000"


@row("", "RFC 7323, 2.2", "the window of a SYN isn't scaled", lambda: Hears(sets(window=65535), is_syn))
def syn_window_plain(lab):
    peer = sender(lab)
    peer.window = 1000
    peer.open_by_stack(options=mss(536) + scale(7), window=1000)
    found = flight(peer, 20000)
    given(found, "the user's text isn't sent")
    need(total(found) <= 1000, f"{total(found)} bytes where the SYN,ACK told 1,000")
    return f"the SYN,ACK tells 1,000 with a shift of 7: {total(found)} bytes"


@row("", "RFC 7323, 2.3", "the windows of other segments are shifted as the SYN said", lambda: Hears(sets(options=mss(1000) + scale(0)), is_syn))
def window_scaled(lab):
    peer, plain = sender(lab), sender(lab)
    plain.open(options=mss(1000), window=4096)
    several(plain, 20000, 1)
    scaled(peer, 10, 4)
    found = flight(peer, 20000)
    need(1000 < total(found) <= 4096, f"{total(found)} bytes in a window of 4 << 10")
    return f"a window of 4 << 10: {total(found)} bytes"


@row("", "RFC 7323, 2.3", "a shift above 14 is used as 14", lambda: Hears(sets(window=2), lambda one: one.window == 1))
def shift_at_most_14(lab):
    peer = sender(lab)
    scaled(peer, 15, 4)
    # The congestion window is opened first, so that the peer's is the limit.
    peer.window = 4
    warm(peer, 150000)
    # An acknowledgement of something new has the smaller window, since some take no smaller one from another.
    last = flight(peer, 1000)
    given(last, "the user's text isn't sent")
    peer.acknowledge(last[-1], window=1)
    found = flight(peer, 60000)
    given(found, "the user's text isn't sent")
    need(ahead(lasts(found), peer.rcv) <= 1 << 14, f"{ahead(lasts(found), peer.rcv)} bytes in a window of 1 << 14")
    need(ahead(lasts(found), peer.rcv) > 8192, f"{ahead(lasts(found), peer.rcv)} bytes alone in a window of 1 << 14")
    return f"a shift of 15, a window of 1: {ahead(lasts(found), peer.rcv)} bytes"
