"""Rows: how connections end, and how long they last in silence (RFC 9293, 3.6, 3.8.3 and 3.8.4). What takes minutes is asked of a stack
whose clock is the tester's."""

from broken import Again, Fault, GivesUp, Hears, Later, Says, Told, copied, drops, has_fin, is_alone, is_reset, is_syn, sets
from lab import Gone, NotSeen, by_timeouts, given, is_text, need, timely
from rows import MAY, SHOULD, row
from segments import ACK, FIN, RST, SYN, ahead


def closed_by_stack(peer, check=given):
    """The stack's user closes; its FIN is taken. Where the stack's calls close both ways alone, that is as good, unless the row asks."""
    try:
        peer.lab.call("close", peer.user)
    except NotSeen:
        if check is need:
            raise
        peer.lab.call("leave", peer.user)
        peer.user = None
    found = peer.until(has_fin)
    check(found is not None, "the user closes, and no FIN comes")
    peer.rcv = found.end()
    return found


@row("", "3.6", "a user who closes is still handed what comes, and the FIN stands behind all text", lambda: Hears(drops, lambda one: b"more" in one.text))
def half_close(lab):
    peer = lab.peer()
    peer.open()
    peer.send(b"last words")
    found = closed_by_stack(peer, need)
    need(ahead(peer.rcv, peer.irs) == 12, f"the FIN is {peer.said(found)}, behind 10 bytes")
    peer.text(b"more")
    peer.went_on(4)
    peer.until(lambda one: one.ack == peer.nxt)
    peer.is_told(b"more")
    return f"{peer.said(found)}; text is taken behind it"


@row("", "3.6", "the FIN is sent again where it isn't acknowledged", lambda: Again(of=has_fin))
def fin_again(lab):
    peer = lab.peer()
    peer.open()
    first = closed_by_stack(peer)
    found = peer.until(has_fin, by_timeouts(1))
    need(found is not None and found.end() == first.end(), f"within {by_timeouts(1):.1f} s {peer.said(found)}")
    return f"again after {1000 * (found.when - first.when):.0f} ms"


@row("", "3.6", "both ends may close at once", lambda: Says(drops, lambda one: not is_syn(one), after=1))
def close_at_once(lab):
    peer = lab.peer()
    peer.open()
    first = closed_by_stack(peer)
    peer.put(ACK | FIN, ack=first.seq)
    peer.went_on(1)
    found = peer.until(lambda one: one.flags & ACK and one.ack == peer.nxt)
    need(found is not None and not found.flags & RST, f"its FIN is answered by {peer.said(found)}")
    peer.put(ACK)
    return peer.said(found)


def into_time_wait(peer):
    """The stack closes first, and then the tester."""
    peer.open()
    closed_by_stack(peer)
    peer.put(ACK)
    peer.put(ACK | FIN)
    peer.went_on(1)
    found = peer.until(lambda one: one.flags & ACK and one.ack == peer.nxt)
    given(found is not None, "the FIN isn't acknowledged")
    if peer.user is not None:
        peer.lab.stack.leave(peer.user)
    return found


@row("", "3.10.7.4", "in TIME-WAIT a FIN that comes again is acknowledged again", lambda: Hears(drops, has_fin, after=1))
def time_wait_answers(lab):
    peer = lab.peer()
    into_time_wait(peer)
    # Linux answers one in half a second.
    lab.wait(0.6)
    peer.put(ACK | FIN, peer.nxt - 1)
    return peer.said(peer.answered())


def still_waits(lab, span):
    """Whether TIME-WAIT answers a FIN after so many seconds of silence."""
    peer = lab.peer()
    into_time_wait(peer)
    lab.skip(span)
    peer.arrived.clear()
    peer.put(ACK | FIN, peer.nxt - 1)
    return f"after {span} s: {peer.said(peer.answered())}"


@row("MUST-13", "3.4.2", "TIME-WAIT lasts for two maximum segment lifetimes, of 30 s at least", lambda: Later(30, hears=True))
def time_wait_lasts(lab):
    return still_waits(lab, 58)


@row("MUST-13", "3.4.2", "a maximum segment lifetime is 2 minutes, so that TIME-WAIT lasts for 4", lambda: Later(100, hears=True), SHOULD)
def time_wait_lasts_long(lab):
    return still_waits(lab, 235)


@row("MAY-2", "3.6.1", "in TIME-WAIT a SYN with a greater number opens the same pair of ports again", lambda: Hears(drops, is_syn, after=1), MAY)
def time_wait_reopens(lab):
    peer = lab.peer()
    into_time_wait(peer)
    again = lab.peer()
    again.own, again.port = peer.own, peer.port
    lab.peers.remove(peer)
    # What answers is still of the first connection's log.
    again.is_judged = False
    again.iss = (peer.nxt + 1_000_000) % (1 << 32)
    again.syn()
    found = again.take(0.3)
    need(found is not None and found.flags & SYN and found.flags & ACK, f"answered by {peer.said(found)}")
    return again.said(found)


@row("SHLD-3", "3.6.1", "a user who leaves with bytes unread has the peer told by a reset", lambda: Says(sets(flags=ACK | FIN), is_reset), SHOULD)
def leaves_unread(lab):
    peer = lab.peer()
    peer.open()
    peer.text(b"unread")
    peer.went_on(6)
    peer.take(0.5)
    lab.call("leave", peer.user)
    found = peer.take()
    need(found is not None and found.flags & RST, f"what goes out is {peer.said(found)}")
    return peer.said(found)


@row("", "3.9.1.5", "an abort sends a reset that the peer takes", lambda: Says(drops, is_reset))
def abort_resets(lab):
    peer = lab.peer()
    peer.open()
    lab.call("abort", peer.user)
    found = peer.take()
    need(found is not None and found.flags & RST and found.seq == peer.rcv, f"what goes out is {peer.said(found)}")
    return peer.said(found)


def kept_alive(lab, idle=1000, interval=1000):
    """A connection whose user asks for keep-alives, once it is open."""
    peer = lab.peer()
    peer.open()
    lab.call("wish", peer.user, keep=(idle, interval))
    return peer


def is_keep_alive(peer, found):
    return found is not None and found.seq == (peer.rcv - 1) % (1 << 32) and found.flags & ACK


@row("MUST-24 MUST-27 MAY-5", "3.8.4", "on demand a silent peer is asked, at the time that was set", lambda: Says(drops, is_alone, after=0))
def keep_alive(lab):
    peer = kept_alive(lab)
    began, found = lab.now(), peer.take(3)
    need(is_keep_alive(peer, found), f"within 3 s {peer.said(found)}")
    # Clocks go on by ticks, of half a second in some stacks.
    timely(0.8 < found.when - began < 2, f"after {found.when - began:.2f} s")
    return f"set to 1 s: after {found.when - began:.2f} s {peer.said(found)}"


@row("SHLD-12", "3.8.4", "a keep-alive has no text", lambda: Says(sets(text=b"\0"), is_alone), SHOULD)
def keep_alive_without_text(lab):
    peer = kept_alive(lab)
    found = peer.take(3)
    given(is_keep_alive(peer, found), f"within 3 s {peer.said(found)}")
    need(not found.text, peer.said(found))
    return peer.said(found)


@row("MUST-26", "3.8.4", "nobody is asked while segments come", lambda: Repeats(0.8))
def keep_alive_idle_only(lab):
    peer = kept_alive(lab)
    for _ in range(4):
        peer.text(b"busy")
        peer.went_on(4)
        for found in peer.all(0.4):
            need(not is_keep_alive(peer, found), f"asked by {peer.said(found)}")
    found = peer.take(3)
    given(is_keep_alive(peer, found), f"in silence {peer.said(found)}")
    return "text each 0.4 s: none in 1.6 s; then silence: one"


class Repeats(Fault):
    """Each so many seconds the stack asks whether the peer is there."""

    def __init__(self, every):
        self.every = every

    def begin(self, lab):
        super().begin(lab)
        self.last, self.at = None, 0.0

    def went(self, segment):
        self.last, self.at = copied(segment), self.at or self.lab.now() + self.every
        return [segment]

    def due(self, now):
        if self.last is None or now < self.at:
            return []
        self.at = now + self.every
        made = sets(flags=ACK, options=b"", text=b"", seq=self.last.end() - 1)(copied(self.last))
        made.raw = made.bytes()
        return [made]


@row("MUST-29", "3.8.4", "a keep-alive that isn't answered is no death of the connection", lambda: Told("receive", lambda answer: Gone("timeout")))
def keep_alive_lost(lab):
    peer = kept_alive(lab)
    for _ in range(2):
        found = peer.take(3)
        given(is_keep_alive(peer, found), f"within 3 s {peer.said(found)}")
    peer.put(ACK)
    need(lab.call("receive", peer.user) is None, "the user is told that the connection failed")
    peer.text(b"here")
    peer.is_told(b"here")
    return "two without an answer: the connection goes on"


@row("MUST-25", "3.8.4", "without being asked for no keep-alive is sent", lambda: Repeats(3600))
def keep_alive_off(lab):
    peer = lab.peer()
    peer.open()
    lab.skip(4 * 3600, lambda: bool(peer.arrived))
    need(not peer.arrived, f"after {lab.now() - lab.began:.0f} s {peer.said(peer.arrived[0]) if peer.arrived else ''}")
    return "four hours of silence"


@row("MUST-28", "3.8.4", "where no time is set the first keep-alive comes after two hours or more", lambda: Repeats(3600))
def keep_alive_default(lab):
    peer = lab.peer()
    peer.open()
    lab.call("wish", peer.user, keep=(0, 0))
    lab.skip(3 * 3600, lambda: bool(peer.arrived))
    span = lab.now() - lab.began
    need(not peer.arrived or span >= 7190, f"after {span:.0f} s {peer.said(peer.arrived[0]) if peer.arrived else ''}")
    need(peer.arrived, "none in three hours")
    return f"after {span:.0f} s"


def until_gone(lab, peer, most):
    """How long the user of a stack whose peer is silent isn't told that it failed."""
    began = lab.now()
    lab.skip(most, lambda: lab.call("receive", peer.user) is not None)
    return lab.now() - began


@row("MUST-20~ SHLD-11", "3.8.3", "text that isn't acknowledged is sent for 100 s at least; then the connection is closed, and the user is told",
     lambda: GivesUp(50), SHOULD)
def gives_up(lab):
    peer = lab.peer()
    peer.open()
    peer.send(b"to nobody")
    span = until_gone(lab, peer, 4000)
    sent = [one for one in peer.arrived if is_text(one)]
    given(sent, "the user's text isn't sent")
    need(100 <= span < 3999, f"after {span:.0f} s")
    need(sent[-1].when - lab.began > 50, "sent for less than 50 s")
    return f"after {span:.0f} s, and {len(sent)} segments"


@row("MUST-22 MUST-23", "3.8.3", "a SYN that isn't answered is sent for three minutes at least, and then the user is told", lambda: GivesUp(100))
def gives_up_syn(lab):
    peer = lab.peer()
    peer.connected()
    span = until_gone(lab, peer, 4000)
    sent = [one for one in peer.arrived if one.flags & SYN]
    need(180 <= span < 3999, f"after {span:.0f} s, and {len(sent) + 1} SYNs")
    return f"after {span:.0f} s, and {len(sent) + 1} SYNs"
