"""Rows: what becomes of segments that arrive in a connection (RFC 9293, 3.10.7.4; RFC 5961, 3 to 7; RFC 2018, 4; RFC 5681, 4.2)."""

from broken import Answers, Fault, Hears, Says, Told, copied, drops, has_text, is_alone, is_reset, is_syn, kills, sets
from lab import NotSeen, given, heard, need, timely
from rows import MAY, SHOULD, row
from segments import ACK, BLOCKS, FIN, PERMITS, PSH, RST, SYN, URG, ahead, mss


# An acknowledgement that waits does so for longer, in seconds.
AT_ONCE = 0.03


class Expected(Fault):
    """Knows the number that the stack expects, and its SND.UNA: `how` makes another segment of one that comes and of these."""

    def __init__(self, how, when):
        self.how, self.when = how, when

    def begin(self, lab):
        super().begin(lab)
        self.rcv = self.una = 0

    def went(self, segment):
        if segment.flags & ACK:
            self.rcv = segment.ack
        return [segment]

    def came(self, segment):
        if self.when(segment):
            return [self.how(copied(segment), self.rcv, self.una)]
        self.una = segment.ack if segment.flags & ACK else self.una
        return [segment]


def at_expected(segment, rcv, _):
    """A reset that ends the connection."""
    return sets(seq=rcv)(kills(segment))


def acks_rightly(segment, _, una):
    return sets(ack=una)(segment)


def moved_in(segment, rcv, _):
    return sets(seq=rcv)(segment)


@row("MUST-12", "3.9.1.5", "a reset at the expected number ends the connection, and the user is told", lambda: Told("receive", lambda answer: None))
def reset_told(lab):
    peer = lab.peer()
    peer.open()
    peer.put(RST)
    return f"the user is told {peer.is_gone()}"


@row("SHLD-2", "3.5.3", "a reset may carry text", lambda: Hears(drops, lambda one: bool(one.flags & RST and one.text)), SHOULD)
def reset_with_text(lab):
    peer = lab.peer()
    peer.open()
    peer.put(RST, text=b"why it ends")
    return f"the user is told {peer.is_gone(0.5)}"


@row("", "RFC 5961, 3", "a reset in the window, and not at the expected number, is challenged", lambda: Expected(at_expected, is_reset), SHOULD)
def reset_challenged(lab):
    peer = lab.peer()
    peer.open()
    peer.put(RST, peer.nxt + 10)
    found = peer.answered()
    peer.is_told_nothing("the user is told")
    return peer.said(found)


@row("", "RFC 5961, 3", "a reset outside of the window is passed over in silence", lambda: Expected(at_expected, is_reset))
def reset_outside(lab):
    peer = lab.peer()
    peer.open()
    peer.put(RST, peer.nxt - 5)
    peer.put(RST, peer.nxt + (1 << 30))
    peer.silent("answered by")
    peer.is_told_nothing("the user is told")
    return "on both sides of it: silence"


@row("", "RFC 5961, 4", "a SYN in the window is challenged, and the connection stays",
     lambda: Expected(at_expected, lambda one: is_syn(one) and b"in" in one.text), SHOULD)
def syn_challenged(lab):
    peer = lab.peer()
    peer.open()
    peer.put(SYN, peer.nxt + 5, text=b"in")
    found = peer.answered()
    peer.is_told_nothing("the user is told")
    return peer.said(found)


@row("MAY-12", "RFC 5961, 5.2", "text with an acknowledgement far below SND.UNA is discarded",
     lambda: Expected(acks_rightly, lambda one: b"blind" in one.text), MAY)
def blind_text(lab):
    peer = lab.peer()
    peer.open()
    peer.put(ACK, ack=peer.rcv - (1 << 30), text=b"blind")
    peer.take(0.1)
    peer.is_told_nothing()
    return "discarded"


@row("", "RFC 5961, 7", "challenges have a limit", lambda: Answers(is_syn), SHOULD)
def challenges_limited(lab):
    peer = lab.peer()
    peer.open()
    # Where a SYN ends the connection the next one opens another, and a log has one alone.
    peer.is_judged = False
    for _ in range(40):
        peer.put(SYN, peer.nxt + 5)
    found = peer.all()
    given(found, "of 40 SYNs in a moment none is challenged")
    need(len(found) < 40, "each of 40 SYNs in a moment is challenged")
    return f"40 SYNs in a moment: {len(found)} challenges"


@row("", "3.10.7.4", "a segment that acknowledges what wasn't sent is answered by an acknowledgement, and its text not taken",
     lambda: Expected(acks_rightly, lambda one: b"bad" in one.text))
def ack_of_unsent(lab):
    peer = lab.peer()
    peer.open()
    peer.put(ACK, ack=peer.rcv + 1000, text=b"bad")
    found = peer.answered()
    peer.is_told_nothing()
    return peer.said(found)


@row("", "3.10.7.4", "text outside of the window is answered by an acknowledgement, and not taken",
     lambda: Expected(moved_in, lambda one: b"outside" in one.text))
def text_outside(lab):
    peer = lab.peer()
    peer.open()
    peer.text(b"outside", 10_000_000)
    peer.answered()
    peer.text(b"outside", -7)
    peer.answered()
    peer.is_told_nothing()
    return "an acknowledgement of RCV.NXT for both sides of the window"


@row("SHLD-31 MAY-13", "3.10.7.4", "text that comes out of order is kept, and is answered at once",
     lambda: Hears(drops, lambda one: b"def" in one.text), SHOULD)
def out_of_order(lab):
    peer = lab.peer()
    peer.open()
    peer.text(b"def", 3)
    began, found = lab.now(), peer.answered()
    timely(found.when - began < AT_ONCE, f"a duplicate acknowledgement after {1000 * (found.when - began):.0f} ms")
    peer.text(b"abc")
    peer.went_on(6)
    peer.answered()
    peer.is_told(b"abcdef")
    return "a duplicate acknowledgement; then one of all 6 bytes"


@row("MUST-59", "3.10.7.4", "what was held behind a gap is all taken before an acknowledgement goes out",
     lambda: FirstAlone())
def held_taken_at_once(lab):
    peer = lab.peer()
    peer.open()
    for at in 3000, 1000, 2000:
        peer.text(b"h" * 1000, at)
        peer.all(0.03)
    peer.text(b"a" * 1000)
    peer.went_on(4000)
    found = peer.take()
    given(found is not None, "nothing is acknowledged")
    told = ahead(found.ack, peer.nxt) + 4000
    need(told >= 4000, f"the first acknowledgement is of {told} of 4,000 bytes")
    more = [one for one in peer.all(0.1) if is_alone(one)]
    need(not more, f"{len(more)} acknowledgements more")
    return "three segments are held; the one in front of them is answered by one acknowledgement, of all"


class FirstAlone(Fault):
    """Where an acknowledgement is of several segments, one of the first comes before it."""

    def begin(self, lab):
        super().begin(lab)
        self.ack = None

    def went(self, segment):
        last, self.ack = self.ack, segment.ack
        if not is_alone(segment) or last is None or ahead(segment.ack, last) < 2000:
            return [segment]
        return [sets(ack=last + 1000)(copied(segment)), copied(segment)]


@row("", "3.10.7.4", "text that overlaps is handed over once, in order", lambda: Told("receive", lambda answer: answer and answer + answer[:2]))
def overlaps(lab):
    peer = lab.peer()
    peer.open()
    whole = bytes(range(65, 91))
    for begin, end in (0, 10), (5, 15), (2, 4), (18, 26), (12, 20), (0, 26):
        peer.text(whole[begin:end], begin)
    peer.is_told(whole)
    peer.is_told_nothing("and again")
    return "six overlapping pieces of 26 bytes: 26 bytes are handed over"


@row("", "RFC 5681, 4.2", "what fills a gap is acknowledged at once", lambda: SaysLate(is_alone, 0.2), SHOULD)
def gap_filled(lab):
    peer = lab.peer()
    peer.open()
    peer.text(b"d" * 1000, 1000)
    peer.all(0.03)
    peer.text(b"a" * 1000)
    peer.went_on(2000)
    began = lab.now()
    found = peer.answered()
    timely(found.when - began < AT_ONCE, f"after {1000 * (found.when - began):.0f} ms")
    return f"after {1000 * (found.when - began):.1f} ms"


class SaysLate(Fault):
    """What `of` holds of leaves the stack so many seconds late."""

    def __init__(self, of, seconds):
        self.of, self.seconds, self.kept = of, seconds, []

    def went(self, segment):
        if not self.of(segment):
            return [segment]
        self.kept.append((self.lab.now() + self.seconds, segment))
        return []

    def due(self, now):
        out = [segment for at, segment in self.kept if at <= now]
        self.kept = [(at, segment) for at, segment in self.kept if at > now]
        return out


def told_blocks(peer, segment):
    return [(ahead(left, peer.nxt), ahead(right, peer.nxt)) for left, right in segment.edges()]


@row("", "RFC 2018, 4", "the first block is of the segment that came last, and the others follow", lambda: Says(lambda one: swap_blocks(one)))
def blocks_in_order(lab):
    peer = lab.peer()
    peer.open(options=mss(1460) + PERMITS)
    if not peer.answer.option(4) == b"":
        raise NotSeen("the stack doesn't agree on blocks")
    for at in 10, 30, 50, 20:
        peer.text(b"y" * 5, at)
        found = peer.answered()
        told = told_blocks(peer, found)
        need(told and told[0] == (at, at + 5), f"what came last is {at} to {at + 5}, and the blocks are {told}")
    need(set(told) <= {(20, 25), (50, 55), (30, 35), (10, 15)} and len(told) >= 3, f"the blocks are {told}")
    return f"the blocks are {told}"


def swap_blocks(segment):
    at = segment.options.find(bytes([BLOCKS]))
    if at >= 0 and segment.options[at + 1] >= 18:
        head, body = segment.options[: at + 2], segment.options[at + 2 :]
        segment.options = head + body[8:16] + body[:8] + body[16:]


@row("", "RFC 2018, 4", "no block is sent where the SYN didn't permit it",
     lambda: Says(sets(options=lambda old: old + b"\1\1\5\x0a" + bytes(8)), lambda one: is_alone(one)))
def blocks_permitted(lab):
    peer = lab.peer()
    peer.open()
    peer.text(b"y" * 5, 10)
    found = peer.answered()
    need(found.option(BLOCKS) is None, peer.said(found))
    return peer.said(found)


@row("", "RFC 7323, 2.4 (1)", "all that the told window has room for is taken", lambda: Hears(drops, has_text, after=20))
def window_honoured(lab):
    peer = lab.peer()
    peer.open()
    size = min(peer.answer.window, 60000)
    for at in range(0, size, 1000):
        peer.text(b"h" * min(1000, size - at), at, flags=ACK)
    peer.went_on(size)
    need(peer.until(lambda one: one.ack == peer.nxt, 2), f"of {size} bytes that were told not all are acknowledged")
    peer.is_told(b"h" * size)
    return f"{size} bytes in the window of the SYN,ACK"


@row("MUST-40", "3.8.6.3", "an acknowledgement waits for less than half a second", lambda: SaysLate(is_alone, 0.6))
def delayed_less(lab):
    peer, spans = lab.peer(), []
    peer.open()
    for _ in range(4):
        peer.text(b"q" * 10)
        peer.went_on(10)
        began, found = lab.now(), peer.take(0.8)
        timely(found is not None and found.ack == peer.nxt, f"within 0.8 s {peer.said(found)}")
        spans.append(found.when - began)
    timely(max(spans) < 0.5, f"after {max(spans):.3f} s")
    return f"at most {1000 * max(spans):.0f} ms"


@row("SHLD-18", "3.8.6.3", "an acknowledgement waits for another segment", lambda: Answers(has_text, 10), SHOULD)
def delayed(lab):
    peer, spans = lab.peer(), []
    peer.open()
    # A stack may acknowledge at once while a connection begins.
    warm_up(peer, 40)
    for _ in range(5):
        lab.wait(0.1)
        peer.all(0.01)
        peer.text(b"q" * 10)
        peer.went_on(10)
        began, found = lab.now(), peer.take(0.6)
        given(found is not None, "no acknowledgement in 0.6 s")
        spans.append(found.when - began)
    # Of those that don't wait a loaded machine may have delayed one.
    middle = sorted(spans)[len(spans) // 2]
    timely(middle > 0.005, f"after {1000 * middle:.1f} ms")
    return f"after {1000 * middle:.0f} ms"


def warm_up(peer, count):
    """Sends so many full segments, and the user reads them. Answers how many acknowledgements come."""
    seen = 0
    for at in range(count):
        peer.text(b"q" * 1460, flags=ACK | (PSH if at == count - 1 else 0))
        peer.went_on(1460)
        if at % 2:
            peer.lab.read()
            seen += len(peer.arrived)
            peer.arrived.clear()
            peer.receive()
    return seen + len(peer.all(0.03))


@row("SHLD-19", "3.8.6.3", "at least each second full segment is acknowledged", lambda: Seldom(8), SHOULD)
def each_second(lab):
    peer = lab.peer()
    peer.open()
    warm_up(peer, 20)
    found = warm_up(peer, 20)
    need(found >= 9, f"{found} acknowledgements of 20 full segments")
    return f"{found} acknowledgements of 20 full segments"


class Seldom(Fault):
    """One acknowledgement of so many leaves the stack."""

    def __init__(self, of):
        self.of, self.seen = of, 0

    def went(self, segment):
        self.seen += is_alone(segment)
        return [] if is_alone(segment) and self.seen % self.of else [segment]


@row("MUST-30 MUST-31~ MUST-32 MUST-62~", "3.8.5", "the user is told of urgent data",
     lambda: Hears(sets(flags=lambda old: old & ~URG, urgent=0)))
def urgent_told(lab):
    peer = lab.peer()
    peer.open()
    peer.put(ACK | PSH | URG, text=b"ab!", urgent=3)
    peer.went_on(3)
    peer.all(0.05)
    need(lab.call("urgent", peer.user), "the user isn't told")
    return "told"


@row("", "3.8.5", "text beside which URG is set loses no byte in front of the urgent one", lambda: Hears(drops, lambda one: bool(one.flags & URG)))
def urgent_text_kept(lab):
    peer = lab.peer()
    peer.open()
    peer.put(ACK | PSH | URG, text=b"abc!", urgent=4)
    peer.went_on(4)
    found = peer.got(0.3)
    need(found and found.startswith(b"abc"), f"the user is handed {found!r}")
    return f"the user is handed {found!r}"


@row("", "3.10.7.4", "the FIN is acknowledged, and the user is told the end behind all text", lambda: Hears(sets(flags=lambda old: old & ~FIN)))
def fin_taken(lab):
    peer = lab.peer()
    peer.open()
    peer.put(ACK | PSH | FIN, text=b"last")
    peer.went_on(5)
    peer.answered()
    peer.is_told(b"last")
    found = peer.got()
    need(found == b"", f"behind the text the user is told {heard(found)}")
    return "acknowledged; 4 bytes and then the end"


@row("", "3.10.7.4", "a FIN behind a gap isn't taken before the gap is filled", lambda: Hears(sets(seq=lambda old: old - 3), lambda one: bool(one.flags & FIN)))
def fin_behind_gap(lab):
    peer = lab.peer()
    peer.open()
    peer.put(ACK | FIN, peer.nxt + 3)
    peer.answered()
    peer.is_told_nothing("the user is told")
    return "an acknowledgement of RCV.NXT"
