"""Rows: windows, shrinking, shut and scaled ones among them, of both sides (RFC 9293, 3.8.6 and 3.10.7.4; RFC 7323, 2.4)."""

from broken import Again, Bursts, Fault, GivesUp, Hears, Repeats, Says, copied, drops, has_text, is_alone, is_syn, sets
from flights import flight, sender, several, told, total
from lab import NotSeen, by_timeouts, given, is_text, lasts, need
from rows import MAY, SHOULD, row
from segments import ACK, RST, SPACE, ahead, mss, scale

# What is waited for where nobody acknowledges: a probe of a shut window may come as late as a stack's least persist timeout, of 5 s.
PROBE = 12.0


def shrunk(lab, window):
    """A window of 4,000 is filled, and becomes smaller. Answers the peer and what was in flight."""
    peer = sender(lab)
    peer.open(options=mss(1000), window=4000)
    before = several(peer, 20000, 2)
    given(total(before) <= 4000, f"{total(before)} bytes in a window of 4,000")
    peer.acknowledge(before[0], window=window)
    peer.window = window
    return peer, before


@row("SHLD-15", "3.8.6", "nothing new is sent while the window is smaller than what was sent",
     lambda: Hears(sets(window=8000), lambda one: one.window == 500), SHOULD)
def nothing_beyond(lab):
    peer, before = shrunk(lab, 500)
    found = [one for one in peer.all(0.15) if is_text(one) and ahead(one.seq, lasts(before)) >= 0]
    need(not found, f"new text {peer.said(found[0]) if found else ''}")
    return "a window of 4,000 becomes one of 500: nothing new"


@row("MUST-34", "3.8.6", "a window that shrank does no harm", lambda: Hears(drops, lambda one: one.window == 9000))
def robust_when_shrunk(lab):
    peer, before = shrunk(lab, 500)
    peer.all(0.1)
    peer.rcv = lasts(before)
    peer.window = 9000
    peer.acknowledge()
    found = peer.until(lambda one: is_text(one) and ahead(one.seq, peer.rcv) >= 0, by_timeouts(1))
    need(found is not None, "nothing new is sent once it is open again")
    return f"open again: {peer.said(found)}"


@row("SHLD-16", "3.8.6", "what lies in the smaller window is sent again", lambda: Again(), SHOULD)
def old_within_again(lab):
    peer, before = shrunk(lab, 1000)
    found = peer.until(lambda one: is_text(one) and one.seq == before[1].seq, by_timeouts(1))
    need(found is not None, f"not within {by_timeouts(1):.1f} s")
    return peer.said(found)


@row("MAY-7", "RFC 7323, 2.4 (4)", "what was within the window when it was sent is sent again once, also past the edge of a smaller one",
     lambda: Says(sets(text=lambda old: old[:300]), has_text, after=4), MAY)
def again_past_edge(lab):
    peer, before = shrunk(lab, 300)
    found = peer.until(lambda one: is_text(one) and ahead(one.seq, lasts(before)) < 0, by_timeouts(2))
    given(found is not None, f"nothing is sent again within {by_timeouts(2):.1f} s")
    said = f"in a window of 300: {peer.said(found)}"
    need(found.seq == before[1].seq and ahead(found.end(), peer.rcv) > 300, f"{said}, which begins at {ahead(found.seq, peer.rcv)}")
    return said


@row("SHLD-17", "3.8.6", "a connection doesn't end because what lies past the edge of a smaller window isn't acknowledged",
     lambda: GivesUp(1800), SHOULD)
def past_edge_no_timeout(lab):
    if not lab.stack.has_clock:
        lab.skip(3600)
    peer, _ = shrunk(lab, 0)
    end, count = lab.now() + 3600, 0
    while lab.now() < end:
        if peer.take(end - lab.now()) is not None:
            count += 1
            peer.acknowledge()
    found = lab.call("receive", peer.user)
    need(found is None, f"after an hour the user is told {found!r}")
    return f"an hour, in which {count} segments are answered by a shut window: the connection is there"


@row("", "RFC 7323, 2.4 (5)", "behind a smaller window only the first segment is sent again past its edge", lambda: Bursts(), SHOULD)
def edge_kept(lab):
    peer, _ = shrunk(lab, 300)
    first = past_edge(peer, 300)
    # The peer takes what has room, and its window is shut.
    peer.rcv = (peer.rcv + 300) % SPACE
    peer.window = 0
    peer.acknowledge()
    second = past_edge(peer, 0)
    return f"past an edge at 300: {first or 'nothing'}; at 0: {second or 'nothing'}"


def past_edge(peer, edge):
    """How often text past the edge comes, by where it begins behind what is acknowledged: what isn't the first may not come. Two timeouts
    are waited for, of a second and two at least (RFC 6298, 2.1)."""
    seen, began, count = {}, peer.lab.now(), 0
    while peer.lab.now() < began + (3.2 if count > 1 else by_timeouts(2)):
        for found in [one for one in peer.all(0.1) if is_text(one)]:
            count += ahead(found.seq, peer.rcv) == 0
            if ahead(found.end(), peer.rcv) > edge:
                seen[ahead(found.seq, peer.rcv)] = seen.get(ahead(found.seq, peer.rcv), 0) + 1
    need(not [at for at in seen if at > 0], f"past the edge at {edge}, by where it begins: {seen}")
    given(count or seen, f"nothing is sent again within {by_timeouts(2):.1f} s")
    return seen


def offered(peer, window):
    """Opens with such a window; it is shifted where the stack agrees on that. What puts a window into a segment."""
    peer.open(options=mss(1000) + scale(2), window=window >> 2, syn_window=window)
    shift = 0 if peer.answer.option(3) is None else 2
    peer.window = window >> shift
    return lambda size: size >> shift


@row("", "RFC 7323, 2.4 (3)", "new text lies within the window of the acknowledgement that came last",
     lambda: Hears(sets(window=4000), lambda one: one.window in (500, 2000)))
def new_text_in_window(lab):
    peer = sender(lab)
    field = offered(peer, 8000)
    before = several(peer, 3000, 1)
    peer.window = field(2000)
    peer.acknowledge(before[-1])
    return new_text(peer, 2000)


@row("", "RFC 7323, 2.4 (3)", "the same where it came in an older segment, whose window RFC 9293, 3.10.7.4, doesn't take",
     lambda: Hears(sets(window=4000), lambda one: one.window in (500, 2000)), mended=lambda: HeardInOrder())
def new_text_in_window_late(lab):
    peer = sender(lab)
    field = offered(peer, 8000)
    before = several(peer, 3000, 1)
    # The segment behind comes first, with a window of 8,000, and the one in front of it tells what came meanwhile.
    peer.text(b"b" * 10, 10)
    peer.all(0.05)
    peer.window, peer.rcv = field(2000), lasts(before)
    peer.text(b"a" * 10)
    peer.went_on(20)
    return new_text(peer, 2000)


def new_text(peer, window):
    """What the stack sends of a long text may not lie past this window."""
    found = [one for one in flight(peer, 20000) if ahead(one.seq, peer.rcv) >= 0]
    given(found, "nothing new is sent")
    room = ahead(lasts(found), peer.rcv)
    need(room <= window, f"{room} bytes in a window of {window:,}")
    return f"{room} bytes in a window of {window:,}"


class HeardInOrder(Fault):
    """A segment of text waits for the one in front of it."""

    def begin(self, lab):
        super().begin(lab)
        self.kept = []

    def came(self, segment):
        if segment.text.startswith(b"b"):
            self.kept = [segment]
            return []
        return [segment, *self.kept] if has_text(segment) else [segment]


@row("MUST-35 MUST-36", "3.8.6.1", "a shut window is probed, and what waits is sent once it opens",
     lambda: Says(drops, lambda one: not is_syn(one), after=0))
def shut_window_probed(lab):
    peer = sender(lab)
    peer.open(window=0)
    peer.send(b"w" * 100)
    found = peer.take(PROBE)
    need(found is not None, f"no probe within {PROBE:.0f} s")
    peer.put(ACK, window=0)
    peer.window = 5000
    peer.put(ACK)
    after = peer.until(is_text, by_timeouts(1))
    need(after is not None and len(after.text) >= 99, f"once it is open {peer.said(after)}")
    return f"a probe of {len(found.text)} bytes; once it opens {len(after.text)}"


@row("SHLD-29", "3.8.6.1", "the first probe comes once a timeout has passed",
     lambda: Says(drops, lambda one: not is_syn(one), after=0), SHOULD)
def first_probe(lab):
    peer = sender(lab)
    peer.open(window=0)
    peer.send(b"w" * 100)
    began, found = lab.now(), peer.take(by_timeouts(1))
    need(found is not None, f"no probe within {by_timeouts(1):.1f} s")
    need(found.when - began > 0.1, f"after {1000 * (found.when - began):.0f} ms")
    return f"after {1000 * (found.when - began):.0f} ms"


@row("SHLD-30 MUST-37", "3.8.6.1", "probes come later and later, and while they are answered the connection stays",
     lambda: Repeats(0.15, of=lambda one: not is_syn(one)), SHOULD)
def probes_back_off(lab):
    peer = sender(lab)
    peer.open(window=0)
    peer.send(b"w" * 100)
    found = []
    for turn in range(4 if lab.stack.has_clock else 3):
        one = peer.take(PROBE * 2**turn)
        given(one is not None or turn, f"no probe within {PROBE:.0f} s")
        need(one is not None, f"{turn} probes, and then none within {PROBE * 2**turn:.0f} s")
        found.append(one)
        peer.put(ACK, window=0)
    spans = [b.when - a.when for a, b in zip(found, found[1:])]
    need(spans[-1] > 1.5 * spans[-2] - 0.02, f"after {told(spans)}")
    peer.is_told_nothing("the user is told")
    return f"after {told(spans)}"


class Opens(Fault):
    """A window that is opened by a few bytes is told at once."""

    def begin(self, lab):
        super().begin(lab)
        self.last = None

    def went(self, segment):
        if is_alone(segment):
            self.last = copied(segment)
        return [segment]

    def answers(self, name, words, answer):
        if name == "receive" and answer and self.last is not None and self.last.window == 0:
            self.last = sets(window=50)(copied(self.last))
            self.last.raw = self.last.bytes()
            self.lab.deliver(self.last)
        return answer


def fill(peer):
    """Sends until the stack's window is shut."""
    window = peer.answer.window
    for _ in range(300):
        room = min(500, max(1, window))
        peer.text(b"f" * room)
        found = peer.all(0.06 if window > 500 else 0.02)
        if found:
            window = found[-1].window
            peer.went_on(max(0, ahead(found[-1].ack, peer.nxt)))
        if window == 0:
            return
    raise NotSeen(f"the window doesn't shut: {window}")


@row("MUST-39", "3.8.6.2.2", "a shut window opens by a segment or half of the buffer, and not by a few bytes", lambda: Opens())
def opens_wide(lab):
    peer = sender(lab)
    peer.open(capacity=4608)
    fill(peer)
    found = []
    for _ in range(30):
        peer.receive(50)
        found += [one.window for one in peer.all(0.004)]
    first = next((one for one in found if one), None)
    need(first is None or first >= 536, f"it opens by {first} bytes")
    return f"read by 50 bytes it tells {found[:3] or 'nothing'}"


@row("MUST-66~", "3.10.7.4", "with its window shut an acknowledgement and a reset are taken",
     lambda: Hears(drops, lambda one: bool(one.flags & RST)))
def shut_takes_acks(lab):
    peer = sender(lab)
    peer.open(capacity=2304)
    fill(peer)
    peer.send(b"out")
    found = peer.until(is_text)
    given(found is not None and found.text == b"out", f"what is sent is {peer.said(found)}")
    peer.acknowledge(found)
    again = peer.until(is_text, by_timeouts(1))
    need(again is None, "its acknowledgement isn't taken")
    peer.put(RST)
    return f"both; the user is told {peer.is_gone()}"


def edges(peer, sizes, shift):
    """The right edges that the stack tells while so many bytes each come, which nobody reads."""
    found = [peer.answer.ack + peer.answer.window]
    for size in sizes:
        peer.text(b"q" * size)
        peer.went_on(size)
        found += [(one.ack + (one.window << shift)) % SPACE for one in peer.all(0.005 if size > 999 else 0.05)]
    given(len(found) > 1, f"no acknowledgement of {len(sizes)} segments")
    return found


def stays(peer, found):
    for a, b in zip(found, found[1:]):
        need(ahead(b, a) >= 0, f"from {ahead(a, peer.iss)} to {ahead(b, peer.iss)}")


@row("SHLD-14", "3.8.6", "the right edge of the own window doesn't move back",
     lambda: Says(sets(window=lambda old: old // 3), is_alone, after=2), SHOULD)
def edge_not_back(lab):
    peer = sender(lab)
    peer.open()
    found = edges(peer, [1000] * 20, 0)
    stays(peer, found)
    return f"{len(found) - 1} acknowledgements of 20,000 bytes that nobody reads: it never moves back"


def scaled_by_stack(lab):
    """A connection whose stack shifts its own windows, and by how much."""
    peer = sender(lab)
    peer.open(options=mss(1460) + scale(7))
    shift = (peer.answer.option(3) or b"\0")[0]
    given(shift > 0, "the stack doesn't shift its windows")
    return peer, shift


@row("SHLD-14", "3.8.6", "the same where windows are shifted, so that some edges can't be told",
     lambda: Says(sets(window=lambda old: old // 3), is_alone, after=2), SHOULD)
def edge_not_back_scaled(lab):
    peer, shift = scaled_by_stack(lab)
    found = edges(peer, [1, 2, 5, 3, 7, 1001, 1, 1003, 1005, 6], shift)
    stays(peer, found)
    return f"a shift of {shift}; {len(found) - 1} acknowledgements: it never moves back"


@row("", "RFC 7323, 2.4 (2)", "what lies within the greatest edge that was told is taken, also where the last one was less",
     lambda: Hears(drops, has_text, after=20), SHOULD)
def greatest_edge_taken(lab):
    peer, shift = scaled_by_stack(lab)
    # Sizes that are no multiples of the shift's grains.
    told_edges = edges(peer, [1, 2, 5, 3, 7, 1, 6], shift)
    least, greatest = 0, told_edges[0]
    for one in told_edges:
        greatest = one if ahead(one, greatest) > 0 else greatest
        least = max(least, ahead(greatest, one))
    for _ in range(2000):
        size = min(1000, ahead(greatest, peer.nxt))
        if size <= 0:
            break
        peer.text(b"q" * size)
        peer.went_on(size)
        for one in peer.all(0.002 if size == 1000 else 0.3):
            edge = (one.ack + (one.window << shift)) % SPACE
            least = max(least, ahead(greatest, edge))
            greatest = edge if ahead(edge, greatest) > 0 else greatest
    given(ahead(greatest, peer.nxt) <= 0, "the window grows beyond 2,000,000 bytes")
    peer.put(ACK, peer.nxt - 1)
    found = peer.until(lambda one: one.ack == peer.nxt)
    need(found is not None, f"of {ahead(peer.nxt, peer.iss) - 1} bytes within the greatest edge not all are acknowledged")
    return f"a shift of {shift}, edges that moved back by {least} at most: all {ahead(peer.nxt, peer.iss) - 1} bytes within the greatest"
