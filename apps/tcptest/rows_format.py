"""Rows: how segments are formed and read (RFC 9293, 3.1, 3.2 and 3.7.1; RFC 7323, 2; RFC 2018, 2)."""

from broken import GREATER_MSS, Hears, Says, Splits, drops, has_text, is_syn, kills, sets, without
from lab import Gone, NotMet, given, is_text, need
from rows import SHOULD, row
from segments import ACK, CWR, ECE, EOL, MSS, NOP, PERMITS, PERMITTED, PSH, SCALE, SYN, ahead, mss, scale, times

ALL_OPTIONS = mss(1460) + scale(7) + PERMITS + times(1)


def longest(segments, with_options=False):
    return max((len(one.text) + (len(one.options) if with_options else 0) for one in segments), default=0)


def sent_text(peer, size=5000):
    """What the stack's user has sent, as it comes."""
    peer.send(b"x" * size)
    found = [one for one in peer.all() if is_text(one)]
    given(found, "the user's text isn't sent")
    return found


@row("MUST-2", "3.1", "each segment that is sent has the right checksum", lambda: Says(sets(harm=0x1111), has_text))
def checksum_sent(lab):
    peer = lab.peer()
    peer.open()
    found = [peer.answer, *sent_text(peer, 3000)]
    for one in found:
        need(one.sum_is_right(), f"wrong in {peer.said(one)}")
    return f"{len(found)} segments, all sums right"


@row("MUST-3", "3.1", "a segment with a wrong checksum is neither taken nor answered", lambda: Hears(sets(harm=0)))
def checksum_tested(lab):
    peer = lab.peer()
    peer.open()
    taken(peer, given)
    peer.text(b"abc", harm=0x1234)
    peer.silent("the damaged segment is answered")
    peer.is_told_nothing()
    taken(peer, need)
    return "damaged: silence; whole: taken"


def taken(peer, check):
    """Text that is right has to be acknowledged, and handed over."""
    peer.text(b"abc")
    peer.went_on(3)
    peer.answered(check=check)
    peer.is_told(b"abc", check=check)


@row("MUST-4", "3.2", "end of list, no-operation and MSS are read; nothing behind the end of the list is", lambda: Hears(without(MSS), is_syn))
def basic_options(lab):
    peer = lab.peer()
    peer.open_asked(bytes([NOP]) + mss(300) + bytes([EOL, 0, 0]))
    most = longest(sent_text(peer))
    need(most <= 300, f"text of {most} bytes, and the MSS is 300")
    return f"NOP, MSS 300, end of list: longest text {most}; {behind_the_end(lab.peer())}"


def behind_the_end(peer):
    """What stands behind the end of the list may not be read. Zeros have to stand there (MUST-69), so such a SYN may be dropped."""
    try:
        peer.open(mss(300) + bytes([EOL]) + mss(1000) + bytes(3), check=need)
    except NotMet:
        return "with an MSS of 1,000 behind it the SYN is dropped"
    most = longest(sent_text(peer))
    need(most <= 300, f"text of {most} bytes, where behind the end of the list, and an MSS of 300, one of 1,000 stands")
    return f"with an MSS of 1,000 behind it {most}"


@row("MUST-5 MUST-6", "3.2", "options come in any segment, and unknown ones are passed over",
     lambda: Hears(drops, lambda one: b"\xfe\x04" in one.options))
def unknown_options(lab):
    peer = lab.peer()
    peer.open_asked(mss(1460) + b"\xfd\x06abcd")
    peer.text(b"hello", options=b"\xfe\x04xy")
    peer.went_on(5)
    peer.answered()
    peer.is_told(b"hello")
    return "kind 253 in the SYN and 254 beside text: both taken"


@row("MUST-7", "3.2", "an option of an illegal length does no harm",
     lambda: Hears(kills, lambda one: bool(one.options) and one.options[1] < 2 and not one.flags & SYN))
def illegal_lengths(lab):
    peer = lab.peer()
    peer.open()
    for options in b"\x08\0\0\0", b"\xfe\1\1\1", b"\x05\x22\1\1":
        peer.text(b"zz", options=options)
        peer.all(0.03)
    found = peer.receive()
    need(not isinstance(found, Gone), f"the user is told {found!r}")
    taken = bool(found)
    peer.text(b"zzmore")
    peer.went_on(6)
    need(peer.until(lambda one: one.ack == peer.nxt), "text behind them isn't acknowledged")
    return f"lengths 0, 1 and 34 of 4: the connection stays, and such a segment is {'taken' if taken else 'dropped'}"


@row("MUST-64", "3.2", "options that begin at no word's boundary are read", lambda: Hears(without(MSS), is_syn))
def unaligned_options(lab):
    peer = lab.peer()
    peer.open_asked(bytes([NOP]) + mss(300) + bytes([NOP, NOP, NOP]))
    most = longest(sent_text(peer))
    need(most <= 300, f"text of {most} bytes, and the MSS is 300")
    return f"MSS 300 behind one NOP: longest text {most}"


@row("MUST-68 MUST-69", "3.2", "the options that are sent have right lengths, and zeros behind their end",
     lambda: Says(sets(options=lambda old: old + b"\0\7\7\7"), is_syn))
def options_sent(lab):
    peer = lab.peer()
    peer.open(options=ALL_OPTIONS)
    first = lab.peer()
    found = [peer.answer, *sent_text(peer, 3000), first.open_by_stack(options=ALL_OPTIONS)]
    for one in found:
        need(all(kind >= 0 for kind, _ in one.option_list()), f"malformed: {peer.said(one)}")
        need(not any(one.padding()), f"padding {one.padding().hex()}")
    return f"{len(found)} segments, SYN options {first.story[0][2].options.hex()}"


@row("", "3.1", "reserved bits are sent as zeros, and ignored where they come", lambda: Says(sets(reserved=4), has_text))
def reserved_bits(lab):
    peer = lab.peer()
    peer.open()
    peer.text(b"abc", reserved=6)
    peer.went_on(3)
    found = [peer.answered(), *sent_text(peer, 100)]
    need(not any(one.reserved for one in found), "a reserved bit is set")
    peer.is_told(b"abc")
    return "taken with two reserved bits; none sent"


@row("MUST-14 SHLD-5 MAY-3", "3.7.1", "a SYN and a SYN,ACK tell the maximum segment size", lambda: Says(without(MSS), is_syn))
def mss_sent(lab):
    peer, other = lab.peer(), lab.peer()
    peer.open()
    first = other.open_by_stack()
    told = [int.from_bytes(one.option(MSS) or b"", "big") for one in (first, peer.answer)]
    need(all(told), f"SYN {told[0] or 'none'}, SYN,ACK {told[1] or 'none'}")
    return f"SYN {told[0]}, SYN,ACK {told[1]}"


@row("MUST-67", "3.7.1", "the MSS that is told is what a packet of the link has room for, and no more", lambda: Says(sets(options=mss(8960)), is_syn))
def mss_of_link(lab):
    peer = lab.peer()
    peer.open()
    told = int.from_bytes(peer.answer.option(MSS) or b"", "big")
    given(told, "no MSS is told")
    need(told <= 1460, f"{told} where the link's packets have 1500 bytes")
    return f"{told} where the link's packets have 1500 bytes"


@row("MUST-15", "3.7.1", "where no MSS option comes, 536 is assumed", lambda: Hears(GREATER_MSS, is_syn))
def mss_default(lab):
    peer = lab.peer()
    peer.open_asked(b"")
    most = longest(sent_text(peer), True)
    need(most <= 536, f"text and options of {most} bytes")
    return f"longest text {most}"


@row("MUST-16", "3.7.1", "text and options together aren't longer than the peer's MSS", lambda: Hears(GREATER_MSS, is_syn))
def mss_effective(lab):
    peer = lab.peer()
    peer.open(options=mss(400) + times(77))
    found = sent_text(peer)
    most = longest(found, True)
    need(most <= 400, f"{most} bytes, and the MSS is 400")
    return f"MSS 400: longest text {longest(found)}, its options {len(found[0].options)}"


@row("MUST-65", "3.7.1", "MSS is told in SYNs alone", lambda: Says(sets(options=lambda old: mss(1460) + old), has_text))
def mss_in_syns_alone(lab):
    peer = lab.peer()
    peer.open()
    found = sent_text(peer)
    need(not any(one.option(MSS) for one in found), "beside text")
    return f"none in {len(found)} segments of text"


@row("MUST-61", "3.9.1.2", "the last segment of what was sent has PSH", lambda: Says(sets(flags=lambda old: old & ~PSH), has_text))
def push_at_last(lab):
    peer = lab.peer()
    peer.open()
    found = sent_text(peer, 3000)
    while ahead(max(ahead(one.end(), peer.irs) for one in found), 3001) < 0:
        peer.acknowledge(found[-1])
        found.append(peer.until(is_text))
        given(found[-1] is not None, "the rest isn't sent")
    last = max(found, key=lambda one: ahead(one.seq, peer.irs))
    need(last.flags & PSH, f"the last one is {peer.said(last)}")
    return f"PSH in {sum(bool(one.flags & PSH) for one in found)} of {len(found)} segments, and in the last one"


@row("SHLD-27", "3.9.1.2", "of several sends that go out together the last segment alone has PSH",
     lambda: Says(sets(flags=lambda old: old | PSH), has_text), SHOULD)
def push_collapsed(lab):
    peer = lab.peer()
    peer.open(options=mss(500), window=0)
    for _ in range(3):
        peer.send(b"x" * 400)
    peer.until(lambda one: True, 0.3)
    peer.window = 5000
    peer.put(ACK)
    found = {one.seq: one for one in peer.all(0.1) if is_text(one) and len(one.text) > 1}
    given(found, "nothing is sent once the window opens")
    pushed = [bool(one.flags & PSH) for _, one in sorted(found.items(), key=lambda pair: ahead(pair[0], peer.irs))]
    need(sum(pushed) <= 1, f"PSH in {sum(pushed)} of {len(pushed)} segments")
    return f"three sends in {len(pushed)} segments, PSH in {sum(pushed)}"


@row("MUST-60", "3.9.1.2", "what a user sends doesn't wait for a push", lambda: Says(drops, has_text))
def sent_without_push(lab):
    peer = lab.peer()
    peer.open()
    peer.send(b"short")
    began, found = lab.now(), peer.until(is_text, 2)
    need(found is not None and found.text == b"short", f"within 2 s {peer.said(found)}")
    return f"sent after {1000 * (found.when - began):.0f} ms"


@row("SHLD-28", "3.9.1.2", "segments have as much text as may be", lambda: Splits(700), SHOULD)
def full_segments(lab):
    peer = lab.peer()
    peer.open(options=mss(1000))
    found = sent_text(peer, 5000)
    full = max(len(one.text) for one in found)
    need(full > 900 and all(len(one.text) == full for one in found[:-1]), f"texts of {[len(one.text) for one in found]}")
    return f"{len(found)} segments of {full} and less at last"


@row("", "RFC 7323, 2.2", "a SYN,ACK has a window scale only where the SYN had one", lambda: Says(sets(options=lambda old: old + scale(5)), is_syn))
def scale_only_offered(lab):
    peer, other = lab.peer(), lab.peer()
    peer.open()
    need(peer.answer.option(SCALE) is None, f"it has one: {peer.said(peer.answer)}")
    other.open_asked(mss(1460) + scale(3))
    found = other.answer.option(SCALE)
    return f"none; where one was offered {'none' if found is None else f'a shift of {found[0]}'}"


@row("", "RFC 7323, 2.1", "a window scale is sent in SYNs alone", lambda: Says(sets(options=lambda old: old + scale(5)), has_text))
def scale_in_syns_alone(lab):
    peer = lab.peer()
    peer.open(options=ALL_OPTIONS)
    found = sent_text(peer)
    need(not any(one.option(SCALE) for one in found), "beside text")
    return f"none in {len(found)} segments of text"


@row("", "RFC 2018, 2", "SACK-permitted is sent in SYNs alone", lambda: Says(sets(options=lambda old: old + PERMITS), has_text))
def permitted_in_syns_alone(lab):
    peer = lab.peer()
    peer.open(options=ALL_OPTIONS)
    found = sent_text(peer)
    need(not any(one.option(PERMITTED) is not None for one in found), "beside text")
    return f"none in {len(found)} segments of text"


@row("SHLD-8", "3.9.2.1", "explicit congestion notification is agreed on where the peer offers it",
     lambda: Hears(sets(flags=lambda old: old & ~(ECE | CWR)), is_syn), SHOULD)
def ecn_agreed(lab):
    peer = lab.peer()
    lab.call("listen", peer.port)
    peer.put(SYN | ECE | CWR, options=mss(1460))
    peer.nxt += 1
    found = peer.syn_answered()
    need(found.flags & (ECE | CWR) == ECE, f"the SYN,ACK is {peer.said(found)}")
    return peer.said(found)


@row("", "RFC 3168, 6.1.1", "a SYN with ECE and CWR opens a connection",
     lambda: Hears(drops, lambda one: bool(one.flags & SYN and one.flags & ECE)))
def ecn_does_no_harm(lab):
    peer = lab.peer()
    lab.call("listen", peer.port)
    peer.put(SYN | ECE | CWR, options=mss(1460))
    peer.nxt += 1
    peer.asked(peer.syn_answered)
    peer.put(ACK)
    peer.accept(need)
    peer.text(b"abc")
    peer.is_told(b"abc")
    return "opened, and text taken"
