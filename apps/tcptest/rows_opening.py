"""Rows: how connections are opened and refused (RFC 9293, 3.4.1, 3.5, 3.9.2.3 and 3.10.7.1 to 3.10.7.3)."""

import random

from broken import Called, Fault, Hears, Says, Told, copied, drops, is_reset, is_syn, kills, sets, without
from calls import dotted
from lab import Gone, NotMet, NotSeen, given, need, timely
from rows import SHOULD, row
from segments import ACK, RST, SCALE, SPACE, STACK, SYN, TESTER, ahead, mss

MANY, ALL_HOSTS, NETWORK_WIDE = bytes([224, 0, 0, 1]), bytes([255, 255, 255, 255]), bytes([10, 9, 0, 255])


def initial_number(peer):
    """The number by which a SYN is answered; the connection is reset then."""
    peer.syn()
    found = peer.syn_answered()
    peer.put(RST)
    return found


@row("MUST-8", "3.4.1", "the initial number of one pair of sockets goes on by a clock, at one rate",
     lambda: Says(sets(seq=lambda _: random.getrandbits(32)), is_syn))
def initial_numbers_clock(lab):
    peer = lab.peer()
    lab.call("listen", peer.port)
    # The same ports serve for several connections, and the judge reads a log of one.
    peer.is_judged = False
    # Some count from the machine's start.
    lab.wait(3 if lab.stack.has_clock else 0)
    found = []
    for span in 0, 0.1, 0.4, 0.8:
        lab.wait(span)
        peer.iss = (peer.iss + 1_000_000) % SPACE
        found.append(initial_number(peer))
        lab.wait(0.01)
    rates = [(b.seq - a.seq) % SPACE / (b.when - a.when) for a, b in zip(found, found[1:])]
    said = f"by {', '.join(f'{rate:,.0f}' for rate in rates)} in a second"
    # One of 4 microseconds goes on by 250,000 in a second.
    need(min(rates) >= 25_000, said)
    timely(max(rates) <= 1.2 * min(rates), said)
    return said


@row("SHLD-1~ MUST-9~", "3.4.1", "initial numbers of other pairs of sockets are far apart, and by no fixed step",
     lambda: Says(sets(seq=lambda _: 1000), is_syn), SHOULD)
def initial_numbers(lab):
    found = []
    lab.wait(3 if lab.stack.has_clock else 0)
    for _ in range(5):
        peer = lab.peer()
        lab.call("listen", peer.port)
        found.append(initial_number(peer).seq)
        lab.wait(0.01)
    steps = [ahead(b, a) for a, b in zip(found, found[1:])]
    # Of 4 steps that a secret function makes all lie within 2^24 by a chance of 2^-28.
    need(len(set(steps)) == len(steps) and max(map(abs, steps)) > 1 << 24, f"{found}")
    return f"{found}"


@row("MUST-10", "3.5", "both ends may open at once", lambda: Says(drops, lambda one: one.flags & (SYN | ACK) == SYN | ACK))
def simultaneous_open(lab):
    peer = lab.peer()
    first = peer.connected()
    peer.syn()
    found = peer.until(lambda one: one.flags & SYN and one.flags & ACK or one.flags & RST)
    need(found is not None and not found.flags & RST and found.seq == first.seq and found.ack == peer.nxt, f"the SYN is answered by {peer.said(found)}")
    peer.put(ACK)
    need(lab.wait(0.5, lambda: lab.call("is_open", peer.user)), "the connection isn't open then")
    return f"{peer.said(found)}; ESTABLISHED"


@row("", "RFC 7323, 2.2", "also in a simultaneous open no scale is sent in a SYN,ACK where the SYN had none",
     lambda: Says(sets(options=lambda old: mss(1460) + bytes([1, 3, 3, 7])), lambda one: one.flags & (SYN | ACK) == SYN | ACK),
     mended=lambda: Says(without(SCALE), lambda one: one.flags & (SYN | ACK) == SYN | ACK))
def scale_at_once(lab):
    peer = lab.peer()
    peer.connected()
    peer.syn(options=mss(1460))
    found = peer.until(lambda one: one.flags & SYN and one.flags & ACK)
    if found is None:
        raise NotSeen("no SYN,ACK answers a SYN")
    need(found.option(3) is None, f"the SYN had no scale, and the SYN,ACK is {peer.said(found)}")
    return peer.said(found)


@row("MUST-11", "3.10.7.4", "a reset in SYN-RECEIVED leads a passive open back to LISTEN, and its user isn't told",
     lambda: ListensOnce())
def back_to_listen(lab):
    peer, other = lab.peer(), lab.peer()
    other.port = peer.port
    lab.call("listen", peer.port)
    peer.syn()
    peer.syn_answered()
    peer.put(RST)
    lab.wait(0.02)
    need(lab.call("accept", peer.port) is None, "the user is given the connection that was reset")
    other.asked(other.join)
    return "another SYN opens a connection then"


class ListensOnce(Fault):
    """The port at which the first SYN comes hears no other one."""

    def begin(self, lab):
        super().begin(lab)
        self.port = None

    def came(self, segment):
        if not is_syn(segment):
            return [segment]
        is_another = segment.dport == self.port
        self.port = self.port or segment.dport
        return [] if is_another else [segment]


@row("MUST-42", "3.9.1.1", "a program listens at many ports at once", lambda: Hears(drops, lambda one: bool(one.dport % 2)))
def many_listeners(lab):
    both, failed = [lab.peer() for _ in range(2)], []
    for peer in both:
        lab.call("listen", peer.port)
    for which, peer in zip(("first", "second"), both):
        try:
            peer.join(check=need)
            peer.text(b"to me")
            peer.is_told(b"to me")
        except NotMet as why:
            failed.append(f"at the {which} {why}")
    given(len(failed) < 2, "; ".join(failed))
    need(not failed, "; ".join(failed))
    return "two, each with a connection"


@row("MUST-41", "3.9.1.1", "a passive open touches no connection that is there", lambda: EndsTheFirst())
def listeners_apart(lab):
    first, second = lab.peer(), lab.peer()
    second.port = first.port
    first.open()
    first.text(b"one")
    first.went_on(3)
    second.asked(second.join)
    second.text(b"two")
    first.text(b"more")
    first.is_told(b"onemore")
    second.is_told(b"two")
    return "two connections at one port, each with its own text"


class EndsTheFirst(Fault):
    """Where a second SYN comes to a port the first connection there is reset."""

    def begin(self, lab):
        super().begin(lab)
        self.last = None

    def came(self, segment):
        if is_syn(segment) and self.last is not None and self.last.sport != segment.sport:
            return [kills(copied(self.last)), segment]
        if segment.flags & ACK:
            self.last = copied(segment)
            self.last.seq = segment.end()
        return [segment]


@row("MUST-43 MUST-45", "3.9.1.1, 3.9.2.3", "all segments of a connection come from the address that it was opened at",
     lambda: Says(sets(source=bytes([10, 9, 0, 7])), lambda one: bool(one.text)))
def one_address(lab):
    peer = lab.peer()
    peer.open()
    peer.send(b"from here")
    found = peer.take(0.3) or next((one for one in lab.strays if one.dport == peer.own), None)
    given(found is not None, "the user's text isn't sent")
    need(found.source == STACK, f"from {dotted(found.source)}")
    return "SYN,ACK and text from 10.9.0.1"


@row("MUST-46", "3.9.2.3", "no connection is opened to a multicast address", lambda: Called("connect", lambda words, wishes: (words, {})))
def no_open_to_many(lab):
    peer = lab.peer()
    user = lab.call("connect", peer.port, peer.own, address=MANY)
    lab.wait(0.2)
    sent = [one for one in [*lab.strays, *peer.arrived] if one.sport == peer.port]
    need(not sent, f"what goes out is {sent[0] if sent else ''}")
    need(user is None or isinstance(lab.call("receive", user), Gone), "the user's call isn't refused")
    return "refused, and no SYN goes out"


@row("MUST-57", "3.9.2.3", "a SYN to a broadcast or multicast address isn't answered", lambda: Hears(sets(target=STACK)))
def no_syn_to_many(lab):
    peer = listened(lab)
    for address in NETWORK_WIDE, MANY, ALL_HOSTS:
        peer.syn(target=address)
    peer.silent("answered by")
    return "to 10.9.0.255, 224.0.0.1 and 255.255.255.255: silence"


def listened(lab):
    """A peer of a port at which a SYN of another one is answered."""
    other, peer = lab.peer(), lab.peer()
    peer.port = other.port
    other.open()
    return peer


def sources_ignored(lab, *addresses):
    """A SYN from each of these addresses, which are nobody's: there may be no answer to any."""
    peer = listened(lab)
    for address in addresses:
        peer.syn(source=address)
        peer.silent(f"from {dotted(address)}: answered by")
        sent = [one for one in lab.strays if one.sport == peer.port]
        need(not sent, f"from {dotted(address)}: answered by {sent[0] if sent else ''}, to {dotted(sent[0].target) if sent else ''}")
    return f"from {', '.join(map(dotted, addresses))}: silence"


@row("MUST-63", "3.9.2.3", "a SYN from a multicast address, or from that of all hosts, isn't answered", lambda: Hears(sets(source=TESTER)))
def no_syn_from_many(lab):
    return sources_ignored(lab, MANY, ALL_HOSTS)


@row("MUST-63", "3.9.2.3", "a SYN from the broadcast address of the stack's own network isn't answered", lambda: Hears(sets(source=TESTER)))
def no_syn_from_network(lab):
    return sources_ignored(lab, NETWORK_WIDE)


@row("", "3.10.7.2", "a SYN to a listener opens a connection, which its user is given", lambda: Hears(drops, is_syn))
def passive_open(lab):
    peer = lab.peer()
    peer.open(check=need)
    peer.text(b"hello")
    peer.went_on(5)
    peer.is_told(b"hello")
    return "SYN, SYN,ACK, ACK; text is handed over"


@row("", "3.10.7.1", "a SYN where nobody listens: a reset at 0 that acknowledges the SYN", lambda: Says(sets(seq=1), is_reset))
def syn_refused(lab):
    peer = lab.peer()
    peer.syn()
    return peer.said(peer.refused(0, peer.nxt))


@row("", "3.10.7.1", "text to no connection: a reset at its acknowledgement", lambda: Says(sets(seq=lambda old: old + 1), is_reset))
def text_refused(lab):
    peer = lab.peer()
    peer.put(ACK, ack=12345, text=b"ab")
    return peer.said(peer.refused(12345))


@row("", "3.10.7.1", "a reset to no connection isn't answered", lambda: Hears(sets(flags=SYN), is_reset))
def reset_not_answered(lab):
    peer = lab.peer()
    peer.put(RST)
    peer.put(RST | ACK, ack=777)
    peer.silent("answered by")
    return "silence"


@row("", "3.10.7.2", "an acknowledgement to a listener: a reset at its number", lambda: Says(drops, is_reset))
def ack_to_listener(lab):
    peer = lab.peer()
    lab.call("listen", peer.port)
    peer.put(ACK, ack=777)
    return peer.said(peer.refused(777))


@row("", "3.10.7.2", "a reset to a listener is passed over, and it listens on", lambda: Hears(sets(flags=ACK), is_reset))
def reset_to_listener(lab):
    peer = lab.peer()
    lab.call("listen", peer.port)
    peer.put(RST)
    peer.silent("answered by")
    peer.asked(peer.join)
    return "silence; a SYN opens a connection then"


@row("", "3.10.7.3", "in SYN-SENT a wrong acknowledgement is answered by a reset, and the right one opens", lambda: Says(drops, is_reset))
def wrong_ack_refused(lab):
    peer = lab.peer()
    first = peer.connected()
    peer.put(SYN | ACK, peer.iss, first.seq + 99, options=mss(1460))
    peer.refused(first.seq + 99)
    peer.put(SYN | ACK, peer.iss, options=mss(1460))
    peer.nxt = peer.iss + 1
    found = peer.until(lambda one: one.flags & ACK and not one.flags & (SYN | RST), 2)
    need(found is not None and found.ack == peer.nxt, f"the right one is answered by {peer.said(found)}")
    return "a reset at SEG.ACK; then it opens"


@row("", "3.10.7.3", "in SYN-SENT a reset with the right acknowledgement refuses, and the user is told",
     lambda: Told("receive", lambda answer: None if isinstance(answer, Gone) else answer))
def user_told_of_refusal(lab):
    peer = lab.peer()
    peer.connected()
    peer.put(RST | ACK, 0)
    return f"the user is told {peer.is_gone()}"


@row("", "3.10.7.3", "in SYN-SENT a reset without the right acknowledgement is passed over", lambda: RightsResets())
def stray_reset_ignored(lab):
    peer = lab.peer()
    first = peer.connected()
    peer.put(RST, peer.iss)
    peer.put(RST | ACK, peer.iss, first.seq + 99)
    peer.all(0.05)
    peer.is_told_nothing("the user is told")
    peer.put(SYN | ACK, peer.iss, options=mss(1460))
    peer.nxt = peer.iss + 1
    peer.until(lambda one: one.flags & ACK and one.ack == peer.nxt)
    need(lab.wait(0.5, lambda: lab.call("is_open", peer.user)), "it doesn't open then")
    return "passed over; it opens"


class RightsResets(Fault):
    """Each reset to the stack acknowledges its SYN."""

    def begin(self, lab):
        super().begin(lab)
        self.iss = 0

    def went(self, segment):
        self.iss = segment.seq if is_syn(segment) else self.iss
        return [segment]

    def came(self, segment):
        return [sets(flags=RST | ACK, ack=self.iss + 1)(copied(segment))] if is_reset(segment) else [segment]


@row("", "3.10.7.3", "the user who connects is given an open connection once the SYN,ACK has come",
     lambda: Hears(sets(ack=lambda old: old + 1), is_syn))
def active_open(lab):
    peer = lab.peer()
    peer.open_by_stack(check=need)
    need(lab.wait(0.5, lambda: lab.call("is_open", peer.user)), "it isn't open")
    peer.text(b"hello")
    peer.went_on(5)
    peer.is_told(b"hello")
    return "SYN, SYN,ACK, ACK; text is handed over"
