"""Rows: what stands around a segment, the IPv4 header and ICMP (RFC 9293, 3.9.2; RFC 1191; RFC 5927)."""

from broken import Fault, Hears, Says, drops, kills, sets
from lab import Gone, by_timeouts, given, is_text, need
from rows import SHOULD, row
from segments import ACK, Segment, icmp_error


def in_flight(lab, size=100, **wishes):
    """A connection with text under way, and that text."""
    peer = lab.peer()
    peer.open()
    if wishes:
        lab.call("wish", peer.user, **wishes)
    peer.send(b"x" * size)
    found = peer.until(is_text)
    given(found is not None, "the user's text isn't sent")
    return peer, found


def reported(lab, kind, code, about, extra=0):
    """An error of ICMP about a segment arrives at the stack, unless something is broken about that."""
    lab.read()
    data = icmp_error(kind, code, about, extra)
    heard = getattr(lab.fault, "heard", None)
    lab.stack.write(data if heard is None else heard(about, data))


class Dies(Fault):
    """An error of ICMP ends the connection."""

    def heard(self, about, _):
        return kills(Segment(about.dport, about.sport, about.ack)).packet()


class Deaf(Fault):
    """No error of ICMP arrives: an empty packet does."""

    def heard(self, about, _):
        return Segment(about.dport, about.sport, about.ack, about.seq, ACK).packet()


def goes_on(lab, peer, found):
    """The connection has to be there, and silent about the error."""
    need(not isinstance(lab.call("receive", peer.user), Gone), "the connection is gone")
    peer.all(0.05)
    peer.acknowledge(found)
    peer.text(b"on")
    peer.went_on(2)
    peer.is_told(b"on")


@row("MUST-56", "3.9.2.2", "an unreachable network, host or route, or a time exceeded, doesn't end a connection", lambda: Dies())
def soft_errors(lab):
    peer, found = in_flight(lab)
    for kind, code in (3, 0), (3, 1), (3, 5), (11, 0), (12, 0):
        reported(lab, kind, code, found)
    goes_on(lab, peer, found)
    return "five of ICMP: the connection goes on"


@row("MUST-55", "3.9.2.2", "a source quench is passed over", lambda: Dies())
def source_quench(lab):
    peer, found = in_flight(lab)
    reported(lab, 4, 0, found)
    goes_on(lab, peer, found)
    return "the connection goes on"


@row("MUST-54 SHLD-26", "3.9.2.2", "an unreachable protocol or port ends a connection", lambda: Deaf(), SHOULD, mended=lambda: Dies())
def hard_errors(lab):
    peer, found = in_flight(lab)
    reported(lab, 3, 2, found)
    return f"unreachable protocol: the user is told {peer.is_gone(0.5)}"


@row("MUST-54 SHLD-26", "3.9.2.2", "an unreachable port ends an opening, and the user is told", lambda: Deaf(), SHOULD)
def hard_errors_syn(lab):
    peer = lab.peer()
    first = peer.connected()
    reported(lab, 3, 3, first)
    return f"the user is told {peer.is_gone(0.5)}"


@row("SHLD-6 MUST-54", "RFC 1191, 4", "segments are made smaller where the path says so", lambda: Deaf(), SHOULD)
def path_mtu(lab):
    peer, found = in_flight(lab, 1460)
    given(len(found.text) > 1000, f"the first segment is {peer.said(found)}")
    reported(lab, 3, 4, found, 1000)
    again = [peer.until(is_text, by_timeouts(1))]
    given(again[0] is not None, f"nothing is sent again within {by_timeouts(1):.1f} s")
    longest = max(len(one.text) for one in again + peer.all(0.05))
    need(longest <= 960, f"then the longest is {longest}")
    return f"{len(found.text)} bytes, then {longest}"


@row("MUST-49", "3.9.2", "the user sets the time to live", lambda: Says(sets(ttl=64)))
def time_to_live(lab):
    _, found = in_flight(lab, ttl=77)
    need(found.ttl == 77, f"set to 77, and it is {found.ttl}")
    return "set to 77, and it is"


@row("MUST-48 SHLD-22", "3.9.2", "the user sets the differentiated services field, and it is passed on unchanged", lambda: Says(sets(service=0)))
def services(lab):
    _, found = in_flight(lab, service=0x28)
    need(found.service & 0xFC == 0x28, f"set to 0x28, and it is {found.service:#x}")
    return "set to 0x28, and it is"


@row("SHLD-21", "3.9.2", "the user changes the differentiated services field of an open connection", lambda: Says(sets(service=0)), SHOULD)
def services_changed(lab):
    peer, first = in_flight(lab)
    peer.acknowledge(first)
    lab.call("wish", peer.user, service=0x48)
    peer.send(b"more")
    found = peer.until(lambda one: is_text(one) and one.seq != first.seq)
    given(found is not None, "the user's text isn't sent")
    need(found.service & 0xFC == 0x48, f"set to 0x48, and it is {found.service:#x}")
    return f"{first.service:#x}, then 0x48"


@row("MUST-50", "3.9.2.1", "options of IP that aren't known are passed over", lambda: Hears(drops, lambda one: bool(one.ip_options)))
def ip_options(lab):
    peer = lab.peer()
    peer.open()
    peer.text(b"abc", ip_options=bytes([1, 1, 0x9E, 4, 0, 0, 1, 0]))
    peer.went_on(3)
    peer.answered()
    peer.is_told(b"abc")
    return "behind two no-operations and an option 30: text is taken"
