"""What tcpcore.Connection does: it sends what an End sends, its timers expire when RFC 6298 and RFC 9293 say, no order of calls goes wrong, and
wrong calls are refused or raise, without a fault. python3 connections.py"""

import copy
import os
import pickle
import random
import struct
import sys

sys.path.insert(0, os.path.dirname(os.path.dirname(os.path.realpath(__file__))))
import tcpcore  # noqa: E402
from tcpcore import (  # noqa: E402
    Answer, Brought, Config, Congestion, CongestionWindow, Connection, Emission, End, Ending, KeepAlive, Kind, Lent, Phase, Policy, Refused, Rule,
    Rules, Timer, Train, Transmit,
)

A, B = bytes([10, 0, 0, 1]), bytes([10, 0, 0, 2])
CONFIGS = Config(A, 1, 1000, mss=1000), Config(B, 2, 5000, mss=1000)
checks = 0


def check(found, wanted):
    global checks
    checks += 1
    if found != wanted:
        sys.exit(f"connections.py: check {checks}: {found!r:.500}, not {wanted!r:.500}")


def raised(kind, call, *args, **words):
    """The text of the fault of this kind that the call raises."""
    try:
        call(*args, **words)
    except kind as fault:
        return str(fault)
    return "nothing"


def carry(now, source, src, target):
    """Delivers all that is due: the answers."""
    return [target.arrive(now, src, to, segment) for to, segment in source.emit_all(now)]


def pair(now=0.0, rules=Rules()):
    """Two connections that are open."""
    b = Connection.listen(now, CONFIGS[1], rules)
    a = Connection.connect(now, CONFIGS[0], B, 2, rules)
    check(carry(now, a, A, b) + carry(now, b, B, a) + carry(now, a, A, b), [Answer.DONE] * 3)
    check((a.status().phase, b.status().phase), (Phase.ESTABLISHED, Phase.ESTABLISHED))
    return a, b


class Timed:
    """An End with a Connection's calls; none of its timers expires."""

    def __init__(self, config, peer=None):
        self.end = End(config)
        self.end.listen() if peer is None else self.end.connect(*peer)

    def __getattr__(self, name):
        call = getattr(self.end, name)
        return call if name in ("status", "peek", "peer") else lambda now, *args: call(*args)


def as_end():
    """Where no timer expires the segments, the bytes and the states are an End's."""
    told = []
    for kind in (Timed, lambda config, peer=None: Connection(0.0, config, peer)):
        found, ends = [], (kind(CONFIGS[0], (B, 2)), kind(CONFIGS[1]))
        chance = random.Random(5)
        for turn in range(60):
            side, now = turn % 2, turn / 1000
            end, other = ends[side], ends[1 - side]
            if turn > 3 and turn < 50:
                found.append(end.send(now, chance.randbytes(chance.randrange(4000))))
            if turn in (50, 53):
                end.close(now)
            for to, segment in end.emit_all(now):
                found += [to, segment, other.arrive(now, (A, B)[side], to, segment)]
            unread = other.peek()
            if unread is not None and not unread.ends:
                found.append(other.consume(now, chance.randrange(3000)))
            found += [unread, other.receive(now), other.receive(now), end.status(), other.status(), end.peer(), other.peer()]
        told.append(found)
    check(told[0], told[1])
    # The side that closed last is done (RFC 9293, 3.6).
    check((told[1][-4].phase, told[1][-3].phase), (Phase.CLOSED, Phase.TIME_WAIT))


def expiries(connection, count):
    """When so many timers expire, and which, without a peer."""
    found = []
    for _ in range(count):
        now = connection.poll_at()
        if now is None:
            break
        check(connection.timeout(now - 0.000001), None)
        found.append((now, connection.timeout(now)))
        connection.emit_all(now)
    return found


def timeouts():
    # RFC 6298, 5.5: twice the time after each, to 60 s; RFC 9293, 3.8.3: three minutes for a SYN.
    resent = [(float(at), Timer.RETRANSMIT) for at in (1, 3, 7, 15, 31, 63, 123)]
    a = Connection.connect(0.0, CONFIGS[0], B, 2)
    a.emit_all(0.0)
    check(expiries(a, 100), resent + [(180.0, Timer.USER)])
    check((a.status().phase, a.status().ending, a.poll_at()), (Phase.CLOSED, Ending.ABORTED, None))
    # The beginning of time is anywhere; 100 days on a float has still 1 ns.
    a = Connection.connect(8_640_000.25, CONFIGS[0], B, 2, Rules(first=0.5, least=0.25, greatest=2.0, handshake=None))
    a.emit_all(8_640_000.25)
    found = [at - 8_640_000.25 for at, _ in expiries(a, 6)]
    check(found, [0.5, 1.5, 3.5, 5.5, 7.5, 9.5])
    check(Connection.listen(0.0, CONFIGS[1]).poll_at(), None)
    # RFC 6298, 2.2: after a first round trip of no time the timeout is the least.
    a, _ = pair()
    check((a.send(5.0, b"x"), len(a.emit_all(5.0)), a.poll_at()), (1, 1, 6.0))
    check(expiries(a, 100)[-1], (305.0, Timer.USER))
    a, _ = pair(rules=Rules(user=20.0))
    check((a.send(5.0, b"x"), len(a.emit_all(5.0))), (1, 1))
    check(expiries(a, 100)[-1], (25.0, Timer.USER))
    a, b = pair(rules=Rules(fin_wait_2=10.0))
    a.close(1.0)
    check((carry(1.0, a, A, b), carry(1.0, b, B, a), a.poll_at()), ([Answer.DONE], [Answer.DONE], 11.0))
    check((expiries(a, 2), a.status().ending), ([(11.0, Timer.USER)], Ending.ABORTED))


def later_limits():
    """RFC 9293, 3.8.3: a user timeout that is set later counts from when the text was sent; three timeouts, at 6, 8 and 12 s, come first."""
    for limit, wanted in ((20.0, (25.0, Timer.USER)), (0.0, (12.0, Timer.USER)), (None, (20.0, Timer.RETRANSMIT))):
        a, _ = pair()
        check((a.send(5.0, b"x"), len(a.emit_all(5.0))), (1, 1))
        a.set_user_timeout(limit)
        check([kind for _, kind in expiries(a, 3)], [Timer.RETRANSMIT] * 3)
        # What has passed already expires at once.
        now = max(12.0, a.poll_at())
        while limit == 20.0 and now < 25.0:
            check((a.timeout(now), len(a.emit_all(now))), (Timer.RETRANSMIT, 1))
            now = a.poll_at()
        check((now, a.timeout(now)), wanted)
    check(raised(ValueError, a.set_user_timeout, -1.0) != "nothing", True)


def first_again():
    """RFC 5681, 3.2: the first segment goes out again at once, and RFC 6298, 5.3: its timer starts anew."""
    a, b = pair()
    check((a.resend_first(1.0), a.send(5.0, bytes(2500))), (False, 2500))
    sent = a.emit_all(5.0)
    check((len(sent), a.poll_at(), a.resend_first(5.5)), (3, 6.0, True))
    again = a.emit_all(5.5)
    # The same bytes from SND.UNA on (the acknowledgement and the window in its header are the same, too).
    check((again, a.poll_at()), (sent[:1], 6.5))
    check([b.arrive(6.0, A, to, segment) for to, segment in again + sent[1:]], [Answer.DONE] * 3)
    check((carry(6.0, b, B, a), a.resend_first(6.0), b.receive(6.0)), ([Answer.DONE], False, bytes(2500)))


def stretches():
    """RFC 6675, 5: the second of three segments again, and nothing else."""
    a, _ = pair()
    check((a.resend(1.0, 0, 9999), a.send(5.0, bytes(2500))), (False, 2500))
    sent = a.emit_all(5.0)
    first = len(sent[0][1]) - 20
    check((a.resend(5.5, 1 + first, 1 + 2 * first), a.emit_all(5.5)), (True, sent[1:2]))
    check((a.resend(5.5, 2501, 9999), a.emit_all(5.5)), (False, []))
    check(raised(ValueError, a.resend, 5.5, -1, 9) != "nothing", True)


def congestion_windows():
    """RFC 6928, 2: of segments of 1,000 bytes ten go out at first, of 536 before both SYNs have agreed on them (RFC 9293, 3.7.1). RFC 5681, 3.1,
    and RFC 9438, 4.8: after a timeout ssthresh is half of the 4,000 bytes in flight, and 0.7 of them, and the window a segment."""
    for rule, ssthresh in ((Congestion.RENO, 2000), (Congestion.CUBIC, 2800)):
        a, b = Connection.connect(0.0, Config(A, 1, 5000, mss=1000), B, 2), Connection.listen(0.0, CONFIGS[1])
        check(a.congestion(), CongestionWindow(Congestion.NONE, 1 << 40, 1 << 40, 0, False))
        a.set_congestion(rule)
        check(a.congestion(), CongestionWindow(rule, 5360, 1 << 40, 536, False))
        check(carry(0.0, a, A, b) + carry(0.0, b, B, a) + carry(0.0, a, A, b), [Answer.DONE] * 3)
        check(a.congestion(), CongestionWindow(rule, 10000, 1 << 40, 1000, False))
        check((a.send(5.0, bytes(4000)), len(a.emit_all(5.0))), (4000, 4))
        check(raised(Refused, a.set_congestion, Congestion.NONE), str(Refused(54)))
        check((a.timeout(6.0), a.congestion()), (Timer.RETRANSMIT, CongestionWindow(rule, 1000, ssthresh, 1000, False)))
        check(len(a.emit_all(6.0)), 1)
    check(raised(ValueError, a.set_congestion, -1) != "nothing", True)


def policies():
    """RFC 9293, 3.8.6.3 and 3.7.4: an acknowledgement of one segment waits 40 ms, and a second small segment for the first one's
    acknowledgement."""
    a, b = Connection.connect(0.0, CONFIGS[0], B, 2), Connection.listen(0.0, CONFIGS[1])
    check(carry(0.0, a, A, b) + carry(0.0, b, B, a) + carry(0.0, a, A, b), [Answer.DONE] * 3)
    for end in (a, b):
        end.set_policy()
    check((a.send(5.0, b"a"), carry(5.0, a, A, b)), (1, [Answer.DONE]))
    check((a.send(5.0, b"b"), carry(5.0, a, A, b), a.poll_at()), (1, [], 5.5))
    check((carry(5.0, b, B, a), b.poll_at(), carry(5.04, b, B, a)), ([], 5.04, [Answer.DONE]))
    check((carry(5.04, a, A, b), b.poll_at()), ([Answer.DONE], 5.08))
    b.set_policy(Policy(ack_delay=0, override_timeout=None, answer_interval=0, nagle=False))
    check((b.poll_at(), carry(5.04, b, B, a)), (None, [Answer.DONE]))


def recoveries():
    """RFC 8985, 7.2: with a round trip of 100 ms the end of what was sent goes out again behind two of them, and the peer's delay of 200 ms behind
    a single segment; no timer expires."""
    a, b = Connection.connect(0.0, CONFIGS[0], B, 2), Connection.listen(0.0, CONFIGS[1])
    a.set_recovery(0.0)
    check(raised(Refused, a.set_recovery, 0.0), Answer.IN_USE.text)
    check(carry(0.0, a, A, b) + carry(0.1, b, B, a) + carry(0.1, a, A, b), [Answer.DONE] * 3)
    check((a.send(5.0, b"a"), len(a.emit_all(5.0)), a.poll_at()), (1, 1, 5.4))
    check((a.emit_all(5.399), len(a.emit_all(5.4)), a.timeout(5.4)), ([], 1, None))
    check(a.poll_at() > 5.4, True)
    check((b.send(5.4, b"b"), len(b.emit_all(5.4)), raised(Refused, b.set_recovery, 5.4)), (1, 1, Answer.NO_RULE.text))
    # Of three segments behind one that is lost each is answered: it goes out again a round trip and a quarter after it was sent (RFC 8985, 6.2,
    # step 5).
    a, b = Connection.connect(0.0, CONFIGS[0], B, 2), Connection.listen(0.0, CONFIGS[1])
    a.set_recovery(0.0)
    check(carry(0.0, a, A, b) + carry(0.1, b, B, a) + carry(0.1, a, A, b), [Answer.DONE] * 3)
    check(a.send(5.0, bytes(4000)), 4000)
    answers = []
    for to, segment in a.emit_all(5.0)[1:]:
        check(b.arrive(5.05, A, to, segment), Answer.DONE)
        answers += b.emit_all(5.05)
    check([a.arrive(5.1, B, to, answer) for to, answer in answers], [Answer.DONE] * 3)
    check((a.transmit(5.1), a.transmit(5.12), 5.12 < a.poll_at() <= 5.125), (None, None, True))
    told, _ = a.transmit(5.125)
    check((told.position, told.numbers, a.transmit(5.125), a.timeout(5.125)), (1, told.length - 20, None, None))


def keep_alives():
    """RFC 9293, 3.8.4: a silent peer is asked at SND.NXT - 1, and answers; one that doesn't is asked again behind each interval, and given up
    behind the last. By default none is asked, and no time counts as less than a second."""
    a, b = pair()
    check(a.poll_at(), None)
    a.set_keep_alive(5.0, KeepAlive(idle=600.0))
    check((a.poll_at(), a.emit_all(604.9), a.timeout(605.0)), (605.0, [], None))
    told, asked = a.transmit(605.0)
    check((len(asked), asked[4:8], told.position, told.numbers, a.transmit(605.0)), (20, (1000).to_bytes(4, "big"), 0, 0, None))
    check((b.arrive(605.0, A, told.to, asked), carry(605.0, b, B, a)), (Answer.DROPPED, [Answer.DONE]))
    for at in range(1205, 1205 + 9 * 75, 75):
        check((a.poll_at(), a.timeout(at), len(a.emit_all(at))), (at, None, 1))
    check((a.poll_at(), a.timeout(1880.0), a.status().ending, len(a.emit_all(1880.0))), (1880.0, Timer.USER, Ending.ABORTED, 1))
    b.set_keep_alive(700.0, KeepAlive(idle=0, interval=0, most=0))
    check(b.poll_at(), 701.0)
    # In a loop that emits behind a timer alone, too, and waits for `poll_at`: asked twice, and given up.
    now, sent, timer = 700.0, 0, None
    while timer is None:
        sent += len(b.emit_all(now))
        timer, at = b.timeout(now), b.poll_at()
        check(at is None, timer is not None)
        now = now if at is None else max(now, at)
    check((sent, timer, now), (2, Timer.USER, 703.0))
    c, _ = pair()
    c.set_keep_alive(0.0)
    check(c.poll_at(), 7200.0)
    c.set_keep_alive(0.0, None)
    check((c.poll_at(), raised(ValueError, c.set_keep_alive, 0.0, KeepAlive(most=-1)) != "nothing"), (None, True))


def paced():
    """RFC 9002, 7.7: with a round trip of 100 ms and a window of 13 segments of 1,000 bytes 260 bytes a millisecond go out in slow start: ten
    segments in 38 6/13 ms. By default all goes out at once. The first window is ten segments (RFC 6928, 2), and one acknowledgement of each
    window adds another (RFC 5681, 3.1)."""
    a, b = Connection.connect(0.0, CONFIGS[0], B, 2), Connection.listen(0.0, CONFIGS[1])
    a.set_congestion(Congestion.CUBIC)
    check(carry(0.0, a, A, b) + carry(0.1, b, B, a) + carry(0.1, a, A, b), [Answer.DONE] * 3)

    def goes(now, *counts):
        """So many segments at once, and so many behind them where it isn't paced; all of them are acknowledged."""
        check(a.send(now, bytes(1000 * sum(counts))), 1000 * sum(counts))
        for count in counts:
            check(len(carry(now, a, A, b)), count)
            a.set_pacing(False)
        check((len(b.receive(now)), carry(now + 0.1, b, B, a)), (1000 * sum(counts), [Answer.DONE]))

    goes(5.0, 10)
    goes(5.1, 11)
    a.set_pacing()
    goes(5.2, 10, 2)
    a.set_pacing()
    check((a.send(5.3, bytes(13000)), len(a.emit_all(5.3)), a.poll_at()), (13000, 10, 5.338462))
    check((a.emit_all(5.338461), a.timeout(5.338462), len(a.emit_all(5.338462))), ([], None, 3))


def peers():
    """RFC 9293, 3.10.6: known from the opening, or from the SYN that came, on, also behind the end."""
    b = Connection.listen(0.0, CONFIGS[1])
    a = Connection.connect(0.0, CONFIGS[0], B, 2)
    check((a.peer(), b.peer()), ((B, 2), None))
    carry(0.0, a, A, b)
    b.abort(0.0)
    check(b.peer(), (A, 1))
    b.free()
    check(raised(Refused, b.peer) != "nothing", True)


def blind(seq, ack, text=b""):
    """A segment of somebody who knows B's address and port, and A's, without a checksum (RFC 9293, 3.1)."""
    return struct.pack("!HHIIBBHHH", 2, 1, seq % 2**32, ack % 2**32, 5 << 4, 0x10, 1000, 0, 0) + text


def guards():
    """An acknowledgement more than the guard's reach behind SND.UNA comes with nothing that is taken (RFC 5961, 5.2); without a guard it does
    (RFC 9293, 3.10.7.4, fifth)."""
    check(Rules().guard, tcpcore.GUARD)
    for rules, reach in ((Rules(), 1 << 21), (Rules(guard=5_000_000), 5_000_000), (Rules(guard=None), None)):
        a, _ = pair(rules=rules)
        una, behind = 1001, 1 << 21 if reach is None else reach
        check(a.arrive(0.0, B, A, blind(5001, una, b"x")), Answer.BAD_CHECKSUM)
        check(a.arrive_vouched(0.0, B, A, blind(5001, una - behind - 1, b"x")), Answer.DONE if reach is None else Answer.DROPPED)
        check(a.status().unread, 1 if reach is None else 0)
        check(a.arrive_vouched(0.0, B, A, blind(5002 if reach is None else 5001, una - behind, b"y")), Answer.DONE)
    for guard, wanted in ((tcpcore.GUARD, Answer.DROPPED), (None, Answer.DONE)):
        a, b = End(CONFIGS[0]), End(CONFIGS[1])
        b.listen()
        a.connect(B, 2)
        for source, src, target in ((a, A, b), (b, B, a), (a, A, b)):
            for to, segment in source.emit_all():
                check(target.arrive_by(src, to, segment)[0], Answer.DONE)
        check(a.arrive_by(B, A, blind(5001, 1001, b"x"), guard)[0], Answer.BAD_CHECKSUM)
        check(a.arrive_by(B, A, blind(5001, 1000 - (1 << 21), b"x"), guard, is_vouched=True)[0], wanted)


def time_wait():
    """RFC 9293, 3.4.2, and RFC 1337, 3."""
    a, b = pair(rules=Rules(time_wait=2.5))
    a.close(1.0)
    check(carry(1.0, a, A, b) + carry(1.0, b, B, a), [Answer.DONE] * 2)
    b.close(1.5)
    check(carry(1.5, b, B, a) + carry(1.5, a, A, b), [Answer.DONE] * 2)
    check((a.status().phase, b.status().phase, b.status().ending), (Phase.TIME_WAIT, Phase.CLOSED, Ending.ORDERLY))
    check(a.arrive(2.0, B, A, bytes(13) + b"\4" + bytes(6)), Answer.WITHHELD)
    check((a.poll_at(), expiries(a, 5), a.status().ending), (4.0, [(4.0, Timer.TIME_WAIT)], Ending.ORDERLY))
    check((a.receive(5.0), b.receive(5.0)), (b"", b""))


def orders():
    """A segment that comes between a timer's expiry and its emissions: they are handed over first, as where the user emits in between."""
    told = []
    for emits in (True, False):
        a, b = pair()
        check((a.send(0.0, bytes(2500)), len(a.emit_all(0.0))), (2500, 3))
        check((b.send(0.0, b"text"), a.timeout(1.0)), (4, Timer.RETRANSMIT))
        found = a.emit_all(1.0) if emits else []
        to, segment = b.emit(1.0)
        check(a.arrive(1.0, B, to, segment), Answer.DONE)
        found += a.emit_all(1.0)
        told.append((found, a.status(), a.poll_at(), a.receive(1.0)))
    check(told[0], told[1])
    check(len(told[0][0]) >= 2, True)
    # It is freed with such segments: nothing comes of them.
    a, b = pair()
    check((a.send(0.0, b"x"), len(a.emit_all(0.0)), b.send(0.0, b"y"), a.timeout(1.0)), (1, 1, 1, Timer.RETRANSMIT))
    check(a.arrive(1.0, B, *b.emit(1.0)), Answer.DONE)
    a.free()
    check(raised(Refused, a.emit, 1.0), "no end is in the struct")


def reports():
    a = Connection.connect(0.0, CONFIGS[0], "10.0.0.2", 2)
    b = Connection.listen(0.0, CONFIGS[1])
    # Of a SYN options take 8 bytes: the MSS, and that blocks are permitted.
    told, segment = a.transmit(0.0)
    check((told, len(segment), a.transmit(0.0)), (Emission(B, 28, 0, 1), 28, None))
    answer, report = b.arrive_with_report(0.0, A, B, segment)
    check((answer, report.rule, report.brought), (Answer.DONE, Rule.PEER_OPENS, Brought.NOTHING))
    check(carry(0.0, b, B, a) + carry(0.0, a, A, b), [Answer.DONE] * 2)
    for kind in (bytes, bytearray, memoryview):
        at = a.status().snd_nxt
        check(a.send(0.0, kind(b"hello")), 5)
        told, segment = a.transmit(0.0)
        check((told, len(segment)), (Emission(B, 25, at, 5), 25))
        answer, report = b.arrive_with_report(0.0, A, B, kind(segment))
        check((answer, report.rule, report.brought, b.receive(0.0)), (Answer.DONE, Rule.TAKEN, Brought.IN_ORDER, b"hello"))
    check(b.arrive(0.0, A, B, b"x").text, "a segment of fewer than 20 bytes")
    check((b.arrive(0.0, B, A, segment), b.arrive(0.0, A, A, segment)), (Answer.NOT_MINE, Answer.BAD_CHECKSUM))
    b.acknowledge(0.0)
    check(carry(0.0, b, B, a), [Answer.DONE])
    check(a.status().released, 15)
    check((a.send(0.0, b"a line"), carry(0.0, a, A, b), b.peek()), (6, [Answer.DONE], Lent(b"a line", False)))
    check((b.consume(0.0, 2), b.peek(), b.consume(0.0, 9), b.peek()), (2, Lent(b"line", False), 4, None))
    check(raised(ValueError, b.consume, 0.0, -1)[:12], "the count is")


def windows():
    """Congestion control's window: what ends past it waits (RFC 5681, 3.1)."""
    a, b = pair()
    check(a.send(0.0, bytes(10_000)), 10_000)
    a.window = 2000
    check([len(segment) for _, segment in a.emit_all(0.0)], [1020, 1020])
    a.window = 3500
    check([len(segment) for _, segment in a.emit_all(0.0)], [1020])
    a.window = None
    check(len(a.emit_all(0.0)), 7)
    a.window = 2.5
    check(raised(TypeError, a.emit, 0.0), "'float' object cannot be interpreted as an integer")
    a.window = -1
    check("the window is -1" in raised(ValueError, a.emit, 0.0), True)


def trains():
    """Of two pairs of connections one's segments go out as one, for a device that cuts them and sums: the same text, states and times."""
    (a, _), (c, d) = pair(), pair()
    text = bytes(i % 251 for i in range(3500))
    check((a.send(0.0, text), c.send(0.0, text)), (3500, 3500))
    a.window = c.window = 2999
    told, whole = c.emit_train(0.0, 64)
    check(told, Train(Transmit(B, Kind.NEW_TEXT, 2020, 1, 2000), 20, 1000, 2))
    check(([segment[20:] for _, segment in a.emit_all(0.0)], whole[20:]), ([text[:1000], text[1000:2000]], text[:2000]))
    check((c.emit_train(0.0, 64), a.status(), a.poll_at()), (None, c.status(), c.poll_at()))
    check((d.arrive_vouched(0.0, A, B, whole), d.receive(0.0)), (Answer.DONE, text[:2000]))
    # With 1 it is one segment. The device's sum over what was written, with the sum of the pseudo-header in its field, is that of the peer.
    told, alone = d.emit_train(0.0, 1)
    check(told, Train(Transmit(A, Kind.ACKNOWLEDGEMENT, 20, 1, 0), 20, 0, 1))
    total = sum(struct.unpack("!10H", alone))
    total = (total & 0xFFFF) + (total >> 16)
    check(c.arrive(0.0, B, A, alone[:16] + struct.pack("!H", ~((total & 0xFFFF) + (total >> 16)) & 0xFFFF) + alone[18:]), Answer.DONE)
    check((c.status().snd_una, c.emit_train(0.0, 64)[0].whole.text_count), (2001, 1500))
    check(raised(ValueError, c.emit_train, 0.0, -1)[:25], "the number of segments is")
    # What an arrival has had emitted goes first.
    a, b = pair()
    check((a.send(0.0, b"x"), len(a.emit_all(0.0)), b.send(0.0, b"y"), a.timeout(1.0)), (1, 1, 1, Timer.RETRANSMIT))
    check(a.arrive(1.0, B, *b.emit(1.0)), Answer.DONE)
    check(raised(Refused, a.emit_train, 1.0, 64), tcpcore.strerror(Answer.EMIT_FIRST))
    check((len(a.emit_all(1.0)) > 0, a.emit_train(1.0, 64)), (True, None))


def times():
    chance = random.Random(1)
    for _ in range(3000):
        at = chance.randrange(1 << chance.randrange(1, 52))
        check(tcpcore.microseconds(at / 1e6), at)
    a, _ = pair(now=7.0)
    for wrong in (float("nan"), float("inf"), -1e-9, 1e300, 1 << 80):
        for call in (a.timeout, a.receive, a.emit, a.close, a.acknowledge, a.emit_all, a.transmit):
            check(raised(ValueError, call, wrong)[:12], "the time is ")
    for wrong in (None, "1", b"1", [], 1j):
        check(raised(TypeError, a.timeout, wrong) != "nothing", True)
    # A time that goes back is the latest before it.
    check((a.send(7.0, b"x"), len(a.emit_all(2.0)), a.poll_at()), (1, 1, 8.0))
    check((a.timeout(7.5), a.timeout(8), a.timeout(8.0)), (None, Timer.RETRANSMIT, None))


def refusals():
    for rules in (Rules(least=0.0), Rules(least=2.0, greatest=1.0), Rules(greatest=2e6)):
        said = "no timeout can be made from the rules, or no congestion window has this number"
        check(raised(Refused, Connection.listen, 0.0, CONFIGS[1], rules), said)
    check("-1" in raised(ValueError, Connection.listen, 0.0, CONFIGS[1], Rules(user=-1)), True)
    check("isn't from 0" in raised(ValueError, Connection.listen, 0.0, CONFIGS[1], Rules(suspect_after=1 << 32)), True)
    check("isn't from 0" in raised(ValueError, Connection.connect, 0.0, CONFIGS[0], B, 1 << 16), True)
    check("4 bytes" in raised(ValueError, Connection.connect, 0.0, CONFIGS[0], b"123", 2), True)
    check("room" in raised(ValueError, Connection.listen, 0.0, CONFIGS[1], room=0), True)
    check(raised(Refused, Connection.listen, 0.0, CONFIGS[1]._replace(mss=1)), "the maximum segment size isn't from 64 to 1,460 bytes")
    check(raised(Refused, Connection.connect, 0.0, CONFIGS[0]._replace(port=0), B, 2), "the port is 0")
    check("window_shift" in raised(AttributeError, Connection.listen, 0.0, None), True)
    b = Connection.listen(0.0, CONFIGS[1])
    check(raised(Refused, b.send, 0.0, b"x"), tcpcore.strerror(Answer.NOT_CONNECTED))
    for call in (copy.copy, copy.deepcopy, pickle.dumps):
        check(raised(TypeError, call, b)[:19], "a connection can't ")
    with Connection.connect(0.0, CONFIGS[0], B, 2) as a:
        check(a.status().phase, Phase.SYN_SENT)
    calls = [(a.poll_at,), (a.timeout, 0.0), (a.arrive, 0.0, A, B, b""), (a.transmit, 0.0), (a.emit, 0.0), (a.emit_all, 0.0), (a.emit_train, 0.0, 1), (a.send, 0.0, b"")]
    calls += [(a.receive, 0.0), (a.peek,), (a.consume, 0.0, 1), (a.acknowledge, 0.0), (a.close, 0.0), (a.abort, 0.0), (a.status,), (a.free,)]
    for call, *args in calls:
        check(raised(Refused, call, *args), "no end is in the struct")
    a, b = pair()
    a.abort(1.0)
    check(carry(1.0, a, A, b), [Answer.DONE])
    check((a.status().ending, b.status().ending), (Ending.ABORTED, Ending.RESET))
    check(raised(Refused, b.send, 1.0, b"x"), tcpcore.strerror(Answer.ENDED))
    check(raised(Refused, b.receive, 1.0), tcpcore.strerror(Answer.ENDED))


ODD = (None, -1, 0, 1 << 70, 0.5, float("nan"), "x", "10.0.0.1", b"", bytes(20), bytes(70_000), [], {}, object(), A, B, memoryview(b"abcdef")[::2])


def hostile():
    """Any calls with any arguments: refused, or raised as a fault of the arguments. TCPCORE_CALLS in the environment says how many calls."""
    chance, calls = random.Random(11), int(os.environ.get("TCPCORE_CALLS", "16000"))
    names = ("poll_at", "timeout", "arrive", "arrive_with_report", "arrive_vouched", "transmit", "emit", "emit_all", "emit_train", "send", "receive", "peek", "consume", "acknowledge", "close", "abort", "status", "free")
    faults, done = (Refused, ValueError, TypeError), 0
    for turn in range(calls // 40):
        now, ends = 0.0, list(pair())
        segments = [bytes(20)]
        for _ in range(40):
            end, name = chance.choice(ends), chance.choice(names if turn % 4 else names[:-1])
            now += chance.choice((0, 0.01, 1.0))
            if name.startswith("arrive"):
                segment = bytearray(chance.choice(segments))
                if chance.random() < 0.5:
                    segment[chance.randrange(len(segment))] ^= 1 << chance.randrange(8)
                right = [now, *chance.choice(((A, B), (B, A))), segment]
            else:
                right = {"send": [now, bytes(chance.randrange(3000))], "consume": [now, chance.randrange(3000)], "emit_train": [now, chance.randrange(9)], "poll_at": [], "peek": [], "status": [], "free": []}.get(name, [now])
            args = [chance.choice(ODD) if chance.random() < 0.15 else arg for arg in right]
            try:
                found = getattr(end, name)(*args)
                done += 1
                if name in ("emit", "transmit") and found is not None:
                    segments.append(found[1])
            except faults:
                pass
    check(done > calls // 4, True)


def main():
    as_end()
    timeouts()
    later_limits()
    first_again()
    stretches()
    congestion_windows()
    policies()
    recoveries()
    keep_alives()
    paced()
    peers()
    guards()
    time_wait()
    orders()
    reports()
    windows()
    trains()
    times()
    refusals()
    hostile()
    print(f"connections.py: {checks} checks")


if __name__ == "__main__":
    main()
