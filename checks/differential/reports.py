"""Compares what the C library reports of arrivals and emissions, and of an end, with the second program, on the random calls and
segments of one_end.py: python3 checks/differential/reports.py LIBTCPCORE.SO [COUNT]. From 1,000 ends on each report has to come.

What is reported is worked out here a second time, in 32-bit numbers, after docs/RULES.md: RFC 9293, 3.10.7, and RFC 5681, 2 and 4.2.
"""

import collections
import os
import random
import sys

from end import ACK, FIN, HALF, RST, SPACE, SYN, End, Segment
from one_end import PEER, config_of, first_call, line
from program import TOP, word_sum

if __name__ == "__main__" and len(sys.argv) > 1:
    os.environ["LIBTCPCORE"] = os.path.abspath(sys.argv[1])
sys.path.insert(0, f"{TOP}/c/tcpcore")

import tcpcore  # noqa: E402
from tcpcore import ArriveReport, Brought, Kind, Rule, Transmit  # noqa: E402

# No answer follows from these.
SILENT = (Rule.FOREIGN, Rule.RESET_IGNORED, Rule.OPENS_NOTHING, Rule.NO_ACK, Rule.PEER_REFUSES, Rule.PEER_RESETS)


class Reporting(End):
    """The second program's end, which keeps what is to be reported of its last arrival and of its last emission."""

    taken = sent = None

    # Whatever takes a window or a piece of text sets these.
    def set_window(self, window):
        self.wnd, self.is_window_taken = window, True

    def set_held(self, held):
        self.early, self.is_kept = held, True

    snd_wnd = property(lambda self: self.wnd, set_window)
    held = property(lambda self: self.early, set_held)

    def flight(self):
        """The bytes of text that were sent and aren't acknowledged."""
        return min(len(self.queue), max(0, self.place(self.snd_nxt)))

    def judged_ack(self, s, good, refused):
        if self.phase == "SYN-RECEIVED":
            return good if s.ack == self.snd_nxt else refused
        ahead = (s.ack - self.snd_una) % SPACE
        return Rule.ACKS_UNSENT if (self.snd_nxt - self.snd_una) % SPACE < ahead < HALF else good

    def judged_syn_sent(self, s):
        if s.has(ACK) and s.ack != self.snd_nxt:
            return Rule.RESET_IGNORED if s.has(RST) else Rule.ACK_OF_NO_SYN
        if s.has(RST):
            return Rule.PEER_REFUSES if s.has(ACK) else Rule.RESET_IGNORED
        return Rule.PEER_ACCEPTS if s.has(SYN) and s.has(ACK) else Rule.OPENS_NOTHING

    def judged(self, src, dst, s):
        """The rule that applies (RFC 9293, 3.10.7)."""
        is_known = self.phase not in ("CLOSED", "LISTEN")
        if (dst, s.dst_port) != (self.config["addr"], self.config["port"]) or is_known and (src, s.src_port) != self.peer:
            return Rule.FOREIGN
        if not is_known and s.has(RST):
            return Rule.RESET_IGNORED
        if self.phase == "CLOSED":
            return Rule.STRAY
        if self.phase == "LISTEN":
            return Rule.ACK_OF_LISTEN if s.has(ACK) else Rule.PEER_OPENS if s.has(SYN) else Rule.OPENS_NOTHING
        if self.phase == "SYN-SENT":
            return self.judged_syn_sent(s)
        if not self.is_acceptable(s):
            if s.has(RST):
                return Rule.RESET_IGNORED
            if self.window() == 0 and s.has(ACK) and not s.has(SYN):
                return self.judged_ack(s, Rule.TAKEN_SHUT, Rule.HANDSHAKE_REFUSED_SHUT)
            return Rule.UNACCEPTABLE
        if s.has(RST):
            return Rule.PEER_RESETS if s.seq == self.rcv_nxt else Rule.RESET_ELSEWHERE
        if s.has(SYN):
            return Rule.SYN_IN_WINDOW
        return self.judged_ack(s, Rule.TAKEN, Rule.HANDSHAKE_REFUSED) if s.has(ACK) else Rule.NO_ACK

    def is_duplicate(self, s):
        """(a) to (e) of RFC 5681, 2."""
        is_bare = not s.text and not s.has(SYN) and not s.has(FIN)
        return self.flight() > 0 and is_bare and s.ack == self.snd_una and s.window << self.peer_shift == self.snd_wnd

    def is_urgent(self, rule, s, had_gap):
        """Whether it has to be answered at once (RFC 5681, 4.2)."""
        if rule == Rule.TAKEN:
            return self.owes_ack and (s.has(FIN) or bool(s.text) and (had_gap or bool(self.held)))
        return self.owes_ack if rule == Rule.TAKEN_SHUT else rule not in SILENT

    def brought(self, rule, s, next_before):
        if not s.text and not s.has(FIN):
            return Brought.NOTHING
        if rule == Rule.TAKEN and self.rcv_nxt != next_before:
            return Brought.IN_ORDER
        return Brought.HELD if rule == Rule.TAKEN and self.is_kept else Brought.NOT_KEPT

    def arrive(self, src, dst, data):
        released, next_before, had_gap = self.released, self.rcv_nxt, bool(self.held)
        is_read = len(data) >= 20 and word_sum(src, dst, data) % 65535 == 0
        s = Segment(data) if is_read else None
        rule = self.judged(src, dst, s) if s else Rule.NONE
        is_duplicate = rule in (Rule.TAKEN, Rule.TAKEN_SHUT) and self.is_duplicate(s)
        self.is_window_taken = self.is_kept = False
        answer = super().arrive(src, dst, data)
        if answer.startswith("malformed"):
            self.report = ArriveReport(False, Rule.NONE, 0, Brought.NOTHING, False, False)
            return answer
        urgent, brought = self.is_urgent(rule, s, had_gap), self.brought(rule, s, next_before)
        self.report = ArriveReport(urgent, rule, self.released - released, brought, is_duplicate, self.is_window_taken)
        return answer

    def emit(self):
        nxt = self.snd_nxt
        emitted = super().emit()
        self.sent = None
        if emitted:
            s = Segment(emitted[1])
            kind = Kind.ACKNOWLEDGEMENT
            if s.has(RST) or s.has(SYN):
                kind = Kind.RESET if s.has(RST) else Kind.SYN
            elif s.text:
                kind = Kind.NEW_TEXT if s.seq == nxt else Kind.TEXT_AGAIN
            elif s.has(FIN):
                kind = Kind.FIN if s.seq == nxt else Kind.FIN_AGAIN
            position = 0 if kind == Kind.RESET else (s.seq - self.iss) % SPACE
            self.sent = Transmit(emitted[0], kind, len(emitted[1]), position, len(s.text))
        return emitted

    def emit_acknowledgement(self):
        self.alone = super().emit_acknowledgement()
        return self.alone

    def status(self):
        nxt = (self.snd_nxt - self.iss) % SPACE
        return self.snd_wnd, self.window(), nxt, int(self.closing), int(self.fin_taken)


def address(dotted):
    return bytes(map(int, dotted.split(".")))


def octets(word):
    return b"" if word == "-" else bytes.fromhex(word)


def call(library, words):
    """Makes the call of a line, whatever it answers; a report where it has one."""
    name, *rest = words.split()
    if name == "arrive":
        return library.arrive_with_report(address(rest[0]), address(rest[1]), octets(rest[2]))[1]
    if name == "emit":
        before, sent = library.next(), library.transmit()
        return (before, sent and sent[0])
    if name == "emit-acknowledgement":
        return library.emit_acknowledgement()
    if name == "receive":
        library.room = int(rest[0])
    try:
        if name == "send":
            library.send(octets(rest[0]))
        elif name == "timer":
            library.timer({"retransmit": 0, "reorder": 1, "timewait": 2}[rest[0]])
        elif name == "resend":
            library.resend(int(rest[0]), int(rest[1]))
        elif name == "connect":
            library.connect(*PEER)
        else:
            getattr(library, name.replace("-", "_"))()
    except tcpcore.Refused:
        pass
    return None


def differs(seed, words, found, wanted):
    if found != wanted:
        sys.exit(f"from seed {seed}, at {words}\nfound  {found}\nwanted {wanted}")


def one(seed, seen):
    """One end, its calls and what is reported of each."""
    rng = random.Random(seed)
    config = config_of(rng) | {"runs": rng.choice([1, 2, 4, 16])}
    end = Reporting(config)
    library = tcpcore.End(
        tcpcore.Config(
            config["addr"], config["port"], config["isn"], config["mss"], config["send"], config["recv"], config["shift"], config["sack"],
            runs=config["runs"],
        )
    )
    first = first_call(rng, end)
    lines = [first] if first else []
    count = rng.choice([15, 60, 150])
    while lines or count > 0:
        words, count = (lines.pop()[0], count) if lines else (line(rng, end)[0], count - 1)
        found = call(library, words)
        if words.startswith("arrive"):
            differs(seed, words, found, end.report)
            seen.update([f"rule {found.rule.name}", f"brought {found.brought.name}"])
            seen.update(name for name in ("at_once", "acked", "is_duplicate", "window_taken") if getattr(found, name))
        elif words == "emit-acknowledgement":
            differs(seed, words, found, end.alone)
        elif words.startswith("emit"):
            differs(seed, words, found, (end.sent, end.sent))
            seen.update([f"kind {end.sent.kind.name}" if end.sent else "none due"])
        told = library.status()
        differs(seed, words, (told.snd_wnd, told.rcv_wnd, told.snd_nxt, told.closing, told.finished), end.status())


def main():
    count = int(sys.argv[2]) if len(sys.argv) > 2 else 100
    seen = collections.Counter()
    for seed in range(count):
        one(seed, seen)
    # In SYN-RECEIVED nothing is unread, and the window is the capacity.
    rules = [rule for rule in Rule if rule != Rule.HANDSHAKE_REFUSED_SHUT]
    names = [f"rule {rule.name}" for rule in rules] + [f"brought {it.name}" for it in Brought] + [f"kind {it.name}" for it in Kind if it]
    missing = [name for name in names + ["is_duplicate", "window_taken", "acked", "at_once"] if seen[name] == 0]
    if missing and count >= 1000:
        sys.exit(f"never came: {missing}")
    print(f"{count} ends, no difference; how often each report came:")
    print(", ".join(f"{name} {times}" for name, times in sorted(seen.items())))


if __name__ == "__main__":
    main()
