"""Two ends under watch: what each user gave and was handed, what is left between the ends, and whether all of it is through."""

from end import ACK, RST, SPACE
from script import World

ALL_ROOM = 1 << 20
# So often a side may emit before nothing is due to it.
MOST_EMISSIONS = 5000
CALM = ("receive", "acknowledge", "emit", "deliver", "damage", "timer")


class Broken(Exception):
    """Something that has to hold in a walk doesn't."""


def other(side):
    return "B" if side == "A" else "A"


class Walk:
    """A world, all its events so far, and what its users gave and were handed, byte by byte."""

    def __init__(self, settings, script=(), note=lambda name: None):
        self.world, self.script = World(settings, note), list(script)
        self.accepted, self.handed = {"A": b"", "B": b""}, {"A": b"", "B": b""}
        self.is_watched = False

    def end(self, side):
        return self.world.parties[side].end

    def count(self, side):
        """How many segments a side has emitted."""
        return len(self.world.parties[side].sent)

    def segment(self, side, k):
        return self.world.parties[side].sent[k].segment

    def is_reset(self, side, k):
        return self.segment(side, k).has(RST)

    # ---- events

    def happen(self, words):
        """One event, and what is answered. While it is watched it has to be calm, to leave no more and to keep the streams."""
        self.script.append(words)
        if not self.is_watched:
            return self.step(words)
        kind, *rest = words.split(" ")
        assert kind in CALM and "timewait" not in rest, words
        left, streams = self.left(), self.streams()
        answer = self.step(words)
        if self.left() > left:
            raise Broken(f"'{words}' leaves {self.left()} where {left} was left")
        if self.streams() != streams:
            raise Broken(f"'{words}' changes what was accepted, or closes")
        return answer

    def step(self, words):
        kind, side, *rest = words.split(" ")
        if kind == "acknowledge":
            self.end(side).acknowledge()
            return f"ok {self.end(side).phase}"
        answer = self.world.event(words)
        if kind == "send" and answer.startswith("took ") and rest[0] != "-":
            self.accepted[side] += bytes.fromhex(rest[0])[: int(answer[5:])]
        if kind == "receive" and answer.startswith("bytes ") and answer != "bytes -":
            self.handed[side] += bytes.fromhex(answer[6:])
        return answer

    def all_happen(self, *events):
        for words in events:
            self.happen(words)
        return self

    def read_all(self):
        """Both users read all, and once more, for the end of the stream."""
        for side in "AB":
            self.all_happen(f"receive {side} {ALL_ROOM}", f"receive {side} 0")

    def emit(self, side):
        """The number of the segment that goes out, or None."""
        answer = self.happen(f"emit {side}")
        return None if answer == "none" else int(answer.split(" ")[0])

    def emit_all(self, side):
        """Emits until nothing is due: the segments that went out, each as (side, number), without resets."""
        start = self.count(side)
        while self.emit(side) is not None:
            if self.count(side) - start > MOST_EMISSIONS:
                raise Broken(f"{side} emits and emits")
        return [(side, k) for k in range(start, self.count(side)) if not self.is_reset(side, k)]

    # ---- what is left (RFC 9293, 3.3.1)

    def streams(self):
        return [(len(self.accepted[side]), self.end(side).closing) for side in "AB"]

    def sent_of(self, side):
        """How much a user gave to be taken and acknowledged: the bytes, and after a close the FIN."""
        return len(self.accepted[side]) + self.end(side).closing

    def untaken(self, side):
        """What the peer hasn't taken of it."""
        return self.sent_of(side) - self.end(other(side)).ordered - self.end(other(side)).fin_taken

    def unacknowledged(self, side):
        """What isn't acknowledged of it, and of the SYN."""
        end = self.end(side)
        return 1 + self.sent_of(side) - (end.snd_una - end.iss) % SPACE

    def left(self):
        return sum(self.untaken(side) + self.unacknowledged(side) for side in "AB")

    # ---- where both ends are

    def is_live(self):
        """Each has taken the other's SYN, and neither has ended."""
        return all(self.end(side).rcv_nxt is not None and self.end(side).ending == "not-ended" for side in "AB")

    def is_opening(self):
        """One is in SYN-SENT, the other in LISTEN or SYN-RECEIVED."""
        phases = [self.end(side).phase for side in "AB"]
        return "SYN-SENT" in phases and ("LISTEN" in phases or "SYN-RECEIVED" in phases)

    def is_served(self):
        """Whether turns have to get through."""
        return self.is_live() or self.is_opening()

    def gave_up(self):
        return [side for side in "AB" if self.end(side).ending in ("reset", "aborted")]

    def lacks(self):
        """What isn't through, in words: none where both ends were opened, and both ways are through."""
        found = []
        for side in "AB":
            end, peer = self.end(side), other(side)
            if self.handed[peer] != self.accepted[side]:
                found.append(f"{peer} was handed {len(self.handed[peer])} of {side}'s {len(self.accepted[side])} bytes, or others")
            if end.released != len(self.accepted[side]):
                found.append(f"{end.released} of {side}'s {len(self.accepted[side])} bytes are acknowledged")
            if end.closing and not self.world.parties[peer].ended:
                found.append(f"{peer} wasn't told the end of the stream")
            if self.unacknowledged(side) > 0:
                found.append(f"{self.unacknowledged(side)} of {side}'s SYN, text and FIN aren't acknowledged")
            if end.rcv_nxt is None:
                found.append(f"{side} hasn't taken {peer}'s SYN")
            if side in self.gave_up():
                found.append(f"{side} gave up")
        return found

    def is_settled(self):
        """Through both ways, and where both users closed both ends have ended in order."""
        both_closed = self.end("A").closing and self.end("B").closing
        return not self.lacks() and (not both_closed or all(self.end(side).ending == "orderly" for side in "AB"))

    def kinds(self):
        """Of each kind of worlds, by its name, whether this is one."""
        ends = [self.end(side) for side in "AB"]
        closed = sum(end.closing for end in ends)
        return {
            "opening, towards LISTEN": self.is_opening() and any(end.phase == "LISTEN" for end in ends),
            "opening, towards SYN-RECEIVED": self.is_opening() and any(end.phase == "SYN-RECEIVED" for end in ends),
            "live, one in SYN-RECEIVED": self.is_live() and any(end.phase == "SYN-RECEIVED" for end in ends),
            "live": self.is_live(),
            "closed by none": closed == 0,
            "closed by one": closed == 1,
            "closed by both": closed == 2,
            "one in LAST-ACK": any(end.phase == "LAST-ACK" for end in ends),
            "one in TIME-WAIT": any(end.phase == "TIME-WAIT" for end in ends),
            "window at 0": self.is_live() and any(end.window_field() == 0 for end in ends),
            "window told as 0, text waits": self.is_live() and any(end.snd_wnd == 0 and end.unsent() > 0 for end in ends),
            "something held": any(end.held for end in ends),
            "something marked": any(end.marked for end in ends),
            "to be sent again": any(end.again for end in ends),
            "probe granted": any(end.owes_probe for end in ends),
            "reset waits": any(end.reset for end in ends),
            "resets on their way": any(self.is_reset(side, k) for side in "AB" for k in range(self.count(side))),
            "nothing left": self.left() == 0,
            "much left": self.left() > 100,
        }

    def is_shut(self, side, k):
        """Whether a segment tells a window of 0."""
        segment = self.segment(side, k)
        return segment.has(ACK) and not segment.has(RST) and segment.window == 0
