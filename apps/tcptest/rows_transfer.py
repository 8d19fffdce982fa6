"""Rows: transfers, of which our own stack is the other side, over a wire that harms what it carries (RFC 9293, 3.4, 3.8
and 3.10). All bytes are compared, and the stack's log is judged as that of each other row."""

import heapq
import random

import building
from broken import Hears, Says, Told, drops, has_fin, has_text
from lab import Gone, NotSeen, need
from rows import row
from segments import STACK, TESTER, as_sent, read_packet
from stacks import Child

# One way, in seconds, and how much later what is late comes; after how long without another byte a transfer fails.
DELAY, LATER, LIMIT = 0.002, 0.006, 30.0
CLEAN, HARM = {}, {"lost": 0.02, "doubled": 0.02, "late": 0.04, "damaged": 0.01}


class Wire:
    """Carries packets both ways; what becomes of each is random, with these chances."""

    def __init__(self, seed, harm):
        self.random, self.harm = random.Random(seed), harm
        self.waiting, self.count, self.fates = [], 0, dict.fromkeys(("lost", "doubled", "late", "damaged"), 0)

    def put(self, now, to, packet):
        fate = next((name for name, chance in self.harm.items() if self.random.random() < chance), None)
        if fate is not None:
            self.fates[fate] += 1
        if fate == "damaged":
            at = self.random.randrange(20, len(packet))
            packet = packet[:at] + bytes([packet[at] ^ 1 << self.random.randrange(8)]) + packet[at + 1 :]
        for late in {"lost": (), "doubled": (0, LATER), "late": (LATER,)}.get(fate, (0,)):
            self.count += 1
            heapq.heappush(self.waiting, (now + DELAY + late, self.count, to, packet))

    def arrivals(self, now):
        while self.waiting and self.waiting[0][0] <= now + 1e-9:
            yield heapq.heappop(self.waiting)[2:]


class User:
    """Sends a text, reads another one, and closes once both are done."""

    def __init__(self, text, wanted, call):
        self.text, self.wanted, self.call = text, wanted, call
        self.handle, self.sent, self.got, self.has_closed, self.has_ended = None, 0, b"", False, False

    def turn(self):
        while self.sent < len(self.text):
            count = self.call("send", self.handle, self.text[self.sent : self.sent + 16384])
            need(not isinstance(count, Gone), f"a user who sends is told {count}")
            self.sent += count
            if count == 0:
                break
        self.read()
        if self.sent == len(self.text) and len(self.got) == len(self.wanted) and not self.has_closed:
            self.has_closed = True
            self.close()

    def close(self):
        """Where a stack's calls close both ways alone, its user isn't told the end."""
        try:
            self.call("close", self.handle)
        except NotSeen:
            self.call("leave", self.handle)
            self.has_ended = True

    def read(self):
        while not self.has_ended and (piece := self.call("receive", self.handle)) is not None:
            need(not isinstance(piece, Gone), f"a user who reads is told {piece}, behind {len(self.got)} bytes")
            self.has_ended = piece == b""
            self.got += piece
            need(self.wanted.startswith(self.got), f"other bytes than were sent, within {len(self.got)}")
        need(not self.has_ended or len(self.got) == len(self.wanted), f"the end behind {len(self.got)} of {len(self.wanted)} bytes")


class Transfer:
    """The stack, our end as its partner, and the wire between them."""

    def __init__(self, lab, size, harm, stack_opens):
        self.lab, self.peer, self.wire = lab, lab.peer(), Wire(size + stack_opens, harm)
        self.partner = Child("the partner", building.ours(), {"TCPTEST_ADDRESS": "10.9.0.2"})
        self.partner.start()
        self.began, self.partner_time = lab.now(), 0.0
        made = random.Random(size)
        there, back = made.randbytes(size), made.randbytes(size)
        self.stack_user = User(there, back, self.lab.call)
        self.own_user = User(back, there, lambda name, *words: getattr(self.partner, name)(*words))
        self.segments, self.stack_opens = 0, stack_opens

    def open(self):
        if self.stack_opens:
            self.partner.listen(self.peer.own)
            self.stack_user.handle = self.peer.user = self.lab.call("connect", self.peer.port, self.peer.own)
        else:
            self.lab.call("listen", self.peer.port)
            self.own_user.handle = self.partner.connect(self.peer.own, self.peer.port, STACK)

    def accept(self):
        if self.stack_user.handle is None:
            self.stack_user.handle = self.peer.user = self.lab.call("accept", self.peer.port)
        if self.own_user.handle is None:
            self.own_user.handle = self.partner.accept(self.peer.own)

    def take(self):
        """What both have sent goes onto the wire."""
        now = self.lab.now()
        self.lab.read()
        for segment in self.peer.arrived:
            self.segments += 1
            self.wire.put(now, TESTER, as_sent(segment))
        self.peer.arrived.clear()
        for packet in self.partner.read():
            self.wire.put(now, STACK, packet)

    def carry(self):
        for to, packet in self.wire.arrivals(self.lab.now()):
            if to == TESTER:
                self.partner.write(packet)
                continue
            # What the stack has sent by now it sent before this came.
            self.take()
            segment = read_packet(packet, is_damaged=True)
            self.peer.note("came", segment)
            for one in [segment] if self.lab.fault is None else self.lab.fault.came(segment):
                self.lab.stack.write(packet if one is segment else one.packet())

    def pass_time(self):
        self.lab.stack.pass_time(0.001)
        spent = round(1000 * (self.lab.now() - self.began - self.partner_time))
        if spent > 0:
            self.partner.ask("run", spent)
            self.partner_time += spent / 1000

    def run(self):
        self.open()
        count, since = 0, self.began
        while not (self.stack_user.has_ended and self.own_user.has_ended):
            came = len(self.stack_user.got) + len(self.own_user.got)
            count, since = (came, self.lab.now()) if came > count else (count, since)
            said = f"{len(self.stack_user.got)} and {len(self.own_user.got)} bytes have come, and none in {LIMIT:.0f} s"
            need(self.lab.now() - since < LIMIT, said)
            self.take()
            self.carry()
            self.accept()
            for user in self.stack_user, self.own_user:
                if user.handle is not None:
                    user.turn()
            self.pass_time()
        self.take()


def transferred(lab, size, harm, stack_opens):
    transfer = Transfer(lab, size, harm, stack_opens)
    try:
        transfer.run()
    finally:
        transfer.partner.stop()
    fates = ", ".join(f"{count} {fate}" for fate, count in transfer.wire.fates.items() if count)
    span = lab.now() - transfer.began
    return f"{size:,} bytes each way in {span:.2f} s; {transfer.segments} segments of the stack; on the wire {fates or 'no harm'}"


def one_byte(answer):
    """Of what a user reads one byte is another one."""
    return bytes([answer[0] ^ 1]) + answer[1:] if isinstance(answer, bytes) and not isinstance(answer, Gone) and len(answer) > 500 else answer


@row("", "3.4, 3.8", "over a clean wire each user is handed what the other one sent, and then the end", lambda: Told("receive", one_byte))
def transfer_clean(lab):
    return transferred(lab, 200_000, CLEAN, False)


@row("", "3.4, 3.8", "the same over a wire that loses, doubles, delays, reorders and damages", lambda: Hears(drops, has_text, after=20))
def transfer_harmed(lab):
    return transferred(lab, 60_000, HARM, False)


@row("", "3.4, 3.8", "the same where the stack opens the connection", lambda: Says(drops, has_fin))
def transfer_opened(lab):
    return transferred(lab, 60_000, HARM, True)
