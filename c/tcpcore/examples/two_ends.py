"""The example two_ends.c in Python: it prints the same. python3 two_ends.py, behind `pip install ./c/bindings/python`."""

from tcpcore import DONE, ENDINGS, PHASES, REORDER, RETRANSMIT, TIME_WAIT, Config, End

HERE = b"The first line goes from A to B, and it is longer than one segment of this wire.\n"
BACK = b"The second line comes back from B to A.\n"


class Side:
    def __init__(self, name, host, isn, text):
        self.name, self.text, self.sent, self.closed = name, text, 0, False
        self.addr = bytes([10, 0, 0, host])
        self.end = End(Config(self.addr, host, isn, mss=64, send_capacity=4096, recv_capacity=4096))

    def use(self):
        """Reads what came, sends the text, and closes behind it, or where the peer has closed."""
        found = self.read()
        if PHASES.index(self.end.status().phase) >= PHASES.index("ESTABLISHED") and self.sent < len(self.text):
            self.sent += self.end.send(self.text[self.sent :])
        if not self.closed and (found == b"" or self.name == "A" and self.sent == len(self.text)):
            self.end.close()
            self.closed = True

    def read(self):
        """The last answer: b"" at the end of the stream, else None."""
        while found := self.end.receive():
            print(f"   {self.name} is handed {len(found)} bytes: {found.decode().rstrip()}")
        return found

    def run_out(self):
        """Lets one timer run out, the short one before the long one; whether one was running."""
        due = self.end.timers()
        for timer in (REORDER, RETRANSMIT):
            if due >> timer & 1:
                return self.end.timer(timer)
        return False

    def tell(self):
        told = self.end.status()
        phase, ending = PHASES.index(told.phase), ENDINGS.index(told.ending)
        print(f"{self.name}: phase {phase}, ending {ending}, {told.released} bytes acknowledged, {told.ordered} received")
        self.end.free()


class Wire:
    """It loses each third segment."""

    def __init__(self):
        self.count = 0

    def carry(self, source, target):
        """How many segments were due."""
        before = self.count
        while due := source.end.emit():
            self.count += 1
            line = f"{self.count:2} {source.name} > {target.name} {len(due[1])} bytes"
            if self.count % 3 == 0:
                print(f"{line}, lost")
            else:
                answer = target.end.arrive(source.addr, *due)
                print(f"{line}, {'taken' if answer == DONE else 'passed over'}")
        return self.count - before


def main():
    a, b, wire = Side("A", 1, 1000, HERE), Side("B", 2, 5000, BACK), Wire()
    b.end.listen()
    a.end.connect(b.addr, 2)
    while a.end.status().ending == "not-ended":
        due = wire.carry(a, b) + wire.carry(b, a)
        a.use()
        b.use()
        if due == 0 and not a.run_out() | b.run_out():
            a.end.timer(TIME_WAIT)
    a.tell()
    b.tell()


if __name__ == "__main__":
    main()
