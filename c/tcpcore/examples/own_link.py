"""A simulator of one's own, over Connection: 60 KB over a link that loses each ninth segment and takes 20 ms each way. tcpcore.simulator has a
link with more to it. python3 own_link.py, behind `pip install ./c/bindings/python`."""

import heapq

from tcpcore import Config, Connection

DELAY, SIZE, ADDRS = 0.02, 60_000, ("10.0.0.1", "10.0.0.2")


class World:
    """Two connections, and the segments that are under way: when each comes, its number, to whom, and what it is."""

    def __init__(self):
        self.now, self.count, self.wire = 0.0, 0, []
        self.ends = Connection.connect(0.0, Config(ADDRS[0], 1, 1000), ADDRS[1], 2), Connection.listen(0.0, Config(ADDRS[1], 2, 5000))
        self.ends[0].send(0.0, bytes(SIZE))
        self.received = 0

    def emit(self, side):
        """All that is due goes onto the link; timers that have expired make more due."""
        while True:
            for dst, segment in self.ends[side].emit_all(self.now):
                self.count += 1
                if self.count % 9 != 0:
                    heapq.heappush(self.wire, (self.now + DELAY, self.count, 1 - side, dst, segment))
            if self.ends[side].timeout(self.now) is None:
                return

    def step(self):
        """Time goes on to the next arrival or deadline."""
        times = [end.poll_at() for end in self.ends] + [at for at, *_ in self.wire[:1]]
        self.now = min(at for at in times if at is not None)
        while self.wire and self.wire[0][0] <= self.now:
            _, _, side, dst, segment = heapq.heappop(self.wire)
            self.ends[side].arrive(self.now, ADDRS[1 - side], dst, segment)
            while text := self.ends[side].receive(self.now):
                self.received += len(text)
            self.emit(side)
        for side in (0, 1):
            self.emit(side)


def main():
    world = World()
    world.emit(0)
    while world.ends[0].status().released < SIZE:
        world.step()
    print(f"{world.received} bytes received and acknowledged")


if __name__ == "__main__":
    main()
