"""A lossy link simulated: time against sequence numbers. python3 lossy_link.py [PICTURE.svg]

One side sends 60 KB over 2 Mbit/s with a delay of 20 ms each way; one segment in 15 is lost on the way there. Time is simulated, so a
run takes no second, and is the same each time. It prints what became of the transfer, and with a word draws it (matplotlib).
The package comes by `pip install ./c/bindings/python`.
"""

import sys

from tcpcore import Config, Phase
from tcpcore.simulator import Simulator

SIZE, ISN = 60_000, 1000


def main():
    config = Config("10.0.0.1", 7, ISN, mss=1000, send_capacity=SIZE, recv_capacity=SIZE)
    simulator = Simulator(rate=2e6, delay=0.02, loss=(1 / 15, 0), seed=3, client=config, server=config._replace(addr="10.0.0.2"))
    while simulator.client.phase != Phase.ESTABLISHED:
        simulator.step()
    simulator.client.send(bytes(SIZE))
    while simulator.record[-1].released < SIZE:
        simulator.step()
    sent, lost = (simulator.points("client", what) for what in ("sent", "lost"))
    again = sum(segment.again for _, segment in sent) - sum(segment.again for _, segment in lost)
    told = f"{len(sent)} segments with text, {len(lost)} lost, {again} sent again and not lost"
    print(f"{SIZE} bytes acknowledged: {told}")
    if len(sys.argv) > 1:
        simulator.plot(sys.argv[1])


if __name__ == "__main__":
    main()
