"""What tcpcore.simulator does: times as the link's numbers give them, losses, queues and jitter as they are asked for, the same run for the same
seed, and all bytes whatever the link does. python3 simulations.py"""

import importlib.util
import os
import random
import struct
import sys
import tempfile

sys.path.insert(0, os.path.dirname(os.path.dirname(os.path.realpath(__file__))))
from tcpcore import Config, Ending, Phase, Policy, Refused, Rules, Timer  # noqa: E402
from tcpcore.simulator import Simulator  # noqa: E402

CLIENT, SERVER = Config("10.0.0.1", 1, 1000, mss=1000), Config("10.0.0.2", 2, 5000, mss=1000)
checks = 0


def check(found, wanted):
    global checks
    checks += 1
    if found != wanted:
        sys.exit(f"simulations.py: check {checks}: {found!r:.500}, not {wanted!r:.500}")


def raised(kind, call, *args, **words):
    """The text of the fault of this kind that the call raises."""
    try:
        call(*args, **words)
    except kind as fault:
        return str(fault)
    return "nothing"


def told(simulator, side, what):
    return [event for event in simulator.record if event.side == side and event.what == what]


def arithmetic():
    """A link that loses nothing: when each segment comes, from its bytes."""
    simulator = Simulator(rate=1e6, delay=(0.1, 0.05), client=CLIENT, server=SERVER)
    simulator.client.send(bytes(3000))
    simulator.run(until=2.0)
    # A SYN has 28 bytes, text 20 more than its own, an acknowledgement 20; IPv4's header has 20, and 1 Mbit/s is 8 us a byte.
    opened = 48 * 8e-6 + 0.1 + 48 * 8e-6 + 0.05
    comes = [opened + 1040 * 8e-6 * count + 0.1 for count in (1, 2, 3)]
    found = [event.time for event in told(simulator, "server", "arrived")]
    check([round(time, 9) for time in found], [round(time, 9) for time in [48 * 8e-6 + 0.1, *comes]])
    answers = [event.time for event in told(simulator, "client", "arrived")]
    check([round(time, 9) for time in answers], [round(time, 9) for time in [opened, *(time + 40 * 8e-6 + 0.05 for time in comes)]])
    check([event.segment.position for event in told(simulator, "client", "sent")], [0, 1, 1001, 2001])
    check([event.released for event in told(simulator, "client", "arrived")], [0, 1000, 2000, 3000])
    check([event.ordered for event in told(simulator, "server", "arrived")], [0, 1000, 2000, 3000])
    check([event.phase for event in told(simulator, "client", "phase")], [Phase.SYN_SENT, Phase.ESTABLISHED])
    check([event.phase for event in told(simulator, "server", "phase")], [Phase.LISTEN, Phase.SYN_RECEIVED, Phase.ESTABLISHED][-2:])
    first = told(simulator, "client", "sent")[0].segment
    check((first.seq, first.ack, first.flags, first.length, first.again), (1000, 0, "SYN", 0, False))
    check((simulator.server.received, simulator.now, told(simulator, "client", "timeout")), (bytes(3000), 2.0, []))


def closing():
    """The FINs, and four minutes of TIME-WAIT (RFC 9293, 3.4.2)."""
    simulator = Simulator(delay=0.01, client=CLIENT, server=SERVER)
    for side in simulator.sides:
        side.send(b"a line")
        side.close()
    simulator.run()
    check([side.received for side in simulator.sides], [b"a line", b"a line"])
    check([(side.phase, side.is_at_end) for side in simulator.sides], [(Phase.CLOSED, True)] * 2)
    check([side.connection.status().ending for side in simulator.sides], [Ending.ORDERLY] * 2)
    check({event.timer for side in simulator.sides for event in told(simulator, side.name, "timeout")}, {Timer.TIME_WAIT})
    check(240 < simulator.now < 241, True)
    check(simulator.step(), False)
    simulator = Simulator(delay=0.01, rules=Rules(time_wait=1.0))
    for side in simulator.sides:
        side.close()
    simulator.run()
    check(1 < simulator.now < 2, True)


def without_a_peer():
    """RFC 6298, 5.5, and RFC 9293, 3.8.3."""
    simulator = Simulator(loss=(1.0, 0.0))
    simulator.run()
    expired = [(event.time, event.timer) for event in told(simulator, "client", "timeout")]
    check(expired, [(float(at), Timer.RETRANSMIT) for at in (1, 3, 7, 15, 31, 63, 123)] + [(180.0, Timer.USER)])
    check([event.segment.again for event in told(simulator, "client", "lost")][:8], [False] + [True] * 7)
    check((simulator.client.phase, simulator.client.connection.status().ending), (Phase.CLOSED, Ending.ABORTED))


def queues():
    """Behind the segment that is being sent so many wait, and no more."""
    for queue in (0, 1, 5):
        simulator = Simulator(rate=1e6, delay=0.1, queue=(queue, None), client=CLIENT, server=SERVER)
        simulator.client.send(bytes(10_000))
        simulator.run(until=0.25)
        check([len(simulator.points("client", what)) for what in ("sent", "dropped", "lost")], [10, 10 - 1 - queue, 0])
        check({time for time, _ in simulator.points("client", "sent")}, {told(simulator, "client", "phase")[1].time})
        simulator.run(until=290.0)
        check(len(simulator.server.received), 10_000)


def jitters():
    """Each segment takes the delay, and up to the jitter more."""
    simulator = Simulator(delay=0.1, jitter=(0.05, 0.0), seed=1, client=CLIENT, server=SERVER)
    simulator.client.send(bytes(50_000))
    simulator.run(until=10.0)
    left = {}
    for event in told(simulator, "client", "sent"):
        left.setdefault(event.segment, []).append(event.time)
    took = [event.time - left[event.segment].pop(0) for event in told(simulator, "server", "arrived")]
    check(all(0.1 <= time <= 0.15 for time in took) and max(took) - min(took) > 0.03, True)
    took = [event.segment.position for event in told(simulator, "server", "arrived")]
    check((took != sorted(took), simulator.server.received), (True, bytes(50_000)))


def of_seed(seed):
    """A run over a link of any kind, with text both ways."""
    chance = random.Random(seed)
    queue = chance.choice((None, 5, 20))
    words = dict(delay=chance.choice((0.001, 0.05)), jitter=chance.choice((0, 0.01)), loss=(chance.choice((0, 0.1)), chance.choice((0, 0.2))))
    simulator = Simulator(chance.choice((None, 1e6, 1e8)), queue=queue, seed=seed, **words)
    texts = chance.randbytes(60_000), chance.randbytes(30_000)
    for side, text in zip(simulator.sides, texts):
        for at in range(0, len(text), 7000):
            side.send(text[at : at + 7000])
        side.close()
    simulator.run()
    return simulator, texts


def slow_link():
    """A segment takes longer than the least timeout: timers expire while what another one made due waits for the link."""
    simulator = Simulator(rate=5000, delay=0.01, loss=(0.1, 0.0), seed=2, client=CLIENT, server=SERVER)
    simulator.client.send(bytes(30_000))
    simulator.client.close()
    simulator.run(until=3000.0)
    check((len(simulator.server.received), simulator.server.is_at_end), (30_000, True))
    times = [time for time, _ in simulator.points("client", "sent")]
    check(all(after - before > 1040 * 8 / 5000 - 1e-9 for before, after in zip(times, times[1:])), True)


def all_comes():
    for seed in range(40):
        simulator, texts = of_seed(seed)
        check((bytes(simulator.server.received), bytes(simulator.client.received)), texts)
        check([(side.phase, side.is_at_end) for side in simulator.sides], [(Phase.CLOSED, True)] * 2)
        for side, other in (simulator.sides, simulator.sides[::-1]):
            sent, lost, dropped = (len(told(simulator, side.name, what)) for what in ("sent", "lost", "dropped"))
            check(sent, lost + dropped + len(told(simulator, other.name, "arrived")))
            check(simulator.record == sorted(simulator.record, key=lambda event: event.time), True)
        if seed < 5:
            check(of_seed(seed)[0].record, simulator.record)
    check(of_seed(1)[0].record == of_seed(2)[0].record, False)


def steps():
    """A user who acts between two steps: an answer to what came, and then an abort."""
    simulator = Simulator(rate=1e6, delay=0.01, client=CLIENT, server=SERVER)
    simulator.client.send(b"question")
    while simulator.step() and not simulator.client.received:
        if simulator.server.received == b"question" and not simulator.server.waiting and simulator.server.connection.status().queued == 0:
            simulator.server.send(b"answer")
    check(simulator.client.received, b"answer")
    simulator.client.abort()
    simulator.run()
    check([side.connection.status().ending for side in simulator.sides], [Ending.ABORTED, Ending.RESET])
    check("RST" in told(simulator, "server", "arrived")[-1].segment.flags, True)
    check(raised(Refused, simulator.client.abort), "the connection has ended")
    simulator.server.close()
    check(raised(ValueError, simulator.server.send, b"more"), "the server was closed")
    simulator.client.send(b"for nobody")
    simulator.run()
    check(simulator.client.received, b"answer")


def wrong():
    nan = float("nan")
    for words in ({"rate": 0}, {"rate": -1.0}, {"delay": -1}, {"jitter": nan}, {"loss": 1.5}, {"loss": (0, -1)}, {"queue": -1}, {"rate": nan}):
        check(raised(ValueError, Simulator, **words)[:11], "no link has")
    for words in ({"rate": "fast"}, {"loss": "x"}, {"queue": []}):
        check(raised(TypeError, Simulator, **words) != "nothing", True)
    check(raised(ValueError, Simulator, loss=(0, 0, 0)) != "nothing", True)
    check(raised(TypeError, Simulator().client.send, "text") != "nothing", True)


def pictures():
    """The picture of a run is the same each time, where matplotlib is."""
    if importlib.util.find_spec("matplotlib") is None:
        check(raised(ModuleNotFoundError, of_seed(3)[0].plot, "none.svg"), "No module named 'matplotlib'")
        return
    with tempfile.TemporaryDirectory() as folder:
        for count in (1, 2):
            of_seed(3)[0].plot(f"{folder}/{count}.svg")
        found = [open(f"{folder}/{count}.svg").read() for count in (1, 2)]
        check((found[0] == found[1], "sent again" in found[0] or len(found[0]) > 10_000), (True, True))


def packets_of(path):
    """The packets of a pcap file of raw IPv4 with microseconds: when each was seen, its addresses, and its segment."""
    file, found, at = open(path, "rb").read(), [], 24
    check(struct.unpack_from("<IHHiIII", file), (0xA1B2C3D4, 2, 4, 0, 0, 65_535, 101))
    while at < len(file):
        seconds, micros, length, whole = struct.unpack_from("<IIII", file, at)
        packet, at = file[at + 16 : at + 16 + length], at + 16 + length
        # RFC 791, 3.1: the sum over the header with its checksum is all ones.
        total = sum(struct.unpack(">10H", packet[:20]))
        check((whole, packet[0], packet[9], struct.unpack(">H", packet[2:4])[0], total % 0xFFFF), (length, 0x45, 6, length, 0))
        found.append((1_000_000 * seconds + micros, packet[12:16], packet[16:20], packet[20:]))
    return found


def policies():
    """What waits by a policy goes out once it is due, though no timer expires then, also where the link is busy."""
    simulator = Simulator(rate=1e6, delay=(0.1, 0.05), client=CLIENT, server=SERVER)
    simulator.server.connection.set_policy(Policy())
    simulator.client.send(bytes(100))
    simulator.run(until=2.0)
    came = told(simulator, "server", "arrived")[-1].time
    check(round(told(simulator, "server", "sent")[-1].time - came, 9), 0.04)
    check((simulator.server.received, told(simulator, "server", "timeout")), (bytes(100), []))
    # A segment of 1,040 bytes takes 0.832 s: the acknowledgement is due while the link is busy, and nothing is asked for without end.
    slow = Simulator(rate=1e4, delay=0.01, client=CLIENT, server=SERVER)
    for side in slow.sides:
        side.connection.set_policy(Policy())
        side.send(bytes(2500))
        side.close()
    slow.run()
    check((slow.client.received, slow.server.received), (bytes(2500), bytes(2500)))
    check({slow.client.phase, slow.server.phase}, {Phase.CLOSED})


def captures():
    """A capture has the segments of the record, when they were sent, or when each was at a side; and a lost one at the side that sent it."""
    simulator = of_seed(5)[0]
    addrs = {"client": bytes([10, 0, 0, 1]), "server": bytes([10, 0, 0, 2])}
    other = {"client": "server", "server": "client"}
    lost = [event for event in simulator.record if event.what == "lost"]
    check(len(lost) > 0, True)
    with tempfile.TemporaryDirectory() as folder:
        for at in (None, "client", "server"):
            simulator.save(f"{folder}/run.pcap", at)
            events = [event for event in simulator.record if event.what == "sent" or (at is not None and event.what == "arrived")]
            events = [event for event in events if at in (None, event.side)]
            found = packets_of(f"{folder}/run.pcap")
            check(len(found), len(events))
            for event, (micros, src, dst, data) in zip(events, found):
                sender = event.side if event.what == "sent" else other[event.side]
                numbers = struct.unpack(">II", data[4:12])
                check((micros, src, dst, numbers), (round(1e6 * event.time), addrs[sender], addrs[other[sender]], event.segment[:2]))
                check(len(data) - 4 * (data[12] >> 4), event.segment.length)


def main():
    arithmetic()
    closing()
    without_a_peer()
    queues()
    jitters()
    slow_link()
    all_comes()
    steps()
    wrong()
    pictures()
    policies()
    captures()
    print("simulations.py: passed")


if __name__ == "__main__":
    main()
