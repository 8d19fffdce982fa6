"""What is run against the kernel. Each case is a function of the lab: it raises where something differs, else answers its session."""

import random

import kernel as kernel_side
from host import Traffic
from session import Session
from wire import KERNEL, OURS, set_kernel

HARM = {"lost": 0.05, "doubled": 0.05, "late": 0.05}
CAPACITIES = ((4096, 2), (65536, 3), (1 << 20, 6))


def text(size, seed=9):
    return random.Random(seed).randbytes(size)


def echo(lab, size, opener="ours", first="ours", **how):
    """The side that opens sends, the other one sends back what it is handed; then an orderly close."""
    size = lab.small or size
    sent = text(size)
    sender, echoer = Traffic(sent, sent), Traffic(sent, sent, echoes=True)
    ours, theirs = (sender, echoer) if opener == "ours" else (echoer, sender)
    session = Session(lab, ours, theirs, **how)
    session.open(opener)
    session.run(session.carried, "all bytes both ways", 100)
    session.check_window()
    session.close_first(first)
    return session


def both_ways(lab, size, opener="ours", first="ours", **how):
    """Both sides send at once."""
    size = lab.small or size
    there, back = text(size, 1), text(size, 2)
    session = Session(lab, Traffic(there, back), Traffic(back, there), **how)
    session.open(opener)
    session.run(session.carried, "all bytes both ways", 100)
    session.check_window()
    session.close_first(first)
    return session


def lossy(lab, size, first, **how):
    """The same on a wire that loses, doubles and delays 5 percent each, both ways."""
    session = both_ways(lab, size, first=first, wire=HARM, **how)
    fates = session.relay.fates
    session.expect("kinds of harm on the wire", min(fates["lost"], fates["doubled"], fates["late"]) > 0, True)
    return session


def with_kernel_setting(lab, name, value, usual, case):
    """The same with another setting of the kernel's."""
    set_kernel(name, value)
    try:
        return case(lab)
    finally:
        set_kernel(name, usual)


def small_segments(lab, size, ours, kernels):
    """No text is longer than either side's maximum segment size allows."""
    session = both_ways(lab, size, mss=ours, route=("advmss", str(kernels)))
    longest = [session.relay.sides[side].longest for side in (OURS, KERNEL)]
    session.expect("longest texts", longest, [min(ours, kernels), ours])
    return session


def kernel_keeps_alive(lab):
    """Nothing is said for a while: our end answers the kernel's probes (RFC 9293, 3.8.4)."""
    session = Session(lab)
    session.connect()
    session.kernel.keep_alive(1, 1, 1)
    before = session.relay.sides[KERNEL].segments
    session.rest(2.5)
    session.expect("probes", session.relay.sides[KERNEL].segments > before, True)
    session.agree("ESTABLISHED", "ESTABLISHED")
    session.close_first("kernel")
    return session


def kernel_closes_half(lab):
    """The kernel's user has no more to send (SHUT_WR) and reads on; only then our user sends."""
    sent = text(lab.small or 300_000)
    session = Session(lab, Traffic(), Traffic(b"", sent))
    session.connect()
    session.kernel.shut_writing()
    session.run(lambda: session.host.traffic.ended, "our user is told the end")
    session.agree("CLOSE-WAIT", "FIN-WAIT-2")
    session.host.traffic.outgoing = sent
    session.host.turn()
    session.run(session.carried, "all bytes of the open half")
    session.end.close()
    session.host.turn()
    session.agree("CLOSED", "TIME-WAIT")
    session.ended("orderly")
    return session


def ours_closes_half(lab):
    """Our user has no more to send and reads on; only then the kernel's user sends."""
    sent = text(lab.small or 300_000)
    session = Session(lab, Traffic(b"", sent), Traffic())
    session.listen()
    session.end.close()
    session.host.turn()
    session.run(lambda: session.theirs.ended, "the kernel's user is told the end")
    session.agree("FIN-WAIT-2", "CLOSE-WAIT")
    session.theirs.outgoing = sent
    session.run(session.carried, "all bytes of the open half")
    session.kernel.close()
    session.agree("TIME-WAIT", "CLOSED")
    session.ended("orderly")
    return session


def both_close_at_once(lab):
    """Both FINs are on the wire before either arrives: CLOSING on both sides."""
    session = Session(lab)
    session.connect()
    session.relay.held = True
    session.end.close()
    session.kernel.shut_writing()
    session.host.turn()
    session.agree("FIN-WAIT-1", "FIN-WAIT-1")
    session.relay.held = False
    session.agree("TIME-WAIT", "TIME-WAIT")
    session.expect("our phases", session.host.path[-3:], ["FIN-WAIT-1", "CLOSING", "TIME-WAIT"])
    session.ended("orderly")
    return session


def kernel_resets(lab, opener):
    """The kernel closes without lingering, with bytes under way that our user hasn't read."""
    sent = text(10_000)
    session = Session(lab, Traffic(b"", sent), Traffic(sent, b""))
    session.host.traffic.reads = False
    session.open(opener)
    session.run(lambda: session.end.status().unread == len(sent), "all bytes wait")
    session.kernel.close_with_reset()
    session.ended("reset")
    session.expect("unread bytes", session.end.status().unread, 0)
    session.agree("CLOSED", "CLOSED")
    return session


def ours_resets(lab, opener):
    """Our user aborts: the kernel's user is told that the connection was reset."""
    session = Session(lab, Traffic(), Traffic())
    session.open(opener)
    session.end.abort()
    session.host.turn()
    session.run(lambda: session.kernel.error is not None, "the kernel's user is told")
    session.expect("the kernel's error", type(session.kernel.error), ConnectionResetError)
    session.agree("CLOSED", "CLOSED")
    session.ended("aborted")
    return session


def kernel_refuses(lab):
    """No server listens: the kernel's reset ends the connection."""
    session = Session(lab)
    session.end.connect(KERNEL, session.kernel_port)
    session.host.turn()
    session.ended("reset")
    session.agree("CLOSED", "CLOSED")
    return session


def ours_refuses(lab):
    """Our end isn't open: its reset refuses the kernel's client."""
    session = Session(lab)
    session.kernel = kernel_side.Kernel(kernel_side.connect(session.port, session.kernel_port), session.theirs)
    session.run(lambda: session.kernel.error is not None, "the kernel's user is told")
    session.expect("the kernel's error", type(session.kernel.error), ConnectionRefusedError)
    session.agree("CLOSED", "CLOSED")
    return session


def wait_for_probes(session, side):
    """With the other side's window shut this one asks again and again."""
    before = session.relay.sides[side].segments
    session.rest(1.0)
    session.run(lambda: session.relay.sides[side].segments >= before + 2, "two probes", 10)


def our_user_reads_late(lab):
    """Our user reads nothing: the kernel fills our window and probes it. Then our user reads all, and the segment that tells so is
    lost: the kernel's next probe finds the window open."""
    sent = text(300_000)
    session = Session(lab, Traffic(b"", sent), Traffic(sent, b""))
    session.host.traffic.reads = False
    session.connect()
    capacity = session.config.recv_capacity
    session.run(lambda: session.end.status().unread == capacity, "our window is full")
    wait_for_probes(session, KERNEL)
    session.expect("unread bytes", session.end.status().unread, capacity)
    session.host.traffic.reads = True
    session.relay.muted = OURS
    session.host.turn()
    session.relay.muted = None
    session.run(session.carried, "all bytes behind the zero window")
    session.close_first("kernel")
    return session


def kernel_user_reads_late(lab):
    """The kernel's user reads nothing: its window shuts and our end probes it. Then the kernel's user reads all, and what tells so
    is lost: our end's next probe finds the window open."""
    sent = text(300_000)
    session = Session(lab, Traffic(sent, b""), Traffic(b"", sent))
    session.theirs.reads = False
    session.connect(receive_buffer=8192)
    session.run(lambda: session.relay.sides[KERNEL].window == 0, "the kernel's window is shut")
    wait_for_probes(session, OURS)
    session.expect("the kernel's window", session.relay.sides[KERNEL].window, 0)
    session.theirs.reads = True
    session.relay.muted = KERNEL
    session.rest(0.1)
    session.relay.muted = None
    session.run(session.carried, "all bytes behind the zero window")
    session.close_first("ours")
    return session


def sized(capacity, shift, sack):
    scaling = "scaled" if shift is not None else "plain"
    return f"{capacity >> 10} KiB, {scaling}, {'SACK' if sack else 'no SACK'}"


def all_cases():
    """Name and function of each case."""
    cases = [
        ("echo, our end connects", lambda lab: echo(lab, 10_000_000, capacity=1 << 20, shift=6)),
        ("echo, the kernel connects", lambda lab: echo(lab, 10_000_000, "kernel", "kernel", capacity=1 << 20, shift=6)),
        ("echo, 64 KiB", lambda lab: echo(lab, 10_000_000, first="kernel")),
    ]
    for capacity, shift in CAPACITIES:
        for scale in (shift, None):
            for sack in (True, False):
                how = {"capacity": capacity, "shift": scale, "sack": sack}
                name = sized(**how)
                # Each side closes first in half of the lossy cases.
                first = "ours" if sack else "kernel"
                cases.append((f"both ways, {name}", lambda lab, how=how: both_ways(lab, 1_000_000, "kernel", **how)))
                cases.append((f"lossy, {name}", lambda lab, how=how, first=first: lossy(lab, 1_000_000, first, **how)))
    return cases + [
        ("lossy echo, the kernel connects", lambda lab: echo(lab, 1_000_000, "kernel", "kernel", wire=HARM, shift=3)),
        ("3 % damaged", lambda lab: both_ways(lab, 300_000, wire={"damaged": 0.03})),
        ("the kernel without SACK", lambda lab: with_kernel_setting(lab, "tcp_sack", 0, 1, lambda lab: echo(lab, 300_000))),
        (
            "the kernel without scaling",
            lambda lab: with_kernel_setting(lab, "tcp_window_scaling", 0, 1, lambda lab: echo(lab, 300_000, shift=6)),
        ),
        (
            "the kernel offers ECN",
            lambda lab: with_kernel_setting(lab, "tcp_ecn", 1, 2, lambda lab: echo(lab, 300_000, "kernel")),
        ),
        ("segments of 64 bytes", lambda lab: small_segments(lab, 100_000, 64, 1460)),
        ("the kernel's segments of 536 bytes", lambda lab: small_segments(lab, 100_000, 1460, 536)),
        ("the kernel keeps alive", kernel_keeps_alive),
        ("our end closes first", lambda lab: echo(lab, 1000, "kernel", "ours")),
        ("the kernel closes first", lambda lab: echo(lab, 1000, "ours", "kernel")),
        ("both close at once", both_close_at_once),
        ("the kernel closes half", kernel_closes_half),
        ("our end closes half", ours_closes_half),
        ("the kernel resets, it connected", lambda lab: kernel_resets(lab, "kernel")),
        ("the kernel resets, we connected", lambda lab: kernel_resets(lab, "ours")),
        ("our end resets, it connected", lambda lab: ours_resets(lab, "ours")),
        ("our end resets, the kernel connected", lambda lab: ours_resets(lab, "kernel")),
        ("no server at the kernel", kernel_refuses),
        ("our end isn't open", ours_refuses),
        ("our user reads late", our_user_reads_late),
        ("the kernel's user reads late", kernel_user_reads_late),
    ]
