"""One connection between our end and the kernel: the loop over wire, timers and users, and how both sides are compared."""

import os
import select
import struct
import time

import kernel as kernel_side
from host import LOSSY, QUIET, Host, Traffic
from kernel import Kernel
from tcpcore import NOT_MINE, Config
from wire import KERNEL, OURS, Relay, ip_packet, segment_of, set_route

# Of ss, the words of RFC 9293.
STATES = {"ESTAB": "ESTABLISHED", "SYN-RECV": "SYN-RECEIVED", "none": "CLOSED"}


class Failed(Exception):
    """A case found something else than it wants."""


class Lab:
    """What all cases share: the device, the class of ends, and the next port."""

    def __init__(self, tun, end_class, small):
        self.tun, self.end_class, self.small = tun, end_class, small
        self.port = 5000


class Session:
    """`ours` and `theirs` are the traffic of our user and of the kernel's; `wire` is what the relay does, `route` words of the
    kernel's route to our end."""

    def __init__(self, lab, ours=None, theirs=None, capacity=65536, shift=None, sack=True, mss=1460, wire=None, route=()):
        self.lab, self.lossy = lab, bool(wire)
        self.config = Config(OURS, lab.port, -5000 % (1 << 32), mss, capacity, capacity, shift, sack)
        self.port, self.kernel_port = lab.port, lab.port + 1
        lab.port += 2
        self.relay = Relay(lab.port, **(wire or {}))
        self.host = Host(lab.end_class(self.config), self.relay, ours or Traffic(), LOSSY if wire else QUIET)
        self.end = self.host.end
        self.theirs = theirs or Traffic()
        self.kernel = self.listener = None
        self.note = ""
        lab.session = self
        self.drain()
        # The kernel takes its backoff back only behind a round trip that it could measure (RFC 6298, 3), which a lossy wire may
        # keep from it for minutes: there its timeouts begin at 20 ms (and none is above a second: see live.py).
        set_route(*(("rto_min", "20ms") if wire else ()), *route)

    def drain(self):
        """Drops what the connections before this one left on the device."""
        while True:
            try:
                os.read(self.lab.tun, 65535)
            except BlockingIOError:
                return

    # ---- opening

    def connect(self, receive_buffer=None):
        """Our end connects to a server of the kernel's."""
        self.listener = kernel_side.listen(self.kernel_port, receive_buffer)
        self.end.connect(KERNEL, self.kernel_port)
        self.host.turn()
        self.run(self.accepts, "the kernel accepts")
        self.agree("ESTABLISHED", "ESTABLISHED")
        self.check_options()

    def accepts(self):
        try:
            sock, _ = self.listener.accept()
        except BlockingIOError:
            return False
        sock.setblocking(False)
        self.kernel = Kernel(sock, self.theirs)
        return True

    def listen(self):
        """A client of the kernel's connects to our end."""
        self.end.listen()
        sock = kernel_side.connect(self.port, self.kernel_port)
        self.kernel = Kernel(sock, self.theirs)
        self.agree("ESTABLISHED", "ESTABLISHED")
        self.check_options()

    def open(self, opener):
        self.connect() if opener == "ours" else self.listen()

    def scales(self):
        """Whether both sides offer to scale windows."""
        return self.config.window_shift is not None and kernel_side.allows("window_scaling")

    def check_options(self):
        """The kernel uses the options that our config and its own settings offer."""
        sack = self.config.sack and kernel_side.allows("sack")
        wanted = self.scales() * kernel_side.WINDOW_SCALE + sack * kernel_side.SACK
        self.expect("options in use", self.kernel.options(), wanted)

    # ---- the loop

    def run(self, until, what, limit=60.0):
        """Goes on until `until()` holds. A machine that stood still in between doesn't use the limit up."""
        last, spent = time.monotonic(), 0.0
        while not until():
            now = time.monotonic()
            last, spent = now, spent + min(now - last, 1.0)
            if spent > limit:
                raise Failed(f"not within {limit:g} s: {what}; {self.phases()}")
            self.step()

    def rest(self, seconds):
        """Goes on for so long."""
        stop = time.monotonic() + seconds
        self.run(lambda: time.monotonic() > stop, "time passes", seconds + 5)

    def step(self):
        self.wait()
        self.read_device()
        for src, dst, segment in self.relay.arrivals():
            if dst == OURS:
                self.host.arrive(src, dst, segment)
            else:
                os.write(self.lab.tun, ip_packet(src, dst, segment))
        if self.kernel is not None:
            self.kernel.turn()
        self.host.tick()

    def wait(self):
        """Sleeps until something can move."""
        waits = [span for span in (self.host.timers.wait(), self.relay.wait()) if span is not None]
        readers, writers = [self.lab.tun], []
        if self.kernel is not None and self.kernel.is_open():
            readers += [self.kernel.sock] * self.kernel.wants_to_read()
            writers += [self.kernel.sock] * self.kernel.wants_to_write()
        select.select(readers, writers, [], min(waits + [0.02]))

    def read_device(self):
        """Takes what the kernel sent, but no more than a hundred packets at once."""
        for _ in range(100):
            try:
                packet = os.read(self.lab.tun, 65535)
            except BlockingIOError:
                return
            found = segment_of(packet)
            if found is not None and found[2][:4] == struct.pack(">HH", self.kernel_port, self.port):
                self.relay.take(*found)
            elif found is not None:
                # Of a connection before this one.
                self.expect("the answer to another connection's segment", self.end.arrive(*found), NOT_MINE)

    # ---- comparing

    def phases(self):
        state, details = self.kernel_state(), kernel_side.details(self.port, self.kernel_port)
        return f"ours {self.end.status()}, timers {self.host.timers.deadlines}, the kernel's {state}: {details}"

    def kernel_state(self):
        state = kernel_side.state(self.port, self.kernel_port)
        return STATES.get(state, state)

    def expect(self, what, found, wanted):
        if found != wanted:
            raise Failed(f"{what}: {found}, not {wanted}")

    def agree(self, ours, kernels, limit=15.0):
        """Goes on until our phase and the state that ss tells are these."""
        self.run(lambda: self.end.status().phase == ours and self.kernel_state() == kernels, f"{ours} and {kernels}", limit)

    def ended(self, ending):
        """Our end is CLOSED and ended so."""
        self.run(lambda: self.end.status().phase == "CLOSED", "our end is CLOSED")
        self.expect("ending", self.end.status().ending, ending)

    def check_window(self):
        """With nothing unread the kernel knows our whole window, in the units that the shift leaves."""
        shift = self.config.window_shift if self.scales() else 0
        whole = min(65535, self.config.recv_capacity >> shift) << shift
        known = (whole, None)
        self.run(lambda: kernel_side.send_window(self.port, self.kernel_port) in known, f"the kernel knows {whole}", 5)

    def carried(self):
        """Whether each user sent all and was handed all, and our end knows it."""
        status = self.end.status()
        if status.phase == "CLOSED" or self.kernel.error is not None:
            raise Failed(f"the connection ended too early: {self.kernel.error}; {self.phases()}")
        counts = status.released, status.ordered
        return self.host.traffic.done() and self.theirs.done() and counts == (self.theirs.got, self.theirs.sent)

    # ---- closing

    def close_first(self, first):
        """An orderly close that begins on this side."""
        (self.close_ours_first if first == "ours" else self.close_kernel_first)()

    def close_ours_first(self):
        self.end.close()
        self.host.turn()
        self.run(lambda: self.theirs.ended, "the kernel's user is told the end")
        self.agree("FIN-WAIT-2", "CLOSE-WAIT")
        self.kernel.close()
        if self.lossy:
            return self.leave_time_wait()
        self.agree("TIME-WAIT", "CLOSED")
        self.ended("orderly")

    def leave_time_wait(self):
        """TIME-WAIT and then CLOSED. A late segment of ours may find no connection at the kernel any more: its reset then ends
        TIME-WAIT (RFC 9293, 3.10.7.4; RFC 1337, 2)."""
        self.run(lambda: self.end.status().phase == "CLOSED", "our end is CLOSED")
        self.expect("our phases", self.host.path[-2:], ["TIME-WAIT", "CLOSED"])
        if self.end.status().ending != "orderly":
            self.expect("ending", self.end.status().ending, "reset")
            self.note = "the kernel's reset ended TIME-WAIT"
        self.agree("CLOSED", "CLOSED")

    def close_kernel_first(self):
        self.kernel.shut_writing()
        self.run(lambda: self.host.traffic.ended, "our user is told the end")
        self.agree("CLOSE-WAIT", "FIN-WAIT-2")
        self.end.close()
        self.host.turn()
        self.agree("CLOSED", "TIME-WAIT")
        self.ended("orderly")

    def free(self):
        """Frees both sides, without another word on the wire."""
        self.end.free()
        if self.kernel is not None:
            self.kernel.close()
        if self.listener is not None:
            self.listener.close()
