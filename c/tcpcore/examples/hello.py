"""The smallest program: one side connects and sends a line, the other listens and reads it. A network would carry the segments, and a clock
would tell the time, such as time.monotonic()."""

from tcpcore import Config, Connection

A, B = "10.0.0.1", "10.0.0.2"
now = 0.0


def carry(sender, src, receiver):
    """Delivers all that is due at one side to the other."""
    for dst, segment in sender.emit_all(now):
        receiver.arrive(now, src, dst, segment)


b = Connection.listen(now, Config(B, 2, 5000))
a = Connection.connect(now, Config(A, 1, 1000), B, 2)
a.emit_all(now)  # The SYN is lost:
now = a.poll_at()  # nothing happens before this time,
a.timeout(now)  # and then it is due again.
carry(a, A, b)  # SYN
carry(b, B, a)  # SYN,ACK
a.send(now, b"hello, peer\n")
carry(a, A, b)  # ACK, and the line
print(b.receive(now).decode(), end="")
