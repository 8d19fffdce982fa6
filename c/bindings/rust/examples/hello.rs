//! The smallest program: one side connects and sends a line, the other listens and reads it. A network would carry the segments, and a
//! [`tcpcore::Clock`] would tell the time.
use tcpcore::{Addr, Config, Connection, Error, Received, Rules, Time, EMIT_ROOM};

const A: Addr = [10, 0, 0, 1];
const B: Addr = [10, 0, 0, 2];

/// Delivers all that is due at one side to the other.
fn carry(now: Time, from: &mut Connection, src: Addr, to: &mut Connection) {
    let mut room = [0; EMIT_ROOM];
    while let Some(segment) = from.poll_transmit(now, &mut room) {
        to.handle_segment(now, src, segment.to, segment.bytes).ok();
    }
}

fn main() -> Result<(), Error> {
    let mut now = Time::ZERO;
    let mut b = Connection::listen(&Config::new(B, 2, 5000), &Rules::new(), now)?;
    let mut a = Connection::connect(&Config::new(A, 1, 1000), &Rules::new(), (B, 2), now)?;
    a.poll_transmit(now, &mut [0; EMIT_ROOM]); // The SYN is lost:
    now = a.poll_timeout().unwrap_or(now); // nothing happens before this time,
    a.handle_timeout(now); // and then it is due again.
    carry(now, &mut a, A, &mut b); // SYN
    carry(now, &mut b, B, &mut a); // SYN,ACK
    a.send(now, b"hello, peer\n")?;
    carry(now, &mut a, A, &mut b); // ACK, and the line
    let mut line = [0; 64];
    if let Received::Bytes(count) = b.receive(now, &mut line)? {
        print!("{}", String::from_utf8_lossy(&line[..count]));
    }
    Ok(())
}
