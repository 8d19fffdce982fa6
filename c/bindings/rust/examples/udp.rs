//! Two ends carry a file over UDP sockets of the loopback, each in a thread of its own: `cargo run --example udp [FILE]`. One datagram in
//! ten is lost on the way. A datagram has a segment; IPv4's protocol 6 would need root.
use std::net::UdpSocket;
use std::time::{Duration, Instant};
use tcpcore::{Addr, Arrival, Boxed, Config, Ending, Phase, Received, Timer, EMIT_ROOM};

type Fault = Box<dyn std::error::Error + Send + Sync>;

/// One end with its socket and its times.
struct Host {
    end: Boxed,
    socket: UdpSocket,
    addr: Addr,
    peer: Addr,
    /// When each timer runs out, if it runs.
    deadlines: [Option<Instant>; 3],
    sent: u32,
}

const TIMERS: [(Timer, Duration); 3] = [
    (Timer::Retransmit, Duration::from_millis(200)),
    (Timer::Reorder, Duration::from_millis(5)),
    // Two lifetimes of a segment: on the loopback they are short.
    (Timer::TimeWait, Duration::from_millis(500)),
];

impl Host {
    fn new(addr: Addr, peer: Addr, socket: UdpSocket) -> Result<Host, Fault> {
        socket.set_read_timeout(Some(Duration::from_millis(2)))?;
        let end = Boxed::new(&Config::new(addr, 7, 1000))?;
        Ok(Host { end, socket, addr, peer, deadlines: [None; 3], sent: 0 })
    }

    /// Sends what is due, but each tenth segment.
    fn emit(&mut self) -> Result<(), Fault> {
        let mut room = [0; EMIT_ROOM];
        while let Some((_, segment)) = self.end.emit(&mut room) {
            self.sent += 1;
            if self.sent % 10 != 0 {
                self.socket.send(segment)?;
            }
        }
        Ok(())
    }

    /// Waits a little for a segment, and keeps the times.
    fn turn(&mut self) -> Result<(), Fault> {
        let mut datagram = [0; 65_535];
        if let Ok(length) = self.socket.recv(&mut datagram) {
            if let (Arrival::Malformed(fault), _) = self.end.arrive(self.peer, self.addr, &datagram[..length]) {
                return Err(fault.into());
            }
        }
        let now = Instant::now();
        let runs = self.end.timers();
        for (at, runs) in [runs.retransmit, runs.reorder, runs.time_wait].into_iter().enumerate() {
            let (timer, time) = TIMERS[at];
            self.deadlines[at] = match self.deadlines[at] {
                _ if !runs => None,
                Some(deadline) if now < deadline => Some(deadline),
                Some(_) => {
                    self.end.timer(timer);
                    Some(now + time)
                }
                None => Some(now + time),
            };
        }
        self.emit()
    }
}

/// Sends all, and closes.
fn send(mut host: Host, bytes: &[u8]) -> Result<u32, Fault> {
    let mut left = bytes;
    host.end.connect(host.peer, 7)?;
    host.emit()?;
    while host.end.status().ending == Ending::NotEnded || host.end.status().phase == Phase::TimeWait {
        if host.end.status().phase == Phase::Established {
            left = &left[host.end.send(left)?..];
            if left.is_empty() {
                host.end.close()?;
            }
        }
        host.turn()?;
    }
    Ok(host.sent)
}

/// Takes all, up to the end of the stream, and closes.
fn receive(mut host: Host) -> Result<Vec<u8>, Fault> {
    let (mut got, mut out) = (vec![], [0; 4096]);
    host.end.listen()?;
    while host.end.status().ending == Ending::NotEnded {
        host.turn()?;
        loop {
            match host.end.receive(&mut out)? {
                Received::Bytes(count) => got.extend(&out[..count]),
                Received::Nothing => break,
                Received::EndOfStream => {
                    host.end.close().ok();
                    break;
                }
            }
        }
        host.emit()?;
    }
    Ok(got)
}

fn main() -> Result<(), Fault> {
    let file = std::env::args().nth(1).unwrap_or_else(|| file!().into());
    let bytes = std::fs::read(&file)?;
    let (here, there) = (UdpSocket::bind("127.0.0.1:0")?, UdpSocket::bind("127.0.0.1:0")?);
    here.connect(there.local_addr()?)?;
    there.connect(here.local_addr()?)?;
    let receiver = Host::new([127, 0, 0, 2], [127, 0, 0, 1], there)?;
    let sender = Host::new([127, 0, 0, 1], [127, 0, 0, 2], here)?;
    let taking = std::thread::spawn(move || receive(receiver));
    let segments = send(sender, &bytes)?;
    let got = taking.join().expect("no panic")?;
    assert_eq!(got, bytes);
    println!("{file}: {} bytes came as they were sent, in {segments} segments", got.len());
    Ok(())
}
