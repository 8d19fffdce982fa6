//! A client sends a file to a server, over UDP sockets of the loopback that lose each tenth datagram: `cargo run --example connection
//! FILE`. A datagram has a segment; IPv4's protocol 6 would need root.
use std::{env, fs, net::UdpSocket, thread, time::Duration};
use tcpcore::{Addr, Clock, Config, Connection, Received, Rules, EMIT_ROOM};

type Fault = Box<dyn std::error::Error + Send + Sync>;
const CLIENT: Addr = [127, 0, 0, 1];
const SERVER: Addr = [127, 0, 0, 2];

/// Carries a connection to its end: sends all of the text and closes, and answers what came, and how many segments were sent.
fn run(mut it: Connection, socket: UdpSocket, (own, peer): (Addr, Addr), clock: Clock, mut text: &[u8]) -> Result<(Vec<u8>, u32), Fault> {
    let (mut room, mut bytes, mut got, mut count, mut is_closing) = ([0; EMIT_ROOM], [0; 65_535], vec![], 0, false);
    loop {
        let now = clock.now();
        text = it.send(now, text).map_or(text, |taken| &text[taken..]);
        while let Ok(Received::Bytes(length)) = it.receive(now, &mut bytes) {
            got.extend(&bytes[..length]);
        }
        if text.is_empty() && it.status().agreed.is_some() && !is_closing {
            it.close(now)?;
            is_closing = true;
        }
        while let Some(segment) = it.poll_transmit(now, &mut room) {
            count += 1;
            if count % 10 > 0 {
                // What the socket refuses is lost, too.
                socket.send(segment.bytes).ok();
            }
        }
        if it.is_closed() {
            return Ok((got, count));
        }
        let wait = it.poll_timeout().map(|at| clock.until(at).max(Duration::from_millis(1)));
        socket.set_read_timeout(wait)?;
        if let Ok(length) = socket.recv(&mut bytes) {
            it.handle_segment(clock.now(), peer, own, &bytes[..length])?;
        }
        it.handle_timeout(clock.now());
    }
}

fn main() -> Result<(), Fault> {
    let file = env::args().nth(1).unwrap_or_else(|| file!().into());
    let (text, clock) = (fs::read(&file)?, Clock::start());
    let (here, there) = (UdpSocket::bind("127.0.0.1:0")?, UdpSocket::bind("127.0.0.1:0")?);
    here.connect(there.local_addr()?)?;
    there.connect(here.local_addr()?)?;
    // On the loopback segments live for a short time.
    let rules = Rules::new().least(Duration::from_millis(50)).time_wait(Duration::from_secs(1));
    let server = Connection::listen(&Config::new(SERVER, 7, 5000), &rules, clock.now())?;
    let client = Connection::connect(&Config::new(CLIENT, 7, 1000), &rules, (SERVER, 7), clock.now())?;
    let serving = thread::spawn(move || run(server, there, (SERVER, CLIENT), clock, &[]));
    let (_, segments) = run(client, here, (CLIENT, SERVER), clock, &text)?;
    assert_eq!(serving.join().expect("no panic")?.0, text);
    println!("{file}: {} bytes came as they were sent, in {segments} segments", text.len());
    Ok(())
}
