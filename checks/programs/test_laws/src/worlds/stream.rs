//! Two ends without a world, which would keep what they carry.
use std::alloc::Global;
use std::io;
use tcp_conn::{Config, ConfigError, EMIT_ROOM, Endpoint, MAX_LIMIT};
use tcp_wire::{Addr, Seq};

/// What a user writes or reads at once: the text of two segments, in bytes.
const PIECE: usize = 2048;

/// This many pieces are 8,388,608 bytes.
const PIECES: u32 = 4096;

fn new_end(alloc: Global, host: u8, isn: u32, limit: u64) -> Result<Endpoint, ConfigError> {
    let config = Config {
        mss: 1024,
        limit,
        ..Config::new(Addr([10, 0, 0, host]), u16::from(host), Seq(isn))
    };
    Endpoint::new(alloc, config)
}

/// Carries the segment that is due, if one is.
fn carry(from: &mut Endpoint, to: &mut Endpoint) {
    let mut room = [0; EMIT_ROOM];
    if let Some((dst, len)) = from.emit(&mut room) {
        let src = from.config().addr;
        to.arrive(src, dst, &room[..len]);
    }
}

/// Two ends, A's to send to B's.
fn new_ends(alloc: Global, isn: u32, limit: u64) -> Result<(Endpoint, Endpoint), ConfigError> {
    let mut a = new_end(alloc, 1, isn, limit)?;
    let mut b = new_end(alloc, 2, 5000, MAX_LIMIT)?;
    let _ = b.listen();
    let _ = a.connect(Addr([10, 0, 0, 2]), 2);
    carry(&mut a, &mut b);
    carry(&mut b, &mut a);
    carry(&mut a, &mut b);
    Ok((a, b))
}

/// Prints how an end of this limit is refused, or made.
fn print_limit(rt: &(impl Print + AllocGlobal), limit: u64) -> io::Result<()> {
    match new_end(rt.alloc(), 1, 1000, limit) {
        Ok(_) => println!(rt; "limit {limit}: made"),
        Err(fault) => {
            let number = fault.number();
            println!(rt; "limit {limit}: {number}")
        }
    }
}

fn print_send(rt: &impl Print, end: &mut Endpoint, text: &[u8]) -> io::Result<()> {
    match end.send(text) {
        Ok(count) => println!(rt; "took {count}"),
        Err(refusal) => {
            let number = refusal.number();
            println!(rt; "refused {number}")
        }
    }
}

/// Prints which limits are refused, and what a stream of two bytes takes.
pub(crate) fn print_limits(rt: &(impl Print + AllocGlobal)) -> io::Result<()> {
    print_limit(rt, 0)?;
    print_limit(rt, 1)?;
    print_limit(rt, MAX_LIMIT)?;
    print_limit(rt, MAX_LIMIT + 1)?;
    let Ok((mut a, _b)) = new_ends(rt.alloc(), 1000, 2) else {
        return println!(rt; "no memory");
    };
    print_send(rt, &mut a, b"abc")?;
    print_send(rt, &mut a, b"c")?;
    print_send(rt, &mut a, b"")
}

/// The bytes of a stream in order, which nothing keeps.
#[derive(Drop)]
struct Stream {
    state: u32,
}

impl Stream {
    fn next(&mut self) -> u8 {
        self.state = self
            .state
            .wrapping_mul(1_664_525)
            .wrapping_add(1_013_904_223);
        (self.state >> 24) as u8
    }

    fn fill(&mut self, text: &mut [u8; PIECE]) {
        for byte in text.iter_mut() {
            *byte = self.next();
        }
    }

    /// How many of these bytes are the next of the stream.
    fn count_right(&mut self, text: &[u8; PIECE]) -> u32 {
        let mut count: u32 = 0;
        for byte in text.iter() {
            let wanted = self.next();
            count = count.wrapping_add(u32::from(*byte == wanted));
        }
        count
    }
}

/// Moves a piece from A's user to B's, and returns how many of its bytes came as they were sent.
fn move_piece(a: &mut Endpoint, b: &mut Endpoint, sent: &mut Stream, wanted: &mut Stream) -> u32 {
    let mut text = [0; PIECE];
    sent.fill(&mut text);
    let _ = a.send(&text);
    carry(a, b);
    carry(a, b);
    let mut read = [0; PIECE];
    let _ = b.receive(&mut read);
    carry(b, a);
    wanted.count_right(&read)
}

/// Carries 8,388,608 bytes over the end of the sequence numbers, and prints how many came as they were sent.
pub(crate) fn print_transfer(rt: &(impl Print + AllocGlobal)) -> io::Result<()> {
    let Ok((mut a, mut b)) = new_ends(rt.alloc(), 4_290_772_992, MAX_LIMIT) else {
        return println!(rt; "no memory");
    };
    let mut sent = Stream { state: 1 };
    let mut wanted = Stream { state: 1 };
    let mut right: u32 = 0;
    for _ in 0..PIECES {
        right = right.wrapping_add(move_piece(&mut a, &mut b, &mut sent, &mut wanted));
    }
    let una = a.snd_una();
    let next = b.rcv_position();
    println!(rt; "{right} bytes came as they were sent, up to position {una} of {next}")
}
