//! handed MODE COUNT in Rust: COUNT bursts of in_order or one_byte, as bench/handed.c moves them in C.
use std::process::ExitCode;
use tcpcore::{Boxed, Config, EMIT_ROOM, LIMIT};

const A: [u8; 4] = [10, 0, 0, 1];
const B: [u8; 4] = [10, 0, 0, 2];
const PIECE: usize = 2 * 1460;
const CAPACITY: usize = 65536;

fn made(addr: [u8; 4], port: u16) -> Boxed {
    let config = Config::new(addr, port, 1000).capacities(CAPACITY, CAPACITY).window_shift(Some(5)).limit(LIMIT << 30);
    Boxed::new(&config).expect("the config is right")
}

fn carry(from: &mut Boxed, src: [u8; 4], to: &mut Boxed) {
    let mut room = [0; EMIT_ROOM];
    if let Some((dst, segment)) = from.emit(&mut room) {
        to.arrive(src, dst, segment);
    }
}

fn burst(a: &mut Boxed, b: &mut Boxed, text: &[u8], read: &mut [u8]) {
    let is_of_bytes = text.len() == 2;
    if !is_of_bytes {
        a.send(text).expect("it is open");
    }
    for _ in 0..2 {
        if is_of_bytes {
            a.send(&text[..1]).expect("it is open");
        }
        carry(a, A, b);
    }
    carry(b, B, a);
    b.receive(&mut read[..text.len()]).expect("it is open");
}

fn main() -> ExitCode {
    let words: Vec<String> = std::env::args().collect();
    let text = [b'a'; PIECE];
    let text = if words[1] == "one_byte" { &text[..2] } else { &text[..] };
    let count: u64 = words[2].parse().expect("a count");
    let (mut a, mut b) = (made(A, 1), made(B, 2));
    b.listen().expect("it is new");
    a.connect(B, 2).expect("it is new");
    carry(&mut a, A, &mut b);
    carry(&mut b, B, &mut a);
    carry(&mut a, A, &mut b);
    let mut read = [0; PIECE];
    for _ in 0..count {
        burst(&mut a, &mut b, text, &mut read);
    }
    ExitCode::from(u8::from(a.status().released != count * text.len() as u64))
}
