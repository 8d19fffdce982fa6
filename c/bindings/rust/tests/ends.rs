//! Two ends over a wire that loses segments; what is refused; memory.
use std::error::Error as _;
use std::mem::MaybeUninit;
use tcpcore::*;

const A: Addr = [10, 0, 0, 1];
const B: Addr = [10, 0, 0, 2];

/// A wire that loses each third segment or so.
struct Wire(u32);

impl Wire {
    fn carry(&mut self, from: &mut End, src: Addr, to: &mut End) -> usize {
        let mut room = [0; EMIT_ROOM];
        let mut count = 0;
        while let Some((dst, segment)) = from.emit(&mut room) {
            count += 1;
            self.0 = self.0.wrapping_mul(1664525).wrapping_add(1013904223);
            if (self.0 >> 16) % 3 > 0 {
                to.arrive(src, dst, segment);
            }
        }
        count
    }
}

/// Sends the text from one end to the other; answers what came.
fn exchange(a: &mut End, b: &mut End, text: &[u8]) -> Vec<u8> {
    let (mut wire, mut left, mut got) = (Wire(1), text, vec![]);
    b.listen().unwrap();
    a.connect(B, 2).unwrap();
    for _ in 0..100_000 {
        if a.status().phase == Phase::Established && !left.is_empty() {
            left = &left[a.send(left).unwrap()..];
            if left.is_empty() {
                a.close().unwrap();
            }
        }
        let count = wire.carry(a, A, b) + wire.carry(b, B, a);
        let mut out = [0; 700];
        while let Ok(Received::Bytes(count)) = b.receive(&mut out) {
            got.extend(&out[..count]);
        }
        if b.receive(&mut out) == Ok(Received::EndOfStream) {
            b.close().ok();
        }
        if count == 0 {
            for timer in [Timer::Reorder, Timer::Retransmit] {
                a.timer(timer);
                b.timer(timer);
            }
        }
        if b.status().ending == Ending::Orderly {
            return got;
        }
    }
    panic!("{:?} {:?}", a.status(), b.status());
}

fn text(length: u32) -> Vec<u8> {
    (0..length).map(|i| (i * 7 + (i >> 8)) as u8).collect()
}

#[test]
fn boxed_ends_carry_text_and_move() {
    let text = text(200_000);
    let mut a = Boxed::new(&Config::new(A, 1, 1000).capacities(30_000, 100_000)).unwrap();
    let mut b = Boxed::new(&Config::new(B, 2, 5000).capacities(100_000, 100_000)).unwrap();
    assert_eq!(exchange(&mut a, &mut b, &text), text);
    assert_eq!(a.status().agreed.unwrap(), Agreed { mss: 1460, shifts: Some((1, 1)), sack: true });
    let moved = a;
    std::thread::spawn(move || assert_eq!(moved.peer(), Some((B, 2)))).join().unwrap();
}

#[test]
fn boxed_ends_are_swapped_as_values() {
    let mut one = Boxed::new(&Config::new(A, 1, 1)).unwrap();
    let mut other = Boxed::new(&Config::new(B, 2, 1)).unwrap();
    one.listen().unwrap();
    std::mem::swap(&mut one, &mut other);
    assert_eq!((one.status().phase, other.status().phase), (Phase::Closed, Phase::Listen));
    drop(one);
    assert_eq!(other.listen(), Err(Error::AlreadyOpen));
}

#[test]
fn placed_ends_lie_in_any_block_and_move() {
    const ROOM: usize = memory(4096, 4096);
    for offset in 0..17 {
        let (mut one, mut two) = ([MaybeUninit::new(0xa5); ROOM + 17], [MaybeUninit::new(0x5a); ROOM + 17]);
        let config = Config::new(A, 1, 1).capacities(4096, 4096);
        let a = Placed::new(&config, &mut one[offset..offset + ROOM]).unwrap();
        let b = Placed::new(&Config::new(B, 2, 2).capacities(4096, 4096), &mut two[17 - offset..]).unwrap();
        let mut both = vec![a, b];
        both.reverse();
        let mut a = both.pop().unwrap();
        let mut b = both.pop().unwrap();
        assert_eq!(exchange(&mut a, &mut b, &text(9000)), text(9000));
    }
}

#[test]
fn a_block_serves_again() {
    let mut block = [MaybeUninit::uninit(); memory(100, 100)];
    for _ in 0..3 {
        let mut end = Placed::new(&Config::new(A, 1, 1).capacities(100, 100), &mut block).unwrap();
        end.listen().unwrap();
        assert_eq!((end.status().phase, end.status().room), (Phase::Listen, 100));
    }
}

#[test]
fn what_new_refuses() {
    let good = Config::new(A, 1, 1).capacities(10, 10);
    let faults = [
        (good.capacities(0, 10), Error::BadCapacity),
        (good.capacities(10, 1_048_577), Error::BadCapacity),
        (good.mss(63), Error::BadMss),
        (good.window_shift(Some(15)), Error::BadShift),
        (good.limit(0).runs(4097), Error::BadLimit),
        (good.runs(4097), Error::BadRuns),
        (Config::new([0, 0, 0, 0], 1, 1).capacities(0, 10), Error::BadAddr),
        (Config::new(A, 0, 1).capacities(0, 10), Error::BadPort),
    ];
    let mut block = [MaybeUninit::uninit(); memory(10, 10)];
    for (config, wanted) in faults {
        assert_eq!(Boxed::new(&config).err(), Some(wanted));
        assert_eq!(Placed::new(&config, &mut block).err(), Some(wanted));
        assert_eq!(Placed::new(&config, &mut []).err(), Some(wanted));
    }
    for length in 0..good.room() - 30 {
        assert_eq!(Placed::new(&good, &mut block[..length]).err(), Some(Error::NoMemory), "{length}");
    }
    assert!(Placed::new(&good, &mut block).is_ok());
}

#[test]
fn runs_take_room() {
    let config = Config::new(A, 1, 1).capacities(10, 10);
    for runs in [1, 4, 16, RUNS, 300, MAX_RUNS] {
        let mut block = vec![MaybeUninit::uninit(); memory_with_runs(10, 10, runs)];
        assert_eq!(config.runs(runs).room(), block.len());
        assert!(Placed::new(&config.runs(runs), &mut block).is_ok());
        // Behind the struct the block takes 30 bytes at most that begin or end no unit.
        let less = block.len() - 31;
        assert_eq!(Placed::new(&config.runs(runs), &mut block[..less]).err(), Some(Error::NoMemory));
    }
    assert_eq!(config.room(), config.runs(RUNS).room());
    assert_eq!(config.runs(MAX_RUNS + 1).room(), 0);
}

#[test]
fn errors_have_texts() {
    let error = Boxed::new(&Config::new(A, 1, 1).mss(1)).err().unwrap();
    assert_eq!(error.to_string(), "the maximum segment size isn't from 64 to 1,460 bytes");
    assert_eq!(error.number(), 23);
    assert!(error.source().is_none());
    let boxed: Box<dyn std::error::Error + Send + Sync> = Box::new(Malformed::BadChecksum);
    assert_eq!(boxed.to_string(), "the segment's checksum is wrong");
}

#[test]
fn what_calls_refuse() {
    let mut end = Boxed::new(&Config::new(A, 1, 1)).unwrap();
    assert_eq!(end.send(b"x"), Err(Error::NotOpen));
    assert_eq!(end.receive(&mut []), Err(Error::NotOpen));
    assert_eq!(end.close(), Err(Error::NotOpen));
    assert_eq!(end.peer(), None);
    assert!(!end.timer(Timer::Retransmit));
    end.listen().unwrap();
    assert_eq!(end.connect(B, 2), Err(Error::AlreadyOpen));
    assert_eq!(end.send(b"x"), Err(Error::NotConnected));
    end.abort().unwrap();
    assert_eq!(end.abort(), Err(Error::Ended));
}

#[test]
fn what_becomes_of_arrivals() {
    let mut end = Boxed::new(&Config::new(A, 1, 1)).unwrap();
    let mut other = Boxed::new(&Config::new(B, 2, 1)).unwrap();
    end.listen().unwrap();
    other.connect(A, 1).unwrap();
    assert_eq!(other.pending(), 28);
    assert!(other.timers().retransmit && !other.timers().time_wait);
    let mut room = [0; EMIT_ROOM];
    let (to, syn) = other.emit(&mut room).unwrap();
    assert_eq!((to, syn.len()), (A, 28));
    assert_eq!(end.arrive(B, A, &syn[..19]).0, Arrival::Malformed(Malformed::TooShort));
    assert_eq!(end.arrive(B, B, syn).0, Arrival::Malformed(Malformed::BadChecksum));
    assert_eq!(stray_reset(B, A, syn).map(|it| it[13]), Some(0b1_0100));
    assert_eq!(stray_reset(B, A, &syn[..19]), None);
    let mut big = vec![0; 65_516];
    assert_eq!(end.arrive(B, A, &big).0, Arrival::Malformed(Malformed::TooLong));
    big.pop();
    assert_eq!(end.arrive(B, A, &big).0, Arrival::Malformed(Malformed::BadChecksum));
    assert_eq!(end.arrive(B, A, syn), (Arrival::Taken, true));
    assert_eq!(end.arrive([9; 4], A, syn).0, Arrival::Malformed(Malformed::BadChecksum));
    assert_eq!(end.peer(), Some((B, 2)));
}

/// In TIME-WAIT a value takes the end's place, and answers the FIN that comes again.
#[test]
fn rests() {
    let mut a = Boxed::new(&Config::new(A, 1, 1)).unwrap();
    let mut b = Boxed::new(&Config::new(B, 2, 1)).unwrap();
    let (mut room, mut fin, mut rest) = ([0; EMIT_ROOM], vec![], None);
    b.listen().unwrap();
    a.connect(B, 2).unwrap();
    assert_eq!(a.time_wait(), None);
    for turn in 0..6 {
        while let Some((to, segment)) = a.emit(&mut room) {
            b.arrive(A, to, segment);
        }
        while let Some((to, segment)) = b.emit(&mut room) {
            fin = segment.to_vec();
            a.arrive(B, to, segment);
        }
        match turn {
            1 => a.close().unwrap(),
            2 => b.close().unwrap(),
            _ => {}
        }
        rest = rest.or_else(|| a.time_wait());
    }
    let mut rest = rest.unwrap();
    drop(a);
    assert_eq!(rest.status(), (Phase::TimeWait, Ending::NotEnded));
    assert_eq!(rest.arrive(B, A, &fin), Arrival::Dropped);
    assert_eq!(rest.pending(), 20);
    let mut small = [0; RESET_ROOM];
    assert_eq!(rest.emit(&mut small).map(|(to, it)| (to, it.len())), Some((B, 20)));
    assert_eq!(rest.emit(&mut small), None);
    assert_eq!(rest.arrive(A, B, &fin[..3]), Arrival::Malformed(Malformed::TooShort));
    assert!(!rest.timer(Timer::Retransmit) && rest.timer(Timer::TimeWait));
    assert_eq!(rest.status(), (Phase::Closed, Ending::Orderly));
    assert_eq!(rest.clone().abort(), Err(Error::Ended));
}

#[test]
fn the_library_is_of_this_version() {
    let (linked, written) = versions();
    assert_eq!(linked, written);
}

#[test]
fn the_library_says_what_code_it_is() {
    assert!(tcpcore::build().ends_with("machine code") || tcpcore::build().starts_with("portable C"));
}
