//! Two pairs of ends have the same traffic side by side, one by `receive`, `arrive` and `emit`, the other by the calls that take their
//! place. Every answer, byte and status has to be the same. The sums of the second pair's device are this file's own (RFC 1071; RFC
//! 9293, 3.1).
use tcpcore::*;

const ADDRS: [Addr; 2] = [[10, 0, 0, 1], [10, 0, 0, 2]];
const CAPACITY: u32 = 3000;

struct Any(u64);

impl Any {
    fn below(&mut self, bound: u32) -> u32 {
        self.0 ^= self.0 << 13;
        self.0 ^= self.0 >> 7;
        self.0 ^= self.0 << 17;
        ((self.0 >> 16) % u64::from(bound)) as u32
    }

    fn bytes(&mut self, length: u32) -> Vec<u8> {
        (0..length).map(|_| self.below(256) as u8).collect()
    }
}

/// The ones' complement sum over these bytes, and what was summed before (RFC 1071, 1).
fn summed(mut sum: u32, bytes: &[u8]) -> u32 {
    for (i, &byte) in bytes.iter().enumerate() {
        sum += if i % 2 == 0 { u32::from(byte) << 8 } else { u32::from(byte) };
    }
    while sum >> 16 > 0 {
        sum = (sum & 0xffff) + (sum >> 16);
    }
    sum
}

/// Of the pseudo-header (RFC 9293, 3.1).
fn pseudo(src: Addr, dst: Addr, length: usize) -> u32 {
    summed(summed(length as u32 + 6, &src), &dst)
}

fn put_sum(segment: &mut [u8], sum: u32) {
    segment[16..18].copy_from_slice(&(sum as u16).to_be_bytes());
}

/// How often the traffic has met what the calls are for.
#[derive(Default)]
struct Met {
    lent: u32,
    lent_in_two: u32,
    at_the_end: u32,
    refused: u32,
    partial: u32,
    alone: u32,
    text_in_two: u32,
    transmitted: u32,
    of_no_sum: u32,
    malformed: u32,
    held: u32,
}

struct Traffic {
    any: Any,
    met: Met,
    /// The first pair, and the second.
    old: [Boxed; 2],
    new: [Boxed; 2],
    /// What is under way to an end.
    wire: [Vec<(Addr, Vec<u8>)>; 2],
}

impl Traffic {
    fn new(mut any: Any, met: Met) -> Traffic {
        let (mss, sizes) = (64 + any.below(1397) as u16, [(); 2].map(|()| 1 + any.below(CAPACITY) as usize));
        let (sack, isn) = (any.below(2) == 1, any.below(u32::MAX));
        let made = |i: usize| {
            let config = Config::new(ADDRS[i], 7 + i as u16, isn).mss(mss).capacities(sizes[i], sizes[1 - i]).sack(sack);
            let mut end = Boxed::new(&config).unwrap();
            if i == 0 { end.connect(ADDRS[1], 8) } else { end.listen() }.unwrap();
            end
        };
        Traffic { any, met, old: [made(0), made(1)], new: [made(0), made(1)], wire: [vec![], vec![]] }
    }

    fn same_states(&self) {
        for (old, new) in self.old.iter().zip(&self.new) {
            assert_eq!(old.status(), new.status());
            assert_eq!((old.timers(), old.peer()), (new.timers(), new.peer()));
            assert_eq!((old.pending(), old.next_transmit()), (new.pending(), new.next_transmit()));
        }
    }

    /// The first pair copies, the second looks at what is lent and takes it away.
    fn read_some(&mut self, i: usize) {
        let room = 1 + self.any.below(CAPACITY) as usize;
        let mut copied = vec![0; room];
        let received = self.old[i].receive(&mut copied);
        let status = self.new[i].status();
        let seen = self.new[i].peek().map(|lent| {
            assert_eq!((lent.len() as u64, lent.is_empty()), (status.unread, status.unread == 0));
            assert_eq!(lent.ends, status.is_finished);
            assert!(!lent.first.is_empty() || lent.second.is_empty());
            self.met.lent += u32::from(!lent.is_empty());
            self.met.lent_in_two += u32::from(!lent.second.is_empty());
            self.met.at_the_end += u32::from(lent.ends);
            ([lent.first, lent.second].concat(), lent.ends)
        });
        assert_eq!(self.new[i].status(), status);
        let taken = self.new[i].consume(room);
        match received {
            Ok(Received::Bytes(count)) => {
                assert_eq!(taken, Ok(count));
                assert_eq!(seen.unwrap().0[..count], copied[..count]);
            }
            Ok(at_end) => {
                assert_eq!(taken, Ok(0));
                assert_eq!(seen, Ok((vec![], at_end == Received::EndOfStream)));
            }
            Err(error) => {
                self.met.refused += 1;
                assert_eq!((seen, taken), (Err(error), Err(error)));
            }
        }
    }

    /// The second pair's segment, by one of four ways.
    fn emit_otherwise(&mut self, i: usize) -> Option<(Addr, Vec<u8>)> {
        let (end, mut room) = (&mut self.new[i], [0x5a; EMIT_ROOM]);
        let found = match self.any.below(4) {
            0 => {
                let (to, segment) = end.emit_partial(&mut room)?;
                let mut segment = segment.to_vec();
                assert_eq!(segment[16..18], (pseudo(ADDRS[i], to, segment.len()) as u16).to_be_bytes());
                let sum = summed(0, &segment);
                put_sum(&mut segment, !sum);
                self.met.partial += 1;
                (to, segment)
            }
            1 => {
                let (status, mut header) = (end.status(), [0x5a; HEADER_ROOM]);
                let found = end.parts(&mut header).map(|parts| {
                    assert!(!parts.first.is_empty() || parts.second.is_empty());
                    self.met.text_in_two += u32::from(!parts.second.is_empty());
                    (parts.to, [parts.header, parts.first, parts.second].concat())
                });
                assert_eq!(end.status(), status);
                end.sent();
                let written = found.as_ref().map_or(0, |(_, segment)| usize::from(segment[12] >> 4) * 4);
                assert!(header[written..].iter().all(|&byte| byte == 0x5a));
                found?
            }
            2 => {
                let next = end.next_transmit();
                let (train, segment) = end.emit_train(&mut room, 1)?;
                let mut segment = segment.to_vec();
                assert_eq!((next, train.segments), (Some(train.whole), 1));
                assert_eq!((train.header, train.each), (segment.len() - train.whole.count, train.whole.count));
                let sum = summed(0, &segment);
                put_sum(&mut segment, !sum);
                self.met.alone += 1;
                (train.whole.to, segment)
            }
            _ => {
                let next = end.next_transmit();
                let sent = end.transmit(&mut room);
                assert_eq!(next, sent.map(|(told, _)| told));
                let (told, segment) = sent?;
                assert_eq!((told.length, told.count), (segment.len(), segment.len() - usize::from(segment[12] >> 4) * 4));
                self.met.transmitted += 1;
                (told.to, segment.to_vec())
            }
        };
        Some(found)
    }

    fn emit_some(&mut self, i: usize) {
        let mut room = [0; EMIT_ROOM];
        let old = self.old[i].emit(&mut room).map(|(to, segment)| (to, segment.to_vec()));
        assert_eq!(self.emit_otherwise(i), old);
        let is_lost = self.any.below(20) == 0 || self.wire[1 - i].len() > 8;
        self.wire[1 - i].extend(old.filter(|_| !is_lost));
    }

    /// The first pair's bytes check; where no sum is looked at, those of the second have any number in its place.
    fn arrive(&mut self, i: usize, dst: Addr, mut segment: Vec<u8>) {
        let src = ADDRS[1 - i];
        let mut other = segment.clone();
        if segment.len() >= 18 {
            put_sum(&mut segment, 0);
            let sum = summed(pseudo(src, dst, segment.len()), &segment);
            put_sum(&mut segment, !sum);
            let any = self.any.below(65536);
            put_sum(&mut other, any);
            self.met.of_no_sum += u32::from(segment != other);
        }
        let (arrival, at_once) = match self.any.below(3) {
            0 => {
                let old = self.old[i].arrive_with_report(src, dst, &segment);
                assert_eq!(self.new[i].arrive_vouched_with_report(src, dst, &other), old);
                self.met.held += u32::from(old.brought == Brought::Held);
                (old.arrival, old.at_once)
            }
            1 => {
                let old = self.old[i].arrive(src, dst, &segment);
                assert_eq!(self.new[i].arrive_vouched(src, dst, &other), old);
                old
            }
            _ => {
                let told = self.new[i].arrive_with_report(src, dst, &segment);
                assert_eq!(self.old[i].arrive(src, dst, &segment), (told.arrival, told.at_once));
                assert_eq!(told.rule.is_none(), matches!(told.arrival, Arrival::Malformed(_)));
                (told.arrival, told.at_once)
            }
        };
        if let Arrival::Malformed(fault) = arrival {
            assert!(fault != Malformed::BadChecksum && !at_once);
            self.met.malformed += 1;
        }
    }

    /// One of the segments that are under way comes, whole or changed, and perhaps again later.
    fn arrive_some(&mut self, i: usize) {
        let count = self.wire[i].len() as u32;
        if count == 0 {
            return;
        }
        let which = if self.any.below(3) > 0 { 0 } else { self.any.below(count) as usize };
        let (dst, mut segment) = self.wire[i][which].clone();
        if self.any.below(10) > 0 {
            self.wire[i].remove(which);
        }
        if self.any.below(25) == 0 {
            let at = 4 + self.any.below(segment.len() as u32 - 4) as usize;
            segment[at] ^= 1 << self.any.below(8);
        }
        if self.any.below(60) == 0 {
            segment.truncate(self.any.below(segment.len() as u32) as usize);
        }
        self.arrive(i, dst, segment);
    }

    /// A call that both pairs make alike.
    fn call(&mut self, i: usize) {
        let (which, length) = (self.any.below(100), self.any.below(CAPACITY));
        let text = self.any.bytes(length);
        let timer = if self.any.below(2) == 0 { Timer::Retransmit } else { Timer::Reorder };
        let [old, new] = [&mut self.old[i], &mut self.new[i]].map(|end| match which {
            0..=59 => end.send(&text),
            60..=89 => Ok(usize::from(end.timer(timer))),
            90..=98 => {
                end.acknowledge();
                Ok(0)
            }
            _ => end.close().map(|()| 0),
        });
        assert_eq!(old, new);
    }

    fn step(&mut self) {
        let i = self.any.below(2) as usize;
        match self.any.below(10) {
            0..=3 => self.emit_some(i),
            4..=6 => self.arrive_some(i),
            7 => self.read_some(i),
            _ => self.call(i),
        }
        self.same_states();
    }
}

#[test]
fn new_calls_beside_old_ones() {
    let (mut any, mut met) = (Any(88172645463325252), Met::default());
    for _ in 0..100 {
        let mut traffic = Traffic::new(any, met);
        for _ in 0..600 {
            traffic.step();
        }
        let i = traffic.any.below(2) as usize;
        assert_eq!(traffic.old[i].abort(), traffic.new[i].abort());
        for _ in 0..10 {
            traffic.step();
        }
        Traffic { any, met, .. } = traffic;
    }
    // The traffic has met what the calls are for.
    assert!(met.lent > 1000 && met.lent_in_two > 100 && met.text_in_two > 100);
    assert!(met.partial > 1000 && met.alone > 1000 && met.transmitted > 1000);
    assert!(met.of_no_sum > 1000 && met.at_the_end > 10 && met.refused > 10 && met.malformed > 10 && met.held > 10);
}
