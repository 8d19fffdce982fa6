//! Two connections over a simulated link, each driven by its own times alone.
use super::{emitted, hand_in, pair, seconds, text, Any};
use std::time::Duration;
use tcpcore::*;

/// A link that delays each segment, by any time of some milliseconds more, and loses some of a hundred.
pub(crate) struct Link {
    any: Any,
    jitter: u64,
    loss: u64,
    on_the_way: Vec<(Time, usize, Vec<u8>)>,
    now: Time,
    pub(crate) expired: Vec<(Time, usize, Expired)>,
}

impl Link {
    fn emit(&mut self, ends: &mut [Connection; 2], side: usize) {
        for bytes in emitted(&mut ends[side], self.now) {
            let at = self.now + Duration::from_millis(20 + self.any.below(self.jitter + 1));
            if self.any.below(100) >= self.loss {
                self.on_the_way.push((at, 1 - side, bytes));
            }
        }
    }

    /// What has come is handed in, and both sides keep their times. Answers whether anything more will happen.
    fn turn(&mut self, ends: &mut [Connection; 2]) -> bool {
        for side in [0, 1] {
            self.emit(ends, side);
        }
        let arrivals = self.on_the_way.iter().map(|it| it.0);
        let next = match arrivals.chain(ends.iter().filter_map(|it| it.poll_timeout())).min() {
            Some(next) => next,
            None => return false,
        };
        self.now = self.now.max(next);
        let (come, left) = std::mem::take(&mut self.on_the_way).into_iter().partition(|it| it.0 <= self.now);
        self.on_the_way = left;
        let come: Vec<(Time, usize, Vec<u8>)> = come;
        for (_, side, bytes) in come {
            hand_in(&mut ends[side], side, self.now, &[bytes]);
        }
        for side in [0, 1] {
            self.expired.extend(ends[side].handle_timeout(self.now).map(|it| (self.now, side, it)));
        }
        true
    }
}

/// A side's user sends its text, closes, and reads.
struct User {
    left: Vec<u8>,
    got: Vec<u8>,
    is_closed: bool,
}

impl User {
    fn act(&mut self, it: &mut Connection, now: Time) {
        let taken = it.send(now, &self.left).unwrap_or(0);
        self.left.drain(..taken);
        if self.left.is_empty() && !self.is_closed {
            it.close(now).unwrap();
            self.is_closed = true;
        }
        let mut out = [0; 3000];
        while let Ok(Received::Bytes(count)) = it.receive(now, &mut out) {
            self.got.extend(&out[..count]);
        }
    }
}

/// Carries a text each way to the end of both connections; answers the link as it was then.
pub(crate) fn carries(jitter: u64, loss: u64) -> Link {
    // Not whole windows: a FIN behind a full one finds it shut, and waits for a timer.
    const LENGTH: usize = 125_000;
    let now = seconds(1000);
    let mut link = Link { any: Any(88_172_645_463_325_252), jitter, loss, on_the_way: vec![], now, expired: vec![] };
    let mut ends = pair(&Rules::new(), now);
    let mut users = [0, 1].map(|side| User { left: text(side, 0..LENGTH), got: vec![], is_closed: false });
    while link.turn(&mut ends) {
        for (user, end) in users.iter_mut().zip(&mut ends) {
            if end.status().agreed.is_some() && !end.is_closed() {
                user.act(end, link.now);
            }
        }
    }
    for side in [0, 1] {
        assert!(users[side].got == text(1 - side, 0..LENGTH), "{} of {LENGTH} bytes", users[side].got.len());
        assert_eq!((ends[side].status().ending, ends[side].is_closed()), (Ending::Orderly, true));
    }
    link
}
