//! How a connection keeps its times.
use crate::sys;
use crate::time::micros;
use core::time::Duration;

/// How the retransmission timeout of a connection is made (RFC 6298, 2 and 5), how long it waits (RFC 9293, 3.8.3), and what its guard
/// keeps out (RFC 5961, 5.2). Whole microseconds count.
///
/// ```
/// use std::time::Duration;
/// use tcpcore::Rules;
///
/// let rules = Rules::new().least(Duration::from_millis(200)).fin_wait_2(Some(Duration::from_secs(60)));
/// # let _ = rules;
/// ```
/// [`Rules::new`] has the values of the standards.
#[derive(Clone, Copy)]
#[must_use]
pub struct Rules(pub(crate) sys::ConnectionRules);

/// No limit, in C.
pub(crate) const NEVER: u64 = u64::MAX;

/// A limit as C has it.
pub(crate) const fn limit(duration: Option<Duration>) -> u64 {
    match duration {
        Some(duration) => micros(duration),
        None => NEVER,
    }
}

/// How far a guard reaches, as C has it.
pub(crate) const fn reach_of(reach: Option<u32>) -> u32 {
    match reach {
        Some(reach) => reach,
        None => u32::MAX,
    }
}

impl Rules {
    /// How far the guard reaches by default: two of the greatest windows.
    pub const GUARD: u32 = 1 << 21;

    /// The values of the standards, with a clock of milliseconds, 60 s as the greatest timeout, 3 minutes for a SYN, a user timeout of 5
    /// minutes, FIN-WAIT-2 without a limit, and a guard that reaches [`Rules::GUARD`] numbers.
    pub const fn new() -> Rules {
        Rules(sys::ConnectionRules {
            first: 1_000_000,
            least: 1_000_000,
            greatest: 60_000_000,
            granularity: 1000,
            after_syn: 3_000_000,
            time_wait: 240_000_000,
            handshake: 180_000_000,
            user: 300_000_000,
            fin_wait_2: NEVER,
            suspect_after: 3,
            guard: Rules::GUARD,
            reserved: [0; 12],
        })
    }

    /// The timeout before any round trip was measured: 1 s (RFC 6298, 2.1).
    pub const fn first(mut self, timeout: Duration) -> Rules {
        self.0.first = micros(timeout);
        self
    }

    /// No timeout is below it: 1 s (RFC 6298, 2.4). Above 0, and at most [`Rules::greatest`].
    pub const fn least(mut self, timeout: Duration) -> Rules {
        self.0.least = micros(timeout);
        self
    }

    /// None is above it: 60 s or more (RFC 6298, 2.5), and at most 2^40 microseconds.
    pub const fn greatest(mut self, timeout: Duration) -> Rules {
        self.0.greatest = micros(timeout);
        self
    }

    /// G, the granularity of the clock (RFC 6298, 2); at most 2^40 microseconds.
    pub const fn granularity(mut self, time: Duration) -> Rules {
        self.0.granularity = micros(time);
        self
    }

    /// The timeout with which data begin where the SYN was sent again and [`Rules::first`] is less: 3 s (RFC 6298, 5.7).
    pub const fn after_syn(mut self, timeout: Duration) -> Rules {
        self.0.after_syn = micros(timeout);
        self
    }

    /// How long TIME-WAIT is: two maximum segment lifetimes, 4 minutes (RFC 9293, 3.4.2).
    pub const fn time_wait(mut self, time: Duration) -> Rules {
        self.0.time_wait = micros(time);
        self
    }

    /// How long a SYN may be without an answer, 3 minutes or more (RFC 9293, 3.8.3); `None` is forever.
    pub const fn handshake(mut self, time: Option<Duration>) -> Rules {
        self.0.handshake = limit(time);
        self
    }

    /// The user timeout: how long all else may be without an answer, 100 s or more (RFC 9293, 3.8.3); `None` is forever.
    pub const fn user(mut self, time: Option<Duration>) -> Rules {
        self.0.user = limit(time);
        self
    }

    /// How long FIN-WAIT-2 may last without anything of the peer's, while all that came is read; `None` is forever, as the standard has
    /// it.
    pub const fn fin_wait_2(mut self, time: Option<Duration>) -> Rules {
        self.0.fin_wait_2 = limit(time);
        self
    }

    /// After so many timeouts in a row the path is suspect, and before them no connection is given up: 3 or more (RFC 9293, 3.8.3).
    pub const fn suspect_after(mut self, timeouts: u32) -> Rules {
        self.0.suspect_after = timeouts;
        self
    }

    /// How far the guard against segments of somebody who sees nothing of the connection reaches (RFC 5961, 5.2): how many sequence numbers
    /// behind SND.UNA the acknowledgement of a segment may lie that is taken, and while the window is shut how many behind RCV.NXT its own
    /// number may. [`Rules::GUARD`] or more: below it, what the peer sent may be kept out. `None` is no guard, as `Some(u32::MAX)`
    /// is, and `Some(0)` is [`Rules::GUARD`].
    pub const fn guard(mut self, reach: Option<u32>) -> Rules {
        self.0.guard = reach_of(reach);
        self
    }
}

impl Default for Rules {
    fn default() -> Rules {
        Rules::new()
    }
}
