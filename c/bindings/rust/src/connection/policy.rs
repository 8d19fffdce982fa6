//! When an acknowledgement and a small segment go out (RFC 9293, 3.7.4 and 3.8.6; RFC 5961, 7).
use super::rules::limit;
use super::Connection;
use crate::sys;
use crate::time::micros;
use core::time::Duration;

/// When an acknowledgement and a small segment of a connection go out (RFC 9293, 3.7.4 and 3.8.6; RFC 5961, 7). Whole microseconds count, and
/// any values may be chosen.
#[derive(Clone, Copy, Debug, PartialEq, Eq, Hash)]
pub struct Policy {
    /// How long an acknowledgement of text waits for a second full segment, less than 0.5 s whatever is chosen (RFC 9293, 3.8.6.3). 0: none
    /// waits.
    pub ack_delay: Duration,
    /// How long text that isn't worth a segment waits, counted from when only its size holds it back, 0.1 to 1 s (RFC 9293, 3.8.6.2): until
    /// then no small segment goes into a small window, and none goes out just for a window that opened by little. `None`: no text waits,
    /// and a window that was opened by reading is advertised only where it was shut.
    pub override_timeout: Option<Duration>,
    /// ACK throttling (RFC 5961, 7): of the acknowledgements that only answer a segment without text and FIN, or a SYN in a synchronized
    /// state, as challenge ACKs do, one goes out in this time, a few seconds at most. 0: no throttling.
    pub answer_interval: Duration,
    /// Whether text that doesn't fill a segment waits while anything is in flight, by the Nagle algorithm (RFC 9293, 3.7.4). It counts where
    /// there is an `override_timeout`.
    pub nagle: bool,
}

impl Policy {
    /// Nothing waits, and all is answered: as a connection begins.
    pub const fn immediate() -> Policy {
        Policy { ack_delay: Duration::ZERO, override_timeout: None, answer_interval: Duration::ZERO, nagle: false }
    }

    /// Common values: an acknowledgement waits 40 ms, a small segment while anything is in flight, until the override timeout of 0.5 s, and
    /// what brings nothing is answered once in 0.5 s.
    pub const fn standard() -> Policy {
        let half = Duration::from_millis(500);
        Policy { ack_delay: Duration::from_millis(40), override_timeout: Some(half), answer_interval: half, nagle: true }
    }
}

impl Connection<'_> {
    /// Chooses when an acknowledgement and a small segment go out, at any time: at once where this isn't called. From then on
    /// [`Connection::poll_transmit`] passes over what waits, and [`Connection::poll_timeout`] tells when it no longer does. An
    /// acknowledgement that waited is due then, and text begins to wait anew.
    ///
    /// ```
    /// # use tcpcore::{Config, Connection, Policy, Rules, Time};
    /// # let (here, there, now) = ([10, 0, 0, 1], [10, 0, 0, 2], Time::ZERO);
    /// let mut client = Connection::connect(&Config::new(here, 1, 1000), &Rules::new(), (there, 2), now)?;
    /// client.set_policy(Policy { nagle: false, ..Policy::standard() });
    /// # Ok::<(), tcpcore::Error>(())
    /// ```
    pub fn set_policy(&mut self, policy: Policy) {
        let chosen = sys::Policy {
            ack_delay: micros(policy.ack_delay),
            override_timeout: limit(policy.override_timeout),
            answer_interval: micros(policy.answer_interval),
            nagle: u32::from(policy.nagle),
            reserved: [0; 9],
        };
        // SAFETY: as of the calls of mod.rs.
        unsafe { sys::tcpcore_connection_set_policy(self.raw.as_ptr(), &chosen) };
    }
}
