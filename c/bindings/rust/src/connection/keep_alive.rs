//! When a silent peer is asked whether it is there (RFC 9293, 3.8.4).
use super::Connection;
use crate::time::micros;
use crate::{sys, Time};
use core::time::Duration;

/// When the silent peer of a connection is asked whether it is there, and when it is given up (RFC 9293, 3.8.4). Whole microseconds count,
/// and no time as less than a second.
#[derive(Clone, Copy, Debug, PartialEq, Eq, Hash)]
pub struct KeepAlive {
    /// It is asked where nothing was heard of it for so long: 2 hours or more, unless a user chooses less.
    pub idle: Duration,
    /// It is asked again behind each so long: 75 s by custom.
    pub interval: Duration,
    /// With so many unanswered it is given up, an interval behind the last: 9 by custom. Less than 2 counts as 2: one may be lost.
    pub most: u32,
}

impl KeepAlive {
    /// Two hours, the least that the standard has where nothing else is chosen, and by custom nine keep-alives, 75 s apart.
    pub const fn usual() -> KeepAlive {
        KeepAlive { idle: Duration::from_secs(7200), interval: Duration::from_secs(75), most: 9 }
    }
}

impl Connection<'_> {
    /// From `now` on the peer is asked by these rules where nothing is heard of it, and given up where it doesn't answer; by none it isn't,
    /// as a connection begins. Silence counts from `now` on, and what is passed over of what comes breaks none. Behind a peer that was given
    /// up [`Connection::handle_timeout`] answers [`Expired::User`](crate::Expired::User), and the connection is aborted.
    ///
    /// It is asked by a segment without text that no peer takes and each answers, in ESTABLISHED and CLOSE-WAIT, while all that was sent is
    /// acknowledged and nothing waits to be sent. [`Connection::poll_timeout`] tells when, and [`Connection::poll_transmit`] writes it then.
    ///
    /// ```
    /// # use std::time::Duration;
    /// # use tcpcore::{Config, Connection, KeepAlive, Rules, Time};
    /// # let (here, there, now) = ([10, 0, 0, 1], [10, 0, 0, 2], Time::ZERO);
    /// let mut client = Connection::connect(&Config::new(here, 1, 1000), &Rules::new(), (there, 2), now)?;
    /// client.set_keep_alive(now, Some(KeepAlive { idle: Duration::from_secs(600), ..KeepAlive::usual() }));
    /// # Ok::<(), tcpcore::Error>(())
    /// ```
    pub fn set_keep_alive(&mut self, now: Time, rules: Option<KeepAlive>) {
        // An idle time of 0 is C's word for none.
        let chosen = rules.map_or(sys::KeepAlive::default(), |rules| sys::KeepAlive {
            idle: micros(rules.idle).max(1),
            interval: micros(rules.interval),
            most: rules.most,
            reserved: [0; 3],
        });
        // SAFETY: as of the calls of mod.rs.
        unsafe { sys::tcpcore_connection_set_keep_alive(self.raw.as_ptr(), now.as_micros(), &chosen) };
    }
}
