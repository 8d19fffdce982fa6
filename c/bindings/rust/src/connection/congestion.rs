//! The congestion window of a connection (RFC 5681, 3; RFC 9438).
use super::Connection;
use crate::sys;

/// Which congestion window a connection has.
#[derive(Clone, Copy, Debug, PartialEq, Eq, Hash)]
pub enum Congestion {
    /// None: what the peer and the caller let out goes out.
    None = 0,
    /// That of RFC 5681, with the recovery of RFC 6582 and the limited transmit of RFC 3042.
    Reno = 1,
    /// That of RFC 9438.
    Cubic = 2,
}

/// A congestion window, in bytes (RFC 5681, 3).
#[derive(Clone, Copy, Debug, PartialEq, Eq, Hash)]
pub struct CongestionWindow {
    /// Which was chosen.
    pub congestion: Congestion,
    /// The congestion window; 2^40 where none was chosen, more than is ever in flight.
    pub cwnd: u64,
    /// The slow start threshold; 2^40 until slow start has ended once.
    pub ssthresh: u64,
    /// SMSS: 536 until the SYNs have agreed on it; 0 where no window was chosen.
    pub smss: u64,
    /// Whether a loss was found that isn't repaired yet.
    pub is_recovering: bool,
}

impl Connection<'_> {
    /// Chooses the congestion window (RFC 5681, 3; RFC 9438), which is none where this isn't called: from then on what goes out ends within it,
    /// too, and what it lets out beyond itself (RFC 3042; RFC 6675, 5). Call it any time before text is sent. Answers whether it was
    /// chosen: not where text was sent already, or a FIN.
    ///
    /// ```
    /// # use tcpcore::{Config, Congestion, Connection, Rules, Time};
    /// # let (here, there, now) = ([10, 0, 0, 1], [10, 0, 0, 2], Time::ZERO);
    /// let mut client = Connection::connect(&Config::new(here, 1, 1000), &Rules::new(), (there, 2), now)?;
    /// assert!(client.set_congestion(Congestion::Cubic));
    /// # Ok::<(), tcpcore::Error>(())
    /// ```
    pub fn set_congestion(&mut self, congestion: Congestion) -> bool {
        // SAFETY: as of the calls of mod.rs.
        unsafe { sys::tcpcore_connection_set_congestion(self.raw.as_ptr(), congestion as u32) == 0 }
    }

    /// The congestion window as it is.
    pub fn congestion(&self) -> CongestionWindow {
        let mut told = sys::Congestion::default();
        // SAFETY: as of the calls of mod.rs.
        unsafe { sys::tcpcore_connection_congestion(self.raw.as_ptr(), &mut told) };
        CongestionWindow {
            congestion: [Congestion::None, Congestion::Reno, Congestion::Cubic][told.congestion as usize],
            cwnd: told.cwnd,
            ssthresh: told.ssthresh,
            smss: told.smss,
            is_recovering: told.is_recovering == 1,
        }
    }
}
