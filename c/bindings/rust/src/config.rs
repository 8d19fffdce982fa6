//! What an end is made from.
use crate::{sys, Addr, LIMIT};

/// What an end is made from.
///
/// ```
/// let config = tcpcore::Config::new([10, 0, 0, 1], 80, 77).capacities(20_000, 200_000);
/// assert_eq!(config.room(), tcpcore::memory(20_000, 200_000));
/// ```
/// [`Config::new`] has a default for all but the address, the port and the initial sequence number.
#[derive(Clone, Copy)]
#[must_use]
pub struct Config(pub(crate) sys::Config);

impl Config {
    /// An own address, port and initial sequence number (choose it as RFC 9293, 3.4.1 says); with an MSS of 1,460, room for
    /// 65,535 bytes each way, selective acknowledgement, and windows that aren't scaled.
    pub const fn new(addr: Addr, port: u16, isn: u32) -> Config {
        Config(sys::Config {
            addr: sys::Addr { byte: addr },
            port,
            mss: 1460,
            isn,
            unnamed_12: [0; 4],
            send_capacity: 65535,
            recv_capacity: 65535,
            limit: LIMIT,
            window_shift: 0,
            scales: 0,
            sack: 1,
            unnamed_43: [0; 1],
            runs: 0,
            unnamed_46: [0; 2],
        })
    }

    /// The own maximum segment size, 64 to 1,460 bytes (RFC 9293, 3.7.1).
    pub const fn mss(mut self, mss: u16) -> Config {
        self.0.mss = mss;
        self
    }

    /// The most bytes that are kept for the peer and for the user, 1 to 1,048,576 each. Windows are scaled, by the least shift,
    /// where more than 65,535 bytes are to be told.
    pub const fn capacities(mut self, send: usize, receive: usize) -> Config {
        self.0.send_capacity = send as u64;
        self.0.recv_capacity = receive as u64;
        self.window_shift(Self::least_shift(receive))
    }

    /// The least window shift with which all of this receive capacity can be advertised (RFC 7323, 2.2); `None` where no scaling is
    /// needed.
    ///
    /// ```
    /// use tcpcore::Config;
    /// assert_eq!([65_535, 65_536, 131_071, 131_072, 1_048_576].map(Config::least_shift), [None, Some(1), Some(1), Some(2), Some(5)]);
    /// ```
    pub const fn least_shift(receive: usize) -> Option<u8> {
        let mut shift = 0;
        while receive >> shift > 65535 && shift < 14 {
            shift += 1;
        }
        if shift > 0 {
            Some(shift)
        } else {
            None
        }
    }

    /// The shift of the windows that are told, 0 to 14 (RFC 7323, 2.2), or that they aren't scaled. [`Config::capacities`] has chosen the
    /// least one. With a greater one the window is 0 while fewer than 2^shift bytes are free, with a receive capacity below that always,
    /// and the peer then sends nothing but probes of a byte.
    pub const fn window_shift(mut self, shift: Option<u8>) -> Config {
        match shift {
            Some(shift) => {
                self.0.window_shift = shift;
                self.0.scales = 1;
            }
            None => {
                self.0.window_shift = 0;
                self.0.scales = 0;
            }
        }
        self
    }

    /// Whether selective acknowledgement may be used (RFC 2018, 2).
    pub const fn sack(mut self, may: bool) -> Config {
        self.0.sack = may as u8;
        self
    }

    /// The most bytes that the own direction carries, 1 to 2^62. Past [`LIMIT`] the network has to keep a lifetime of segments
    /// (RFC 9293, 3.4).
    pub const fn limit(mut self, limit: u64) -> Config {
        self.0.limit = limit;
        self
    }

    /// The most runs of bytes that are kept out of order (RFC 9293, 3.10.7.4), and the most runs of the peer's blocks that are remembered
    /// (RFC 2018, 5), 1 to [`MAX_RUNS`](crate::MAX_RUNS); 0 is [`RUNS`](crate::RUNS), as where nothing is said. A path that reorders makes
    /// about one for each five segments that it carries in the time of its jitter; each takes 24 bytes of the block.
    pub const fn runs(mut self, runs: u16) -> Config {
        self.0.runs = runs;
        self
    }

    /// How many bytes of a block are enough for an end with it; 0 where a capacity or the number of runs is out of its range.
    pub fn room(&self) -> usize {
        // SAFETY: it is read alone.
        match unsafe { sys::tcpcore_room(&self.0) } {
            0 => 0,
            room => room + crate::sys::STRUCT_ROOM,
        }
    }
}
