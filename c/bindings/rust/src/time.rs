//! Points in time, as a connection has them.
use core::ops::Add;
use core::time::Duration;

/// A point in time: microseconds since a beginning that the caller chose. All times of a connection have the same beginning.
///
/// With the feature `std` a [`Clock`] tells it. Without it take it from the timer of the machine:
/// `Time::from_micros(ticks * 1_000_000 / ticks_per_second)`.
///
/// ```
/// use std::time::Duration;
/// use tcpcore::Time;
///
/// let (now, at) = (Time::from_micros(1_500_000), Time::from_micros(2_000_000));
/// assert_eq!(now + Duration::from_millis(500), at);
/// // How long to wait: not at all for what has passed.
/// assert_eq!(at.saturating_duration_since(now), Duration::from_millis(500));
/// assert_eq!(now.saturating_duration_since(at), Duration::ZERO);
/// ```
///
/// It is no `Duration`, so that a deadline isn't taken for a time to wait:
///
/// ```compile_fail,E0308
/// # let socket = std::net::UdpSocket::bind("127.0.0.1:0").unwrap();
/// # let clock = tcpcore::Clock::start();
/// # let config = tcpcore::Config::new([10, 0, 0, 1], 1, 1000);
/// # let connection = tcpcore::Connection::listen(&config, &tcpcore::Rules::new(), clock.now()).unwrap();
/// socket.set_read_timeout(connection.poll_timeout()).unwrap();
/// ```
#[derive(Clone, Copy, Debug, Default, PartialEq, Eq, PartialOrd, Ord, Hash)]
pub struct Time(u64);

impl Time {
    /// The beginning.
    pub const ZERO: Time = Time(0);

    /// So many microseconds after the beginning.
    pub const fn from_micros(micros: u64) -> Time {
        Time(micros)
    }

    /// Microseconds since the beginning.
    pub const fn as_micros(self) -> u64 {
        self.0
    }

    /// The time that has passed since then; none where it is still to come.
    pub const fn saturating_duration_since(self, earlier: Time) -> Duration {
        Duration::from_micros(self.0.saturating_sub(earlier.0))
    }
}

impl Add<Duration> for Time {
    type Output = Time;
    fn add(self, later: Duration) -> Time {
        Time(self.0.saturating_add(micros(later)))
    }
}

/// Whole microseconds; what is too long for 64 bits is as long as they can say, which is forever.
pub(crate) const fn micros(duration: Duration) -> u64 {
    let micros = duration.as_micros();
    if micros > u64::MAX as u128 {
        u64::MAX
    } else {
        micros as u64
    }
}

/// The times of connections from `std`'s clock, whose beginning is when it was started. A copy tells the same times.
///
/// ```
/// let clock = tcpcore::Clock::start();
/// let now = clock.now();
/// assert!(clock.time(clock.instant(now)) == now && now <= clock.now());
/// ```
#[cfg(feature = "std")]
#[derive(Clone, Copy, Debug)]
pub struct Clock(std::time::Instant);

#[cfg(feature = "std")]
impl Clock {
    /// A clock that begins now.
    pub fn start() -> Clock {
        Clock(std::time::Instant::now())
    }

    /// What time it is.
    pub fn now(&self) -> Time {
        self.time(std::time::Instant::now())
    }

    /// The time of an instant; the beginning of one before it.
    pub fn time(&self, instant: std::time::Instant) -> Time {
        Time::ZERO + instant.saturating_duration_since(self.0)
    }

    /// The instant of a time, to wait until it, as with `tokio::time::sleep_until(clock.instant(at).into())`.
    ///
    /// # Panics
    /// Where the platform's instants end before it.
    pub fn instant(&self, time: Time) -> std::time::Instant {
        self.0 + Duration::from_micros(time.as_micros())
    }

    /// How long it is until then; no time where it has passed.
    pub fn until(&self, time: Time) -> Duration {
        time.saturating_duration_since(self.now())
    }
}
