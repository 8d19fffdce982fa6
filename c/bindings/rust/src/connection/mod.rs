//! An end that keeps its own times.
mod congestion;
mod keep_alive;
mod making;
mod policy;
mod recovery;
mod rules;
mod train;

pub use congestion::{Congestion, CongestionWindow};
pub use keep_alive::KeepAlive;
pub use making::{connection_memory, connection_memory_with_runs};
pub use policy::Policy;
pub use recovery::RECOVERY_MEMORY;
pub(crate) use rules::reach_of;
pub use rules::Rules;

use crate::answers::{done, EmitFirst, Error, Expired, Phase, Received, Status, EMIT_FIRST};
use crate::{sys, Addr, ArriveReport, Lent, Time, EMIT_ROOM};
use core::fmt;
use core::marker::PhantomData;
use core::mem::MaybeUninit;
use core::ptr::NonNull;
use core::time::Duration;
use rules::NEVER;

/// One end of one TCP connection, with its clock: an end that keeps its own timers. These are the retransmission timeout by measured
/// round trips (RFC 6298), what the peer's blocks passed over (RFC 2018, 5), TIME-WAIT, and the user timeout (RFC 9293, 3.8.3).
///
/// It has no socket, reads no clock and starts no thread: each call that depends on the time is told it. A time before that of an earlier
/// call counts as that, but for keep-alives and pacing, which go by the times as they are. [`Connection::connect`] and
/// [`Connection::listen`] give it memory of its own, and it is a `Connection<'static>`; [`Connection::connect_in`] and
/// [`Connection::listen_in`] are given a block of the caller's, which it borrows. It can be moved, and is freed when it is dropped, without
/// a word to the peer.
///
/// # The loop
/// 1. [`poll_transmit`](Connection::poll_transmit) until it has nothing, and send each segment. In CLOSED the connection is over then.
/// 2. Wait for a segment, or until [`poll_timeout`](Connection::poll_timeout).
/// 3. [`handle_segment`](Connection::handle_segment) for each one that came, and then [`handle_timeout`](Connection::handle_timeout).
/// 4. [`send`](Connection::send), [`receive`](Connection::receive) and [`close`](Connection::close) as the user wants. Go on with 1.
///
/// ```
/// use std::time::Duration;
/// use tcpcore::{Config, Connection, Expired, Received, Rules, Time, EMIT_ROOM};
///
/// let (here, there, mut now) = ([10, 0, 0, 1], [10, 0, 0, 2], Time::ZERO);
/// let mut client = Connection::connect(&Config::new(here, 1, 1000), &Rules::new(), (there, 2), now)?;
/// let mut server = Connection::listen(&Config::new(there, 2, 5000), &Rules::new(), now)?;
/// let mut room = [0; EMIT_ROOM];
///
/// // The first SYN is lost: it is sent again once the retransmission timeout of a second has passed.
/// assert_eq!(client.poll_transmit(now, &mut room).unwrap().to, there);
/// assert_eq!(client.poll_timeout(), Some(now + Duration::from_secs(1)));
/// now = client.poll_timeout().unwrap();
/// assert_eq!(client.handle_timeout(now), Some(Expired::Retransmit));
///
/// for turn in 0..3 {
///     while let Some(segment) = client.poll_transmit(now, &mut room) {
///         server.handle_segment(now, here, segment.to, segment.bytes).unwrap();
///     }
///     while let Some(segment) = server.poll_transmit(now, &mut room) {
///         client.handle_segment(now, there, segment.to, segment.bytes).unwrap();
///     }
///     if turn == 0 {
///         client.send(now, b"abc")?;
///     }
/// }
/// let mut text = [0; 16];
/// assert_eq!(server.receive(now, &mut text)?, Received::Bytes(3));
/// # Ok::<(), tcpcore::Error>(())
/// ```
///
/// Where the path may be congested [`set_congestion`](Connection::set_congestion) chooses a congestion window;
/// [`set_recovery`](Connection::set_recovery) has losses found by time, and [`set_policy`](Connection::set_policy) says when acknowledgements
/// and small segments wait. Who has emissions wait by a rule of his own goes by [`ArriveReport::at_once`] (RFC 5681, 4.2). A peer that
/// vanished while nothing was under way is found where [`set_keep_alive`](Connection::set_keep_alive) has it asked (RFC 9293, 3.8.4).
/// [`set_pacing`](Connection::set_pacing) has new text go out spread over a round trip (RFC 9002, 7.7), for a caller with a fine timer.
pub struct Connection<'m> {
    /// The C struct, at the front of the block, where it stays.
    raw: NonNull<sys::Connection>,
    /// The block, where it is the connection's own.
    #[cfg(feature = "alloc")]
    owned: Option<*mut [MaybeUninit<u8>]>,
    /// The recovery's block, where it is the connection's own.
    #[cfg(feature = "alloc")]
    recovery: Option<*mut [MaybeUninit<u8>]>,
    block: PhantomData<&'m mut [MaybeUninit<u8>]>,
}

// SAFETY: it is used by one thread at a time, and two have nothing in common (tcpcore.h, THREADS). What takes `&self` changes nothing.
unsafe impl Send for Connection<'_> {}
unsafe impl Sync for Connection<'_> {}

impl fmt::Debug for Connection<'_> {
    fn fmt(&self, f: &mut fmt::Formatter<'_>) -> fmt::Result {
        f.debug_struct("Connection").field("status", &self.status()).field("poll_timeout", &self.poll_timeout()).finish()
    }
}

/// A segment that a connection emits.
#[derive(Clone, Copy, Debug, PartialEq, Eq)]
pub struct Segment<'r> {
    /// The address that it goes to.
    pub to: Addr,
    /// Its bytes, checksum and all.
    pub bytes: &'r [u8],
    /// Where it begins, as a position of the own direction: a SYN at 0, byte i at 1 + i, the FIN after the last byte, an acknowledgement
    /// at SND.NXT; 0 of a reset.
    pub position: u64,
    /// How many numbers it takes: one for each byte of text, one for a SYN, one for a FIN (RFC 9293, 3.4).
    pub count: u64,
}

impl Connection<'_> {
    /// A segment has come from one address to the other (RFC 9293, 3.10.7), without its IPv4 header. Answers what became of it. What the
    /// guard keeps out ([`Rules::guard`]) is passed over, and an acknowledgement is due.
    ///
    /// # Errors
    /// [`EmitFirst`], from a [`Connection::handle_timeout`] that found a timer on, until [`Connection::poll_transmit`] has nothing: a segment
    /// that came in between could leave the timer without effect. Who calls `handle_timeout` last, behind all that has come, and then polls
    /// until there is nothing, never meets it.
    pub fn handle_segment(&mut self, now: Time, src: Addr, dst: Addr, segment: &[u8]) -> Result<ArriveReport, EmitFirst> {
        let (src, dst, mut told) = (sys::Addr { byte: src }, sys::Addr { byte: dst }, sys::ArriveReport::default());
        let (raw, bytes) = (self.raw.as_ptr(), segment.as_ptr().cast());
        // SAFETY: here and below: the struct holds a connection, and lies where that was made; buffers are Rust's own.
        match unsafe { sys::tcpcore_connection_arrive(raw, now.as_micros(), src, dst, bytes, segment.len(), &mut told) } {
            EMIT_FIRST => Err(EmitFirst),
            answer => Ok(ArriveReport::of(answer, &told)),
        }
    }

    /// As [`Connection::handle_segment`], of a segment whose checksum a device has found right: it isn't summed.
    ///
    /// # Errors
    /// As of [`Connection::handle_segment`].
    pub fn handle_vouched_segment(&mut self, now: Time, src: Addr, dst: Addr, segment: &[u8]) -> Result<ArriveReport, EmitFirst> {
        let (src, dst, mut told) = (sys::Addr { byte: src }, sys::Addr { byte: dst }, sys::ArriveReport::default());
        let (raw, bytes) = (self.raw.as_ptr(), segment.as_ptr().cast());
        match unsafe { sys::tcpcore_connection_arrive_vouched(raw, now.as_micros(), src, dst, bytes, segment.len(), &mut told) } {
            EMIT_FIRST => Err(EmitFirst),
            answer => Ok(ArriveReport::of(answer, &told)),
        }
    }

    /// Writes the segment that is due, if one is (RFC 9293, 3.7, 3.8 and 3.10). More may be due: poll until there is none.
    pub fn poll_transmit<'r>(&mut self, now: Time, room: &'r mut [u8; EMIT_ROOM]) -> Option<Segment<'r>> {
        self.poll_transmit_within(now, u64::MAX, room)
    }

    /// The same within a window, that of the caller's congestion control (RFC 5681, 3.1): what ends more than `window` numbers past SND.UNA
    /// waits, unless nothing before it is in flight. An acknowledgement that is pending goes out alone where what is due waits.
    pub fn poll_transmit_within<'r>(&mut self, now: Time, window: u64, room: &'r mut [u8; EMIT_ROOM]) -> Option<Segment<'r>> {
        let (out, mut told) = (room.as_mut_ptr().cast(), sys::ConnectionSegment::default());
        let answer = unsafe { sys::tcpcore_connection_emit(self.raw.as_ptr(), now.as_micros(), window, out, EMIT_ROOM, &mut told) };
        let bytes = &room[..told.length as usize];
        (answer == 0).then_some(Segment { to: told.to.byte, bytes, position: told.position, count: told.count })
    }

    /// When [`Connection::handle_timeout`] has to be called, or what a policy, a recovery or pacing made wait is to be sent, or a keep-alive,
    /// if nothing else happens before; none where no timer runs and nothing waits. It may have passed: then poll and call it now. Where it is called
    /// later, all that is sent again is sent later.
    pub fn poll_timeout(&self) -> Option<Time> {
        let mut at = NEVER;
        unsafe { sys::tcpcore_connection_poll_at(self.raw.as_ptr(), &mut at) };
        (at != NEVER).then_some(Time::from_micros(at))
    }

    /// It is `now`: answers the timer that has expired, if one has, whose rule was applied (RFC 9293, 3.10.8). What is due then has to go
    /// out before anything arrives: [`Connection::poll_transmit`] until there is none. Before that no other timer expires. It may be
    /// called at any time, and does nothing where none has expired.
    pub fn handle_timeout(&mut self, now: Time) -> Option<Expired> {
        let mut timer = 0;
        let answer = unsafe { sys::tcpcore_connection_timeout(self.raw.as_ptr(), now.as_micros(), &mut timer) };
        (answer == 0).then(|| Expired::of(timer))
    }

    /// Takes the front of the text that fits the send capacity, and keeps it until the peer has acknowledged it (RFC 9293, 3.10.2).
    /// Answers its length: offer the rest once [`Status::released`] has grown.
    ///
    /// # Errors
    /// [`Error::Ended`], [`Error::NotConnected`] in LISTEN, [`Error::Closing`], [`Error::StreamFull`].
    pub fn send(&mut self, now: Time, text: &[u8]) -> Result<usize, Error> {
        let (at, mut taken) = (text.as_ptr().cast(), 0);
        done(unsafe { sys::tcpcore_connection_send(self.raw.as_ptr(), now.as_micros(), at, text.len(), &mut taken) })?;
        Ok(taken)
    }

    /// Hands over the front of what came in order (RFC 9293, 3.10.3), to the front of `out`. What isn't read closes the window: read
    /// until there is nothing.
    ///
    /// # Errors
    /// [`Error::Ended`] behind a reset or an abort.
    pub fn receive(&mut self, now: Time, out: &mut [u8]) -> Result<Received, Error> {
        let (at, mut count) = (out.as_mut_ptr().cast(), 0);
        let answer = unsafe { sys::tcpcore_connection_receive(self.raw.as_ptr(), now.as_micros(), at, out.len(), &mut count) };
        Received::of(answer, count)
    }

    /// Lends all unread bytes where they lie, as [`End::peek`](crate::End::peek). What was read is taken away by
    /// [`Connection::consume`].
    ///
    /// # Errors
    /// As of [`Connection::receive`].
    pub fn peek(&self) -> Result<Lent<'_>, Error> {
        let mut told = sys::Lent::default();
        // SAFETY: nothing changes the connection while it is borrowed.
        unsafe { Lent::of(sys::tcpcore_connection_peek(self.raw.as_ptr(), &mut told), &told) }
    }

    /// Takes the first unread bytes away, at most so many, and answers how many, as [`End::consume`](crate::End::consume).
    ///
    /// # Errors
    /// As of [`Connection::receive`].
    pub fn consume(&mut self, now: Time, count: usize) -> Result<usize, Error> {
        let mut taken = 0;
        done(unsafe { sys::tcpcore_connection_consume(self.raw.as_ptr(), now.as_micros(), count, &mut taken) })?;
        Ok(taken)
    }

    /// Makes an acknowledgement due, which tells the window as it is now, as [`End::acknowledge`](crate::End::acknowledge): for a user who
    /// reads in small pieces (RFC 9293, 3.8.6.2.2).
    pub fn acknowledge(&mut self, now: Time) {
        unsafe { sys::tcpcore_connection_acknowledge(self.raw.as_ptr(), now.as_micros()) };
    }

    /// This side has no more to send (RFC 9293, 3.10.4); what is queued still goes out.
    ///
    /// # Errors
    /// [`Error::Ended`], [`Error::Closing`].
    pub fn close(&mut self, now: Time) -> Result<(), Error> {
        done(unsafe { sys::tcpcore_connection_close(self.raw.as_ptr(), now.as_micros()) })
    }

    /// Gives the connection up (RFC 9293, 3.10.5): CLOSED, aborted; a reset is due where the peer may know of the connection.
    ///
    /// # Errors
    /// [`Error::Ended`].
    pub fn abort(&mut self, now: Time) -> Result<(), Error> {
        done(unsafe { sys::tcpcore_connection_abort(self.raw.as_ptr(), now.as_micros()) })
    }

    /// Sets the user timeout in the place of [`Rules::user`] (RFC 9293, 3.8.3): how long what was sent may be without an answer before the
    /// connection is aborted; none is forever. The time that has passed already counts, so that [`Connection::poll_timeout`] may be another
    /// then. A SYN keeps the limit [`Rules::handshake`].
    pub fn set_user_timeout(&mut self, limit: Option<Duration>) {
        unsafe { sys::tcpcore_connection_set_user_timeout(self.raw.as_ptr(), rules::limit(limit)) };
    }

    /// Has new text go out spread over a round trip, in portions of as many whole segments as go out in a millisecond at 1.25, in slow start 2,
    /// congestion windows a round trip, or as the window has, up to ten, where those are more, and two at least (RFC 9002, 7.7); or at once,
    /// as a connection begins. What is sent again doesn't wait, and without a congestion window practically nothing does. Where text waits
    /// for its portion [`Connection::poll_timeout`] is when the next one begins: poll then. A caller that paces has to wait by a fine timer.
    pub fn set_pacing(&mut self, is_paced: bool) {
        unsafe { sys::tcpcore_connection_set_pacing(self.raw.as_ptr(), u32::from(is_paced)) };
    }

    /// Of what is in flight the first segment must be sent again at once, for a caller who finds losses before the timers do (RFC 5681, 3.2;
    /// RFC 6675, 5): whether anything is in flight. The retransmission timer starts anew when it goes out, once until something is
    /// acknowledged.
    pub fn resend_first(&mut self, now: Time) -> bool {
        unsafe { sys::tcpcore_connection_resend_first(self.raw.as_ptr(), now.as_micros()) == 0 }
    }

    /// Says that what lies from one position on and before another must be sent again at once, and nothing else of what is in flight, for a
    /// caller that knows which stretch is lost (RFC 6675, 5; RFC 8985, 6.2). Positions are those of a [`Segment`]. Answers whether anything in
    /// flight lies there.
    pub fn resend(&mut self, now: Time, from: u64, to: u64) -> bool {
        unsafe { sys::tcpcore_connection_resend(self.raw.as_ptr(), now.as_micros(), from, to) == 0 }
    }

    /// The peer's address and port, once they are known.
    pub fn peer(&self) -> Option<(Addr, u16)> {
        let (mut addr, mut port) = (sys::Addr::default(), 0);
        let answer = unsafe { sys::tcpcore_connection_peer(self.raw.as_ptr(), &mut addr, &mut port) };
        (answer == 0).then_some((addr.byte, port))
    }

    /// What it tells of itself.
    pub fn status(&self) -> Status {
        let mut told = sys::Status::default();
        unsafe { sys::tcpcore_connection_status(self.raw.as_ptr(), &mut told) };
        Status::of(&told)
    }

    /// Whether it is in CLOSED: [`Status::ending`] says how it ended. A reset that is due still goes out by
    /// [`Connection::poll_transmit`], and what came before an orderly end can still be read.
    pub fn is_closed(&self) -> bool {
        self.status().phase == Phase::Closed
    }
}
