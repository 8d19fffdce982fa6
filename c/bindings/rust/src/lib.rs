//! One end of one TCP connection, as a value (RFC 9293; window scale of RFC 7323; selective acknowledgement of RFC 2018): a safe
//! binding of a C library whose core is proved.
//!
//! A [`Connection`] keeps its own times: it is told what time it is, and says when it wants to be called again. An [`End`] leaves them to
//! its caller. Neither has a socket, clock or thread. User calls and segments that arrive go in, segments and the bytes for the user come
//! out. `tcpcore.h` says more of each call.
//!
//! With the feature `alloc`, which `std` has in it, a [`Connection`] and a [`Boxed`] end may own their memory. Else they lie in a block of
//! the caller's, `&mut [MaybeUninit<u8>]`, which they borrow ([`Connection::connect_in`], [`Placed`]): in a static, on the stack, or on the
//! heap. Without either feature the crate takes no memory; without `std` it is `no_std`. All can be moved. What ends can do are the calls
//! of [`End`], whose caller emits until nothing is due, puts each segment into an IPv4 packet, and keeps the times of [`End::timers`]:
//!
//! ```
//! use tcpcore::{Boxed, Config, Received, EMIT_ROOM};
//!
//! let (here, there) = ([10, 0, 0, 1], [10, 0, 0, 2]);
//! let mut a = Boxed::new(&Config::new(here, 1, 1000))?;
//! let mut b = Boxed::new(&Config::new(there, 2, 5000))?;
//! b.listen()?;
//! a.connect(there, 2)?;
//! let mut room = [0; EMIT_ROOM];
//! for turn in 0..3 {
//!     while let Some((to, segment)) = a.emit(&mut room) {
//!         b.arrive(here, to, segment);
//!     }
//!     while let Some((to, segment)) = b.emit(&mut room) {
//!         a.arrive(there, to, segment);
//!     }
//!     if turn == 0 {
//!         a.send(b"abc")?;
//!     }
//! }
//! let mut text = [0; 16];
//! assert_eq!(b.receive(&mut text)?, Received::Bytes(3));
//! assert_eq!(&text[..3], b"abc");
//! # Ok::<(), tcpcore::Error>(())
//! ```
#![cfg_attr(not(feature = "std"), no_std)]
#![warn(missing_docs, unsafe_op_in_unsafe_fn)]

#[cfg(feature = "alloc")]
extern crate alloc;

mod answers;
#[cfg(feature = "alloc")]
mod boxed;
mod config;
mod connection;
mod lending;
mod placed;
mod reports;
mod sys;
mod time;
mod time_wait;
mod trains;

pub use answers::{Agreed, Arrival, EmitFirst, Ending, Error, Expired, Malformed, Phase, Received, Status, Timer, Timers};
#[cfg(feature = "alloc")]
pub use boxed::Boxed;
pub use config::Config;
pub use connection::{
    connection_memory, connection_memory_with_runs, Congestion, CongestionWindow, Connection, KeepAlive, Policy, Rules, Segment,
    RECOVERY_MEMORY,
};
pub use lending::{Lent, Parts, HEADER_ROOM};
pub use placed::{memory, memory_with_runs, Placed};
pub use reports::{ArriveReport, Brought, Kind, Rule, Transmit};
#[cfg(feature = "std")]
pub use time::Clock;
pub use time::Time;
pub use time_wait::TimeWait;
pub use trains::{Train, TRAIN_ROOM};

use answers::{done, text_at};

/// An IPv4 address, in network order.
pub type Addr = [u8; 4];

/// The room that [`End::emit`] takes, in bytes.
pub const EMIT_ROOM: usize = 1520;

/// The length of a reset, in bytes.
pub const RESET_ROOM: usize = 20;

/// A limit below which no segment, however old, is taken for another: 2^31 less 16 bytes.
pub const LIMIT: u64 = 2_147_483_632;

/// The number of runs of an end whose config says nothing of it: see [`Config::runs`].
pub const RUNS: u16 = 128;

/// The greatest number of runs.
pub const MAX_RUNS: u16 = 4096;

/// The version of the C interface that is linked, and the one that this crate is written for.
pub fn versions() -> (u32, u32) {
    // SAFETY: it takes nothing.
    (unsafe { sys::tcpcore_version() }, sys::VERSION)
}

/// What code is linked, such as "x86-64-v2 machine code" or "portable C".
pub fn build() -> &'static str {
    // SAFETY: it takes nothing, and its text is static and ends in a 0.
    unsafe { text_at(sys::tcpcore_build()) }
}

/// One end of one TCP connection, where it lies: behind a [`Placed`] or a [`Boxed`], as `str` is behind a `String`. It has no size, so
/// that it can't be moved out of its place. What changes it takes `&mut self`, so that no two threads can do so at once; threads that
/// share one hold a lock (`Mutex<Boxed>`).
#[repr(C)]
pub struct End {
    raw: sys::End,
    _unsized: [u8],
}

// SAFETY: an end is used by one thread at a time, and two have nothing in common (tcpcore.h, THREADS). What takes `&self` changes
// nothing.
unsafe impl Send for End {}
unsafe impl Sync for End {}

impl End {
    /// Opens a connection to this address and port (RFC 9293, 3.10.1): SYN-SENT, a SYN is due.
    ///
    /// # Errors
    /// [`Error::Ended`], [`Error::AlreadyOpen`].
    pub fn connect(&mut self, addr: Addr, port: u16) -> Result<(), Error> {
        // SAFETY: here and below: the struct holds an end, and lies where that was made; buffers are Rust's own.
        done(unsafe { sys::tcpcore_connect(&mut self.raw, sys::Addr { byte: addr }, port) })
    }

    /// Waits for one peer (RFC 9293, 3.10.1): LISTEN.
    ///
    /// # Errors
    /// As of [`End::connect`].
    pub fn listen(&mut self) -> Result<(), Error> {
        done(unsafe { sys::tcpcore_listen(&mut self.raw) })
    }

    /// Takes the front of the text that fits the send capacity, and keeps it until the peer has acknowledged it (RFC 9293, 3.10.2).
    /// Answers its length: offer the rest once [`Status::released`] has grown.
    ///
    /// # Errors
    /// [`Error::Ended`], [`Error::NotOpen`], [`Error::NotConnected`], [`Error::Closing`], [`Error::StreamFull`].
    pub fn send(&mut self, text: &[u8]) -> Result<usize, Error> {
        let mut taken = 0;
        done(unsafe { sys::tcpcore_send(&mut self.raw, text.as_ptr().cast(), text.len(), &mut taken) })?;
        Ok(taken)
    }

    /// Hands over the front of what came in order (RFC 9293, 3.10.3), to the front of `out`.
    ///
    /// # Errors
    /// [`Error::Ended`] behind a reset or an abort, [`Error::NotOpen`].
    pub fn receive(&mut self, out: &mut [u8]) -> Result<Received, Error> {
        let mut count = 0;
        let answer = unsafe { sys::tcpcore_receive(&mut self.raw, out.as_mut_ptr().cast(), out.len(), &mut count) };
        Received::of(answer, count)
    }

    /// Makes an acknowledgement due, which tells the window as it is now: for a user who has read. In a phase in which the peer may
    /// not send nothing changes.
    pub fn acknowledge(&mut self) {
        unsafe { sys::tcpcore_acknowledge(&mut self.raw) };
    }

    /// This side has no more to send (RFC 9293, 3.10.4); what is queued still goes out.
    ///
    /// # Errors
    /// [`Error::Ended`], [`Error::NotOpen`], [`Error::Closing`].
    pub fn close(&mut self) -> Result<(), Error> {
        done(unsafe { sys::tcpcore_close(&mut self.raw) })
    }

    /// Gives the connection up (RFC 9293, 3.10.5): CLOSED, aborted; a reset is due where the peer may know of the connection.
    ///
    /// # Errors
    /// [`Error::Ended`], [`Error::NotOpen`].
    pub fn abort(&mut self) -> Result<(), Error> {
        done(unsafe { sys::tcpcore_abort(&mut self.raw) })
    }

    /// The timer has run out (RFC 9293, 3.10.8). Answers whether its rule was applied: where it wasn't running nothing changed.
    pub fn timer(&mut self, timer: Timer) -> bool {
        unsafe { sys::tcpcore_timer(&mut self.raw, timer as u32) == 0 }
    }

    /// A segment has come from one address to the other (RFC 9293, 3.10.7). Answers what became of it, and whether it has to be
    /// answered at once (RFC 5681, 4.2).
    pub fn arrive(&mut self, src: Addr, dst: Addr, segment: &[u8]) -> (Arrival, bool) {
        let (src, dst, mut at_once) = (sys::Addr { byte: src }, sys::Addr { byte: dst }, 0);
        let answer =
            unsafe { sys::tcpcore_arrive_with_at_once(&mut self.raw, src, dst, segment.as_ptr().cast(), segment.len(), &mut at_once) };
        (Arrival::of(answer), at_once == 1)
    }

    /// Writes the segment that is due, if one is (RFC 9293, 3.7, 3.8 and 3.10): the address it is for, and its bytes in `room`. More may
    /// be due.
    pub fn emit<'r>(&mut self, room: &'r mut [u8; EMIT_ROOM]) -> Option<(Addr, &'r [u8])> {
        let (mut to, mut length) = (sys::Addr::default(), 0);
        let answer = unsafe { sys::tcpcore_emit(&mut self.raw, room.as_mut_ptr().cast(), EMIT_ROOM, &mut to, &mut length) };
        (answer == 0).then(|| (to.byte, &room[..length]))
    }

    /// As [`End::emit`], for a device that sums segments: the checksum field has the ones' complement sum over the pseudo-header alone
    /// (RFC 9293, 3.1; RFC 1071, 2), and no text is summed. The device adds up what was written, from the first byte on, and puts the
    /// complement of that sum into the field, bytes 16 and 17: then the bytes are those of [`End::emit`].
    pub fn emit_partial<'r>(&mut self, room: &'r mut [u8; EMIT_ROOM]) -> Option<(Addr, &'r [u8])> {
        let (mut to, mut length) = (sys::Addr::default(), 0);
        let answer = unsafe { sys::tcpcore_emit_partial(&mut self.raw, room.as_mut_ptr().cast(), EMIT_ROOM, &mut to, &mut length) };
        (answer == 0).then(|| (to.byte, &room[..length]))
    }

    /// As [`End::emit`], but writes the acknowledgement that is pending, without data, even where data or the FIN is due (RFC 9293,
    /// 3.8.6.3). `None` where none is pending, or a reset or SYN has to go out before it.
    pub fn emit_acknowledgement<'r>(&mut self, room: &'r mut [u8; EMIT_ROOM]) -> Option<(Addr, &'r [u8])> {
        let (mut to, mut length) = (sys::Addr::default(), 0);
        let answer = unsafe { sys::tcpcore_emit_acknowledgement(&mut self.raw, room.as_mut_ptr().cast(), EMIT_ROOM, &mut to, &mut length) };
        (answer == 0).then(|| (to.byte, &room[..length]))
    }

    /// Of what is in flight, as much as one segment carries is to be sent again, the first segment, and then new data (RFC 5681, 3.2; RFC
    /// 6582, 3.2). Where its text leaves room in it for the FIN behind it the FIN is, too, which goes out by itself. Answers whether
    /// anything is in flight: where nothing is, nothing changed.
    pub fn resend_first(&mut self) -> bool {
        unsafe { sys::tcpcore_resend_first(&mut self.raw) == 0 }
    }

    /// Says that what lies from one position on and before another must be sent again, and nothing else of what is in flight, but for what the
    /// peer has reported (RFC 6675, 5; RFC 8985, 6.2). The SYN is at 0, and byte i at 1 + i. Answers whether anything in flight lies there.
    pub fn resend(&mut self, from: u64, to: u64) -> bool {
        unsafe { sys::tcpcore_resend(&mut self.raw, from, to) == 0 }
    }

    /// The length of the segment that [`End::emit`] would write now, 0 where none is due.
    pub fn pending(&self) -> usize {
        let mut due = 0;
        unsafe { sys::tcpcore_pending(&self.raw, &mut due) };
        due as usize
    }

    /// Which timers have to run.
    pub fn timers(&self) -> Timers {
        let mut due = 0;
        unsafe { sys::tcpcore_timers(&self.raw, &mut due) };
        Timers { retransmit: due & 1 != 0, reorder: due & 2 != 0, time_wait: due & 4 != 0 }
    }

    /// The peer's address and port, once they are known.
    pub fn peer(&self) -> Option<(Addr, u16)> {
        let (mut addr, mut port) = (sys::Addr::default(), 0);
        let answer = unsafe { sys::tcpcore_peer(&self.raw, &mut addr, &mut port) };
        (answer == 0).then_some((addr.byte, port))
    }

    /// What it tells of itself.
    pub fn status(&self) -> Status {
        let mut told = sys::Status::default();
        unsafe { sys::tcpcore_status(&self.raw, &mut told) };
        Status::of(&told)
    }

    /// What can take the end's place in TIME-WAIT, once nothing is unread: a plain value of 48 bytes, which answers and emits as the
    /// end would. None at any other time. Only one of the two may answer: drop the end then.
    pub fn time_wait(&self) -> Option<TimeWait> {
        let mut rest = sys::TimeWait::default();
        let answer = unsafe { sys::tcpcore_time_wait(&self.raw, &mut rest) };
        (answer == 0).then_some(TimeWait(rest))
    }
}

/// The reset that answers a segment from `src` to `dst`, where no end has that address and port (RFC 9293, 3.10.7.1), to be sent
/// from `dst` to `src`. None where nothing answers: the bytes are a reset, or no segment.
pub fn stray_reset(src: Addr, dst: Addr, segment: &[u8]) -> Option<[u8; RESET_ROOM]> {
    let (mut out, mut written) = ([0; RESET_ROOM], 0);
    let (src, dst) = (sys::Addr { byte: src }, sys::Addr { byte: dst });
    // SAFETY: all is Rust's own, and the lengths are those of the buffers.
    let answer = unsafe {
        sys::tcpcore_stray_reset(src, dst, segment.as_ptr().cast(), segment.len(), out.as_mut_ptr().cast(), RESET_ROOM, &mut written)
    };
    (answer == 0).then_some(out)
}
