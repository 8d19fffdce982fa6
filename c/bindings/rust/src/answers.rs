//! What calls answer.
use crate::sys;
use core::{fmt, slice, str};

/// Why a call was refused; nothing changed. Its `Display` is the library's text.
#[derive(Clone, Copy, Debug, PartialEq, Eq, Hash)]
#[non_exhaustive]
pub enum Error {
    /// CLOSED and never opened.
    NotOpen,
    /// Opened before.
    AlreadyOpen,
    /// Behind a `close`.
    Closing,
    /// The connection has ended; [`Status::ending`] says how.
    Ended,
    /// The direction has carried as many bytes as the config's limit says.
    StreamFull,
    /// No peer is known: of `send` in LISTEN.
    NotConnected,
    /// A capacity isn't from 1 to 1,048,576.
    BadCapacity,
    /// The block is too small, or there is no memory.
    NoMemory,
    /// The MSS isn't from 64 to 1,460.
    BadMss,
    /// The window shift is above 14.
    BadShift,
    /// The limit isn't from 1 to 2^62.
    BadLimit,
    /// The address is 0.0.0.0.
    BadAddr,
    /// The port is 0.
    BadPort,
    /// The number of runs is above [`MAX_RUNS`](crate::MAX_RUNS).
    BadRuns,
    /// No timeout can be made from the [`Rules`](crate::Rules) of a connection.
    BadRules,
    /// [`Connection::set_recovery`](crate::Connection::set_recovery) was called already.
    InUse,
    /// Text was sent before [`Connection::set_recovery`](crate::Connection::set_recovery).
    NoRule,
    /// Another answer, by its number in `tcpcore.h`. None is known that safe code comes to.
    Other(u32),
}

const ERRORS: [(u32, Error); 17] = [
    (11, Error::NotOpen),
    (12, Error::AlreadyOpen),
    (13, Error::Closing),
    (14, Error::Ended),
    (15, Error::StreamFull),
    (16, Error::NotConnected),
    (21, Error::BadCapacity),
    (22, Error::NoMemory),
    (23, Error::BadMss),
    (24, Error::BadShift),
    (25, Error::BadLimit),
    (26, Error::BadAddr),
    (27, Error::BadPort),
    (28, Error::BadRuns),
    (29, Error::BadRules),
    (32, Error::InUse),
    (54, Error::NoRule),
];

impl Error {
    pub(crate) fn of(answer: u32) -> Error {
        let known = ERRORS.iter().find(|(number, _)| *number == answer);
        known.map_or(Error::Other(answer), |(_, error)| *error)
    }

    /// Its number in `tcpcore.h`.
    pub fn number(self) -> u32 {
        match self {
            Error::Other(answer) => answer,
            known => ERRORS.iter().find(|(_, error)| *error == known).map_or(0, |(number, _)| *number),
        }
    }
}

pub(crate) fn done(answer: u32) -> Result<(), Error> {
    if answer == 0 {
        Ok(())
    } else {
        Err(Error::of(answer))
    }
}

/// A text of the library.
///
/// # Safety
/// It is static, and ends in a 0.
pub(crate) unsafe fn text_at(at: *const u8) -> &'static str {
    // SAFETY: no byte behind the 0 is looked at.
    let bytes = unsafe {
        let length = (0..).take_while(|&i| *at.add(i) != 0).count();
        slice::from_raw_parts(at, length)
    };
    str::from_utf8(bytes).unwrap_or("")
}

fn text_of(answer: u32) -> &'static str {
    // SAFETY: the text is static, ends in a 0, and any thread may ask for it (tcpcore.h).
    unsafe { text_at(sys::tcpcore_strerror(answer)) }
}

impl fmt::Display for Error {
    fn fmt(&self, f: &mut fmt::Formatter<'_>) -> fmt::Result {
        f.write_str(text_of(self.number()))
    }
}

#[cfg(feature = "std")]
impl std::error::Error for Error {}

/// Why bytes are no segment, by the first fault; nothing changed. Its `Display` is the library's text.
#[derive(Clone, Copy, Debug, PartialEq, Eq, Hash)]
pub enum Malformed {
    /// Fewer than 20 bytes.
    TooShort = 1,
    /// More than 65,515 bytes.
    TooLong = 2,
    /// The checksum over segment and pseudo-header (RFC 9293, 3.1).
    BadChecksum = 3,
    /// The data offset is below 5 words or behind the end.
    BadOffset = 4,
    /// An option has no length, or one that doesn't fit.
    BadOption = 5,
    /// A byte behind the end of the options isn't 0.
    BadPadding = 6,
}

const MALFORMED: [Malformed; 6] =
    [Malformed::TooShort, Malformed::TooLong, Malformed::BadChecksum, Malformed::BadOffset, Malformed::BadOption, Malformed::BadPadding];

impl fmt::Display for Malformed {
    fn fmt(&self, f: &mut fmt::Formatter<'_>) -> fmt::Result {
        f.write_str(text_of(*self as u32))
    }
}

#[cfg(feature = "std")]
impl std::error::Error for Malformed {}

/// What became of a segment that arrived.
#[derive(Clone, Copy, Debug, PartialEq, Eq, Hash)]
pub enum Arrival {
    /// It was taken.
    Taken,
    /// It was passed over; an answer may be due.
    Dropped,
    /// It is another connection's; nothing changed.
    NotMine,
    /// It is a reset that counts as lost, and nothing changed: of a [`Connection`](crate::Connection) alone, in TIME-WAIT (RFC 1337, 3),
    /// and in CLOSING and LAST-ACK while bytes are unread, which it would discard.
    Withheld,
    /// It is none.
    Malformed(Malformed),
}

impl Arrival {
    /// Of an answer that tcpcore.h has for an arrival.
    pub(crate) fn of(answer: u32) -> Arrival {
        match answer {
            0 => Arrival::Taken,
            56 => Arrival::NotMine,
            59 => Arrival::Withheld,
            1..=6 => Arrival::Malformed(MALFORMED[answer as usize - 1]),
            _ => Arrival::Dropped,
        }
    }
}

/// The number of EMIT_FIRST in `tcpcore.h`.
pub(crate) const EMIT_FIRST: u32 = 58;

/// A segment wasn't taken, and nothing changed: a timer has expired, and what was due then has to go out before anything arrives. Call
/// [`Connection::poll_transmit`](crate::Connection::poll_transmit) until it has nothing, and hand the same segment in again. Its
/// `Display` is the library's text.
#[derive(Clone, Copy, Debug, PartialEq, Eq, Hash)]
pub struct EmitFirst;

impl fmt::Display for EmitFirst {
    fn fmt(&self, f: &mut fmt::Formatter<'_>) -> fmt::Result {
        f.write_str(text_of(EMIT_FIRST))
    }
}

#[cfg(feature = "std")]
impl std::error::Error for EmitFirst {}

/// What [`End::receive`](crate::End::receive) hands over.
#[derive(Clone, Copy, Debug, PartialEq, Eq, Hash)]
pub enum Received {
    /// So many bytes; more may be there.
    Bytes(usize),
    /// Nothing yet.
    Nothing,
    /// The peer closed, and all its bytes were handed over: nothing will come.
    EndOfStream,
}

impl Received {
    pub(crate) fn of(answer: u32, count: usize) -> Result<Received, Error> {
        match answer {
            0 => Ok(Received::Bytes(count)),
            51 => Ok(Received::Nothing),
            52 => Ok(Received::EndOfStream),
            answer => Err(Error::of(answer)),
        }
    }
}

/// The phases (RFC 9293, 3.3.2).
#[derive(Clone, Copy, Debug, PartialEq, Eq, Hash)]
#[allow(missing_docs)]
pub enum Phase {
    Closed,
    Listen,
    SynSent,
    SynReceived,
    Established,
    FinWait1,
    FinWait2,
    CloseWait,
    Closing,
    LastAck,
    TimeWait,
}

const PHASES: [Phase; 11] = [
    Phase::Closed,
    Phase::Listen,
    Phase::SynSent,
    Phase::SynReceived,
    Phase::Established,
    Phase::FinWait1,
    Phase::FinWait2,
    Phase::CloseWait,
    Phase::Closing,
    Phase::LastAck,
    Phase::TimeWait,
];

impl Phase {
    pub(crate) fn of(number: u32) -> Phase {
        PHASES[number as usize]
    }
}

/// How the connection ended.
#[derive(Clone, Copy, Debug, PartialEq, Eq, Hash)]
pub enum Ending {
    /// It didn't.
    NotEnded,
    /// Both sides closed, and knew it; what is unread can still be read.
    Orderly,
    /// The peer reset it; what was queued or unread is given up.
    Reset,
    /// This side gave it up; so is what was queued or unread.
    Aborted,
}

impl Ending {
    pub(crate) fn of(number: u32) -> Ending {
        [Ending::NotEnded, Ending::Orderly, Ending::Reset, Ending::Aborted][number as usize]
    }
}

/// A timer. `tcpcore.h` says when each starts and how long it takes.
#[derive(Clone, Copy, Debug, PartialEq, Eq, Hash)]
pub enum Timer {
    /// The retransmission timeout (RFC 9293, 3.8.1).
    Retransmit = 0,
    /// What the peer's blocks passed over is taken for lost.
    Reorder = 1,
    /// The TIME-WAIT timeout (RFC 9293, 3.10.8).
    TimeWait = 2,
}

/// A timer of a connection that has expired.
#[derive(Clone, Copy, Debug, PartialEq, Eq, Hash)]
pub enum Expired {
    /// The retransmission timeout (RFC 9293, 3.8.1): what is in flight is due again.
    Retransmit = 0,
    /// What the peer's blocks passed over is taken for lost, and is due again.
    Reorder = 1,
    /// The TIME-WAIT timeout (RFC 9293, 3.10.8): the connection has ended in order.
    TimeWait = 2,
    /// The user timeout (RFC 9293, 3.8.3), that of a SYN, or the limit of FIN-WAIT-2: the connection is aborted.
    User = 3,
}

impl Expired {
    pub(crate) fn of(number: u32) -> Expired {
        [Expired::Retransmit, Expired::Reorder, Expired::TimeWait, Expired::User][number as usize]
    }
}

/// Which timers have to run.
#[derive(Clone, Copy, Debug, Default, PartialEq, Eq, Hash)]
pub struct Timers {
    /// [`Timer::Retransmit`].
    pub retransmit: bool,
    /// [`Timer::Reorder`].
    pub reorder: bool,
    /// [`Timer::TimeWait`].
    pub time_wait: bool,
}

/// What an end tells of itself.
#[derive(Clone, Copy, Debug, PartialEq, Eq)]
pub struct Status {
    /// The phase.
    pub phase: Phase,
    /// How the connection ended.
    pub ending: Ending,
    /// Bytes that wait to be received.
    pub unread: u64,
    /// Sent bytes that the peer has acknowledged.
    pub released: u64,
    /// Received bytes, read or not, in order.
    pub ordered: u64,
    /// SND.UNA as a position of the own direction: its SYN is at 0, byte i at 1 + i.
    pub snd_una: u64,
    /// RCV.NXT as a position of the peer's direction; 1 until its SYN has come.
    pub rcv_position: u64,
    /// Bytes of a long text that `send` would take.
    pub room: u64,
    /// Bytes that were taken and not released.
    pub queued: u64,
    /// Those of them that were sent.
    pub in_flight: u64,
    /// SND.NXT as a position of the own direction.
    pub snd_nxt: u64,
    /// RCV.WND in bytes.
    pub rcv_wnd: u32,
    /// Whether a `close` was accepted.
    pub is_closing: bool,
    /// Whether the peer's FIN was taken.
    pub is_finished: bool,
    /// SND.WND in bytes; 0 until the own SYN was acknowledged.
    pub snd_wnd: u32,
    /// What the two SYNs agreed on, once the peer's was taken.
    pub agreed: Option<Agreed>,
}

/// What the two SYNs agreed on.
#[derive(Clone, Copy, Debug, PartialEq, Eq)]
pub struct Agreed {
    /// The most text bytes of a segment; options take of it.
    pub mss: u32,
    /// The shifts of the windows that this end tells and that the peer tells, where windows are scaled.
    pub shifts: Option<(u8, u8)>,
    /// Whether selective acknowledgement is in use.
    pub sack: bool,
}

impl Status {
    pub(crate) fn of(told: &sys::Status) -> Status {
        let agreed =
            Agreed { mss: told.mss, shifts: (told.scaling == 1).then_some((told.own_shift, told.peer_shift)), sack: told.sack == 1 };
        Status {
            phase: Phase::of(told.phase),
            ending: Ending::of(told.ending),
            unread: told.unread,
            released: told.released,
            ordered: told.ordered,
            snd_una: told.snd_una,
            rcv_position: told.rcv_position,
            room: told.room,
            queued: told.queued,
            in_flight: told.in_flight,
            snd_nxt: told.snd_nxt,
            rcv_wnd: told.rcv_wnd,
            is_closing: told.closing == 1,
            is_finished: told.finished == 1,
            snd_wnd: told.snd_wnd,
            agreed: (told.mss > 0).then_some(agreed),
        }
    }
}
