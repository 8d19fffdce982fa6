//! The record in the place of an end in TIME-WAIT.
use crate::answers::{done, Arrival, Ending, Error, Phase, Timer};
use crate::{sys, Addr, RESET_ROOM};

/// The record in the place of an end in TIME-WAIT: a plain value, which may be stored and moved. A clone is another record.
#[derive(Clone, Debug, PartialEq, Eq)]
pub struct TimeWait(pub(crate) sys::TimeWait);

impl TimeWait {
    /// A segment has come, as to [`End::arrive`](crate::End::arrive).
    pub fn arrive(&mut self, src: Addr, dst: Addr, segment: &[u8]) -> Arrival {
        let (src, dst) = (sys::Addr { byte: src }, sys::Addr { byte: dst });
        // SAFETY: here and below: what is borrowed is Rust's own, and apart.
        Arrival::of(unsafe { sys::tcpcore_time_wait_arrive(&mut self.0, src, dst, segment.as_ptr().cast(), segment.len()) })
    }

    /// The timer has run out: TIME-WAIT's ends the connection. Answers whether its rule was applied.
    pub fn timer(&mut self, timer: Timer) -> bool {
        unsafe { sys::tcpcore_time_wait_timer(&mut self.0, timer as u32) == 0 }
    }

    /// Writes the segment that is due, if one is: the address it is for, and its bytes in `room`.
    pub fn emit<'r>(&mut self, room: &'r mut [u8; RESET_ROOM]) -> Option<(Addr, &'r [u8])> {
        let (mut to, mut length) = (sys::Addr::default(), 0);
        let answer = unsafe { sys::tcpcore_time_wait_emit(&mut self.0, room.as_mut_ptr().cast(), RESET_ROOM, &mut to, &mut length) };
        (answer == 0).then(|| (to.byte, &room[..length]))
    }

    /// The length of the segment that is due, 0 where none is.
    pub fn pending(&self) -> usize {
        let mut due = 0;
        unsafe { sys::tcpcore_time_wait_pending(&self.0, &mut due) };
        due as usize
    }

    /// Aborts the connection, as [`End::abort`](crate::End::abort).
    ///
    /// # Errors
    /// [`Error::Ended`].
    pub fn abort(&mut self) -> Result<(), Error> {
        done(unsafe { sys::tcpcore_time_wait_abort(&mut self.0) })
    }

    /// The phase, TIME-WAIT or CLOSED, and how the connection ended.
    pub fn status(&self) -> (Phase, Ending) {
        let (mut phase, mut ending) = (0, 0);
        unsafe { sys::tcpcore_time_wait_status(&self.0, &mut phase, &mut ending) };
        (Phase::of(phase), Ending::of(ending))
    }
}
