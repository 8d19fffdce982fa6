//! Losses that are found by time (RFC 8985).
use super::Connection;
use crate::answers::done;
#[cfg(feature = "alloc")]
use crate::boxed::{free_block, new_block};
use crate::{sys, Error, Time};
use core::mem::MaybeUninit;

/// How many bytes of a block are enough for [`Connection::set_recovery_in`], wherever the block begins.
pub const RECOVERY_MEMORY: usize = sys::RECOVERY_MEMORY;

impl<'m> Connection<'m> {
    /// As [`Connection::set_recovery`], in a block of the caller's of [`RECOVERY_MEMORY`] bytes or more, whatever they hold.
    ///
    /// # Errors
    /// [`Error::InUse`] where it was called already, else [`Error::NoRule`] where text was sent; [`Error::NoMemory`].
    pub fn set_recovery_in(&mut self, block: &'m mut [MaybeUninit<u8>], now: Time) -> Result<(), Error> {
        // SAFETY: the block is borrowed for as long as the connection lives; else as of the calls of mod.rs.
        done(unsafe { sys::tcpcore_connection_set_recovery(self.raw.as_ptr(), now.as_micros(), block.as_mut_ptr().cast(), block.len()) })
    }
}

#[cfg(feature = "alloc")]
impl Connection<'_> {
    /// From `now` on losses are found by time, and the end of what is sent is probed, in the place of a round trip behind a gap (RFC 8985):
    /// where both SYNs agree on selective acknowledgement; else silence alone is probed, by the first two segments in flight. Only a few losses
    /// wait for the retransmission timeout then; and what is late by less than a quarter of the least round trip isn't taken for lost. Choose a congestion window, too
    /// ([`set_congestion`](Connection::set_congestion)): without one all that looks lost goes out again at once. It takes memory of its own.
    /// Call it once, any time before text is sent, also right after the making of the connection: of text that was sent before it wouldn't be
    /// known when.
    ///
    /// ```
    /// # use tcpcore::{Config, Congestion, Connection, Rules, Time};
    /// # let (here, there, now) = ([10, 0, 0, 1], [10, 0, 0, 2], Time::ZERO);
    /// let mut client = Connection::connect(&Config::new(here, 1, 1000), &Rules::new(), (there, 2), now)?;
    /// client.set_congestion(Congestion::Cubic);
    /// client.set_recovery(now)?;
    /// # Ok::<(), tcpcore::Error>(())
    /// ```
    ///
    /// # Errors
    /// [`Error::InUse`] where it was called already, else [`Error::NoRule`] where text was sent; [`Error::NoMemory`] where the heap has none.
    pub fn set_recovery(&mut self, now: Time) -> Result<(), Error> {
        let block = new_block(RECOVERY_MEMORY)?;
        // SAFETY: the block is given back behind the connection alone, in drop, or here, where it isn't used.
        match done(unsafe { sys::tcpcore_connection_set_recovery(self.raw.as_ptr(), now.as_micros(), block.cast(), RECOVERY_MEMORY) }) {
            Ok(()) => {
                self.recovery = Some(block);
                Ok(())
            }
            Err(error) => {
                unsafe { free_block(block) };
                Err(error)
            }
        }
    }
}
