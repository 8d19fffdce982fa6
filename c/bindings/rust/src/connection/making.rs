//! How a connection is made and freed.
use super::Connection;
use crate::answers::done;
#[cfg(feature = "alloc")]
use crate::boxed::{free_block, new_block};
use crate::{memory_with_runs, sys, Addr, Config, Error, Rules, Time, RUNS};
use core::ffi::c_void;
use core::marker::PhantomData;
use core::mem::{align_of, size_of, MaybeUninit};
use core::ptr::NonNull;

/// How many bytes of a block are enough for a connection of these capacities with [`RUNS`] runs, wherever the block begins.
pub const fn connection_memory(send: usize, receive: usize) -> usize {
    connection_memory_with_runs(send, receive, RUNS)
}

/// The same with a number of runs, 1 or more: see [`Config::runs`].
pub const fn connection_memory_with_runs(send: usize, receive: usize, runs: u16) -> usize {
    memory_with_runs(send, receive, runs) - sys::END_SIZE + sys::CONNECTION_SIZE
}

/// No connection.
const NONE: sys::Connection = sys::Connection { opaque: [0; 3] };

/// Makes a connection by `open`, which is given its struct and the block for the rest. The struct lies at the front of the block, where
/// it stays: C's may not move.
fn make(
    block: &mut [MaybeUninit<u8>],
    open: impl FnOnce(*mut sys::Connection, *mut c_void, usize) -> u32,
) -> Result<NonNull<sys::Connection>, Error> {
    let start = block.as_mut_ptr();
    let skipped = start.align_offset(align_of::<sys::Connection>());
    let place = skipped.saturating_add(size_of::<sys::Connection>());
    if block.len() < place {
        // Without any memory C says what is wrong with the config, or that it wants memory.
        let mut nowhere = NONE;
        done(open(&mut nowhere, start.cast(), 0))?;
        return Err(Error::NoMemory);
    }
    // SAFETY: the struct, aligned, and what is left lie in the block behind one another.
    let (raw, rest) = unsafe { (start.add(skipped).cast::<sys::Connection>(), start.add(place)) };
    unsafe { raw.write(NONE) };
    done(open(raw, rest.cast(), block.len() - place))?;
    NonNull::new(raw).ok_or(Error::NoMemory)
}

impl<'m> Connection<'m> {
    /// As [`Connection::connect`], in a block of the caller's of [`connection_memory`] or [`Config::connection_room`] bytes or more,
    /// whatever they hold. It takes no other memory.
    ///
    /// ```
    /// use std::mem::MaybeUninit;
    /// use tcpcore::{connection_memory, Config, Connection, Rules, Time};
    ///
    /// let mut block = [MaybeUninit::uninit(); connection_memory(1000, 1000)];
    /// let config = Config::new([10, 0, 0, 1], 80, 1).capacities(1000, 1000);
    /// let connection = Connection::connect_in(&mut block, &config, &Rules::new(), ([10, 0, 0, 2], 80), Time::ZERO)?;
    /// # drop(connection);
    /// # Ok::<(), tcpcore::Error>(())
    /// ```
    ///
    /// # Errors
    /// [`Error::BadAddr`], [`Error::BadPort`], [`Error::BadRules`], [`Error::BadCapacity`], [`Error::BadMss`], [`Error::BadShift`],
    /// [`Error::BadLimit`], [`Error::BadRuns`], [`Error::NoMemory`], the first that applies.
    pub fn connect_in(
        block: &'m mut [MaybeUninit<u8>],
        config: &Config,
        rules: &Rules,
        peer: (Addr, u16),
        now: Time,
    ) -> Result<Connection<'m>, Error> {
        let (addr, port, now) = (sys::Addr { byte: peer.0 }, peer.1, now.as_micros());
        // SAFETY: the block is borrowed for as long as the connection lives; config and rules are read alone.
        let raw = make(block, |raw, rest, left| unsafe {
            sys::tcpcore_connection_connect(raw, &config.0, &rules.0, addr, port, now, rest, left)
        })?;
        Ok(Connection::of(raw))
    }

    /// As [`Connection::listen`], in a block of the caller's, as [`Connection::connect_in`].
    ///
    /// # Errors
    /// As of [`Connection::connect_in`].
    pub fn listen_in(block: &'m mut [MaybeUninit<u8>], config: &Config, rules: &Rules, now: Time) -> Result<Connection<'m>, Error> {
        // SAFETY: as of `connect_in`.
        let raw = make(block, |raw, rest, left| unsafe {
            sys::tcpcore_connection_listen(raw, &config.0, &rules.0, now.as_micros(), rest, left)
        })?;
        Ok(Connection::of(raw))
    }

    fn of(raw: NonNull<sys::Connection>) -> Connection<'m> {
        Connection {
            raw,
            #[cfg(feature = "alloc")]
            owned: None,
            #[cfg(feature = "alloc")]
            recovery: None,
            block: PhantomData,
        }
    }
}

#[cfg(feature = "alloc")]
impl Connection<'static> {
    /// Opens a connection to an address and port (RFC 9293, 3.10.1), in memory of its own: SYN-SENT, a SYN is due.
    ///
    /// # Errors
    /// As of [`Connection::connect_in`]; [`Error::NoMemory`] where the heap has none, too.
    pub fn connect(config: &Config, rules: &Rules, peer: (Addr, u16), now: Time) -> Result<Connection<'static>, Error> {
        Connection::owning(config, |block| Connection::connect_in(block, config, rules, peer, now))
    }

    /// Waits for one peer (RFC 9293, 3.10.1), in memory of its own: LISTEN.
    ///
    /// # Errors
    /// As of [`Connection::connect`].
    pub fn listen(config: &Config, rules: &Rules, now: Time) -> Result<Connection<'static>, Error> {
        Connection::owning(config, |block| Connection::listen_in(block, config, rules, now))
    }

    /// What `open` makes in a new block, which it owns.
    fn owning(
        config: &Config,
        open: impl FnOnce(&'static mut [MaybeUninit<u8>]) -> Result<Connection<'static>, Error>,
    ) -> Result<Connection<'static>, Error> {
        let block = new_block(config.connection_room())?;
        // SAFETY: the block is given back behind the connection alone, in drop, or here, where there is none.
        match open(unsafe { &mut *block }) {
            Ok(mut connection) => {
                connection.owned = Some(block);
                Ok(connection)
            }
            Err(error) => {
                unsafe { free_block(block) };
                Err(error)
            }
        }
    }
}

impl Drop for Connection<'_> {
    fn drop(&mut self) {
        // SAFETY: it holds a connection, which nobody uses behind this; its blocks are freed last.
        unsafe {
            sys::tcpcore_connection_free(self.raw.as_ptr());
            #[cfg(feature = "alloc")]
            for block in [self.owned, self.recovery].into_iter().flatten() {
                free_block(block);
            }
        }
    }
}

impl Config {
    /// How many bytes of a block are enough for a connection with it; 0 where a capacity or the number of runs is out of its range.
    ///
    /// ```
    /// let config = tcpcore::Config::new([10, 0, 0, 1], 80, 77).capacities(20_000, 200_000);
    /// assert_eq!(config.connection_room(), tcpcore::connection_memory(20_000, 200_000));
    /// ```
    pub fn connection_room(&self) -> usize {
        // SAFETY: it is read alone.
        match unsafe { sys::tcpcore_connection_room(&self.0) } {
            0 => 0,
            room => room + sys::STRUCT_ROOM,
        }
    }
}
