//! An end in a block that it borrows.
use crate::answers::done;
use crate::{sys, Config, End, Error, RUNS};
use core::marker::PhantomData;
use core::mem::MaybeUninit;
use core::ops::{Deref, DerefMut};
use core::ptr::{self, NonNull};

/// How many bytes of a block are enough for an end of these capacities with [`RUNS`] runs, wherever the block begins.
pub const fn memory(send: usize, receive: usize) -> usize {
    memory_with_runs(send, receive, RUNS)
}

/// The same with a number of runs, 1 or more: see [`Config::runs`].
///
/// ```
/// use tcpcore::{memory, memory_with_runs, Config, MAX_RUNS, RUNS};
/// assert_eq!(memory_with_runs(1000, 1000, RUNS), memory(1000, 1000));
/// assert_eq!(memory_with_runs(1000, 1000, MAX_RUNS), Config::new([10, 0, 0, 1], 80, 1).capacities(1000, 1000).runs(MAX_RUNS).room());
/// ```
pub const fn memory_with_runs(send: usize, receive: usize, runs: u16) -> usize {
    let marks = in_units(runs as usize * sys::MARK_SIZE);
    let held = (runs as usize + 1) * sys::HELD_SIZE;
    in_units(send) + in_units(receive) + marks + held + sys::END_SIZE + sys::UNIT - 1 + sys::STRUCT_ROOM
}

/// So many bytes in whole units.
const fn in_units(size: usize) -> usize {
    (size + sys::UNIT - 1) / sys::UNIT * sys::UNIT
}

/// An end in a block that it borrows. It can be moved, and is freed when it is dropped.
pub struct Placed<'m> {
    /// The C struct, at the front of the block, where it stays; behind it lies what the library has.
    raw: NonNull<sys::End>,
    block: PhantomData<&'m mut [MaybeUninit<u8>]>,
}

// SAFETY: as of End.
unsafe impl Send for Placed<'_> {}
unsafe impl Sync for Placed<'_> {}

impl<'m> Placed<'m> {
    /// Makes an end: CLOSED, empty, nothing due. All of it lies in the block, of [`memory`] or [`Config::room`] bytes or more,
    /// whatever they hold.
    ///
    /// ```
    /// use std::mem::MaybeUninit;
    /// use tcpcore::{memory, Config, Placed};
    ///
    /// let mut block = [MaybeUninit::uninit(); memory(1000, 1000)];
    /// let mut end = Placed::new(&Config::new([10, 0, 0, 1], 80, 1).capacities(1000, 1000), &mut block)?;
    /// end.listen()?;
    /// # Ok::<(), tcpcore::Error>(())
    /// ```
    ///
    /// # Errors
    /// [`Error::BadAddr`], [`Error::BadPort`], [`Error::BadCapacity`], [`Error::BadMss`], [`Error::BadShift`], [`Error::BadLimit`],
    /// [`Error::BadRuns`], [`Error::NoMemory`], the first that applies.
    pub fn new(config: &Config, block: &'m mut [MaybeUninit<u8>]) -> Result<Placed<'m>, Error> {
        let mut raw = ptr::null_mut();
        // SAFETY: the block is borrowed for as long as the end lives.
        done(unsafe { sys::tcpcore_new_at(&mut raw, &config.0, block.as_mut_ptr().cast(), block.len()) })?;
        Ok(Placed { raw: NonNull::new(raw).ok_or(Error::NoMemory)?, block: PhantomData })
    }

    fn end(&self) -> *mut End {
        ptr::slice_from_raw_parts_mut(self.raw.as_ptr().cast::<u8>(), 0) as *mut End
    }
}

impl Deref for Placed<'_> {
    type Target = End;
    fn deref(&self) -> &End {
        // SAFETY: the struct lies there, and is borrowed with this.
        unsafe { &*self.end() }
    }
}

impl DerefMut for Placed<'_> {
    fn deref_mut(&mut self) -> &mut End {
        // SAFETY: as above.
        unsafe { &mut *self.end() }
    }
}

impl Drop for Placed<'_> {
    fn drop(&mut self) {
        // SAFETY: it holds an end, which nobody uses behind this.
        unsafe { sys::tcpcore_free(self.raw.as_ptr()) };
    }
}
