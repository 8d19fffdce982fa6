//! An end that owns its block.
use crate::{Config, End, Error, Placed};
use alloc::boxed::Box;
use alloc::vec::Vec;
use core::mem::{ManuallyDrop, MaybeUninit};
use core::ops::{Deref, DerefMut};

/// An end with a block of its own on the heap: it may be moved, stored and sent to another thread.
pub struct Boxed {
    end: ManuallyDrop<Placed<'static>>,
    block: *mut [MaybeUninit<u8>],
}

// SAFETY: it owns its block, which nobody else knows; End says the rest.
unsafe impl Send for Boxed {}
unsafe impl Sync for Boxed {}

/// A block of so many bytes on the heap.
pub(crate) fn new_block(room: usize) -> Result<*mut [MaybeUninit<u8>], Error> {
    let mut memory = Vec::<MaybeUninit<u8>>::new();
    memory.try_reserve_exact(room).map_err(|_| Error::NoMemory)?;
    // SAFETY: bytes that may be uninitialized are all of it.
    unsafe { memory.set_len(room) };
    Ok(Box::into_raw(memory.into_boxed_slice()))
}

/// Gives a block back.
///
/// # Safety
/// It is of [`new_block`], and nobody uses it behind this.
pub(crate) unsafe fn free_block(block: *mut [MaybeUninit<u8>]) {
    drop(unsafe { Box::from_raw(block) });
}

impl Boxed {
    /// As [`Placed::new`], in a block of [`Config::room`] bytes.
    ///
    /// # Errors
    /// Those of [`Placed::new`]; [`Error::NoMemory`] where the heap has none, too.
    pub fn new(config: &Config) -> Result<Boxed, Error> {
        let block = new_block(config.room())?;
        // SAFETY: the block is given back behind the end alone, in drop or here.
        match Placed::new(config, unsafe { &mut *block }) {
            Ok(end) => Ok(Boxed { end: ManuallyDrop::new(end), block }),
            Err(error) => {
                unsafe { free_block(block) };
                Err(error)
            }
        }
    }
}

impl Deref for Boxed {
    type Target = End;
    fn deref(&self) -> &End {
        &self.end
    }
}

impl DerefMut for Boxed {
    fn deref_mut(&mut self) -> &mut End {
        &mut self.end
    }
}

impl Drop for Boxed {
    fn drop(&mut self) {
        // SAFETY: the end is let go first, and nobody uses either behind this.
        unsafe {
            ManuallyDrop::drop(&mut self.end);
            free_block(self.block);
        }
    }
}
