//! A heap that has little memory left.
use linked_list_allocator::LocalHeap;
use std::alloc::{AllocError, Global};

/// The size of a heap in bytes: enough for two ends of small capacities and a few segments.
const SIZE: usize = 8192;

pub(crate) fn new_heap(alloc: Global) -> Option<LocalHeap> {
    LocalHeap::new(alloc, SIZE).ok()
}

/// Allocates 16 bytes of a heap at a time, until there are none, and frees `blocks` of these blocks.
pub(crate) fn leave<'a>(
    alloc: Global,
    heap: &'a LocalHeap,
    blocks: usize,
) -> Result<Vec<Vec<u8, &'a LocalHeap>>, AllocError> {
    let mut taken = Vec::new(alloc);
    for _ in 0..SIZE / 16 {
        let Ok(block) = Vec::with_capacity(heap, 16) else {
            break;
        };
        taken.reserve(1)?;
        taken.push_reserved(block);
    }
    taken.truncate(taken.len().saturating_sub(blocks));
    Ok(taken)
}
