//! A run that stops where there is no memory, and continues with it.
use crate::given::Given;
use crate::heaps::{leave, new_heap};
use crate::seen::{Seen, see};
use std::alloc::{Allocator, Global};
use tcp_replay::{StepError, World};

/// What is observed after the first events where there is memory.
fn seen_behind(alloc: Global, given: &Given, count: usize) -> Option<Seen> {
    let mut world = World::new(alloc, given.a, given.b).ok()?;
    world.run(given.events.get(..count)?).ok()?;
    Some(see(&world))
}

/// Where a run stops, what is observed then, and at the end, with memory.
#[derive(Clone, Copy)]
struct Stop {
    at: Option<usize>,
    seen: Seen,
    last: Seen,
}

fn try_run(alloc: Global, given: &Given, blocks: usize) -> Option<Stop> {
    let heap = new_heap(alloc)?;
    let mut world = World::new_in(&heap, given.a, given.b).ok()?;
    let taken = leave(alloc, &heap, blocks).ok()?;
    let at = match world.run(&given.events) {
        Ok(()) => None,
        Err((at, StepError::NoMemory)) => Some(at),
        Err(_) => return None,
    };
    let seen = see(&world);
    drop(taken);
    if let Some(at) = at {
        world.run(given.events.get(at..)?).ok()?;
    }
    let last = see(&world);
    Some(Stop { at, seen, last })
}

/// How often a run of all events stops, with a block more left each time, until there is enough. `None` where the
/// events before the stop weren't done exactly, or where the run continues otherwise with memory.
pub(crate) fn count_stops(alloc: Global, given: &Given) -> Option<usize> {
    let wanted = seen_behind(alloc, given, given.events.len())?;
    for blocks in 0..256usize {
        let stop = try_run(alloc, given, blocks)?;
        if stop.last != wanted {
            return None;
        }
        let Some(at) = stop.at else {
            return Some(blocks);
        };
        if stop.seen != seen_behind(alloc, given, at)? {
            return None;
        }
    }
    None
}
