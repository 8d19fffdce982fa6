//! One event on a world whose heap has too little left, and that event again with memory.
use crate::given::Given;
use crate::heaps::{leave, new_heap};
use crate::seen::{Seen, see};
use std::alloc::Global;
use tcp_replay::{Event, Outcome, StepError, World};

/// The outcome of an event.
#[derive(Clone, Copy, PartialEq)]
struct Answer {
    outcome: Outcome,
    seen: Seen,
}

/// The outcome of an event with some blocks left.
#[derive(Clone, Copy)]
struct Tried {
    is_refused: bool,
    /// Whether nothing had changed.
    is_kept: bool,
    /// The outcome then, with memory where it was refused.
    answer: Answer,
}

/// The outcome of the last event where there is memory.
fn answer_with_memory(alloc: Global, given: &Given) -> Option<Answer> {
    let (last, base) = given.events.split_last()?;
    let mut world = World::new(alloc, given.a, given.b).ok()?;
    world.run(base).ok()?;
    let outcome = world.step(last).ok()?;
    let seen = see(&world);
    Some(Answer { outcome, seen })
}

/// Tries the event with some blocks left, and then, where it was refused by 34, with memory.
fn try_event(
    alloc: Global,
    given: &Given,
    base: &[Event],
    event: &Event,
    blocks: usize,
) -> Option<Tried> {
    let heap = new_heap(alloc)?;
    let mut world = World::new_in(&heap, given.a, given.b).ok()?;
    world.run(base).ok()?;
    let taken = leave(alloc, &heap, blocks).ok()?;
    let before = see(&world);
    let first = world.step(event);
    let is_refused = first == Err(StepError::NoMemory);
    let is_kept = see(&world) == before;
    drop(taken);
    let outcome = if is_refused {
        world.step(event).ok()?
    } else {
        first.ok()?
    };
    let seen = see(&world);
    let answer = Answer { outcome, seen };
    Some(Tried {
        is_refused,
        is_kept,
        answer,
    })
}

/// How often the last event is refused, with a block more left each time, until there is enough. `None` where a refusal
/// changed anything, or where the outcome isn't the one with memory.
pub(crate) fn count_refusals(alloc: Global, given: &Given) -> Option<usize> {
    let wanted = answer_with_memory(alloc, given)?;
    let (last, base) = given.events.split_last()?;
    for blocks in 0..64usize {
        let tried = try_event(alloc, given, base, last, blocks)?;
        if tried.answer != wanted || tried.is_refused && !tried.is_kept {
            return None;
        }
        if !tried.is_refused {
            return Some(blocks);
        }
    }
    None
}
