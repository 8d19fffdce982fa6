//! Events of all kinds, as they come.
use crate::generator::Generator;
use crate::settling::places::other;
use std::alloc::{AllocError, Global};
use tcp_conn::Timer;
use tcp_replay::{Event, Side, World};

/// How the users of a world send and the network carries.
#[derive(Clone, Copy)]
pub(crate) struct Habit {
    /// The lengths of texts.
    pub(crate) lengths: &'static [u32],
    /// Of this many segments that arrive one is any, and the others are the latest.
    pub(crate) any_of: u32,
    /// Of this many events one is a `receive`.
    pub(crate) reads: u32,
    /// Where this many bytes were accepted of a side, it sends no more.
    pub(crate) most: usize,
}

/// Small texts and large ones; bytes one by one; and users who seldom read.
const HABITS: [Habit; 3] = [
    Habit {
        lengths: &[1, 1, 2, 3, 5, 8, 13, 40],
        any_of: 3,
        reads: 8,
        most: 300,
    },
    Habit {
        lengths: &[1],
        any_of: 1,
        reads: 40,
        most: 300,
    },
    Habit {
        lengths: &[1, 2, 5, 40, 300],
        any_of: 4,
        reads: 60,
        most: 300,
    },
];

/// Large texts, where both ends have room for them.
const LARGE: Habit = Habit {
    lengths: &[1, 40, 300, 1000, 3000, 20_000],
    any_of: 3,
    reads: 60,
    most: 60_000,
};

/// One of them; of these the large one where the buffers are.
pub(crate) fn habit_of(generator: &mut Generator, is_large: bool) -> Habit {
    if is_large && !generator.one_in(4) {
        return LARGE;
    }
    HABITS[generator.below(3) as usize % 3]
}

pub(crate) fn side_of(generator: &mut Generator) -> Side {
    if generator.one_in(2) {
        Side::A
    } else {
        Side::B
    }
}

/// A text of `len` bytes.
pub(crate) fn text(alloc: Global, first: u8, len: usize) -> Result<Vec<u8>, AllocError> {
    let mut text = Vec::with_capacity(alloc, len)?;
    let mut byte = first;
    for _ in 0..len {
        text.reserve(1)?;
        text.push_reserved(byte);
        byte = byte.wrapping_mul(5).wrapping_add(11);
    }
    Ok(text)
}

fn next_text(
    alloc: Global,
    generator: &mut Generator,
    habit: Habit,
) -> Result<Vec<u8>, AllocError> {
    let first = (generator.below(256) % 256) as u8;
    let len = generator.one_of(habit.lengths) as usize;
    text(alloc, first, len)
}

/// The number of a segment that this side emitted: the latest, or any.
fn segment_of(generator: &mut Generator, habit: Habit, world: &World, side: Side) -> usize {
    let count = world.count(side);
    if generator.one_in(habit.any_of) {
        generator.below(count.min(100_000) as u32) as usize
    } else {
        count.saturating_sub(1)
    }
}

fn next_timer(generator: &mut Generator) -> Timer {
    match generator.below(8) {
        0 => Timer::TimeWait,
        1..4 => Timer::Reorder,
        _ => Timer::Retransmit,
    }
}

/// A segment that arrives with a byte changed.
pub(crate) fn next_damage(generator: &mut Generator, side: Side, k: usize) -> Event {
    let place = generator.below(24) as usize;
    let value = generator.below(255).saturating_add(1) % 256;
    Event::Damage(side, k, place, value as u8)
}

/// A rare event: at most once or twice in a world.
fn next_seldom(generator: &mut Generator, side: Side) -> Event {
    match generator.below(24) {
        0 => Event::Abort(side),
        1..4 => Event::Connect(side),
        4..7 => Event::Listen(side),
        7..10 => Event::Acknowledge(side),
        10..12 => Event::EmitAcknowledgement(side),
        12..14 => Event::ResendFirst(side),
        _ => Event::Close(side),
    }
}

/// The next event of a world.
pub(crate) fn next_event(
    alloc: Global,
    generator: &mut Generator,
    habit: Habit,
    world: &World,
) -> Result<Event, AllocError> {
    let side = side_of(generator);
    if generator.one_in(habit.reads) {
        return Ok(Event::Receive(side, generator.below(50) as usize));
    }
    Ok(match generator.below(40) {
        0..14 => Event::Emit(side),
        14..26 => Event::Deliver(side, segment_of(generator, habit, world, side)),
        26..34 if world.accepted(side).len() < habit.most => {
            Event::Send(side, next_text(alloc, generator, habit)?)
        }
        26..34 => Event::Emit(side),
        34..37 => Event::Timer(side, next_timer(generator)),
        37 => {
            let k = segment_of(generator, habit, world, side);
            next_damage(generator, side, k)
        }
        _ => next_seldom(generator, side),
    })
}

/// The handshake from this side, up to the arrival of the other's SYN, so that the other end is in SYN-RECEIVED.
pub(crate) fn opening(side: Side) -> [Event; 6] {
    [
        Event::Listen(other(side)),
        Event::Connect(side),
        Event::Emit(side),
        Event::Deliver(side, 0),
        Event::Emit(other(side)),
        Event::Deliver(other(side), 0),
    ]
}

/// That handshake where the SYN came before the other end listened: a reset with number 0 is on its way too.
pub(crate) fn late_opening(side: Side) -> [Event; 9] {
    [
        Event::Connect(side),
        Event::Emit(side),
        Event::Deliver(side, 0),
        Event::Listen(other(side)),
        Event::Emit(other(side)),
        Event::Deliver(side, 0),
        Event::Emit(other(side)),
        Event::Deliver(other(side), 1),
        Event::Emit(side),
    ]
}
