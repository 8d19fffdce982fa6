//! What can be observed of two ends.
use std::alloc::Allocator;
use tcp_conn::{Ending, Phase};
use tcp_replay::{Side, World};

/// Of one side.
#[derive(Clone, Copy, PartialEq)]
struct SeenSide {
    accepted: usize,
    delivered: usize,
    count: usize,
    unread: usize,
    released: u64,
    ordered: u64,
    phase: Phase,
    ending: Ending,
    timers: (bool, bool, bool),
    closed: bool,
    ended: bool,
}

/// Of both.
#[derive(Clone, Copy, PartialEq)]
pub(crate) struct Seen {
    a: SeenSide,
    b: SeenSide,
}

fn see_side<A: Allocator + Copy>(world: &World<A>, side: Side) -> SeenSide {
    let end = world.endpoint(side);
    SeenSide {
        accepted: world.accepted(side).len(),
        delivered: world.delivered(side).len(),
        count: world.count(side),
        unread: end.unread(),
        released: end.released(),
        ordered: end.ordered(),
        phase: end.phase(),
        ending: end.ending(),
        timers: end.timers(),
        closed: world.closed(side),
        ended: world.ended(side),
    }
}

pub(crate) fn see<A: Allocator + Copy>(world: &World<A>) -> Seen {
    Seen {
        a: see_side(world, Side::A),
        b: see_side(world, Side::B),
    }
}
