//! The facts of a settled world, checked by plain code.
use crate::settling::places::other;
use std::alloc::{AllocError, Global};
use tcp_conn::Ending;
use tcp_replay::{Side, World};

/// How many of some facts didn't hold.
fn count_failed(facts: &[bool]) -> u32 {
    let mut failed: u32 = 0;
    for fact in facts {
        failed = failed.saturating_add(u32::from(!*fact));
    }
    failed
}

/// How many facts of the direction of this side didn't hold: all that was accepted is delivered, all of it is released,
/// and where its user closed the end of the stream was delivered.
fn failed_of(world: &World, side: Side) -> u32 {
    let accepted = world.accepted(side);
    count_failed(&[
        world.delivered(other(side)) == accepted,
        world.endpoint(side).released() == accepted.len() as u64,
        !world.closed(side) || world.ended(other(side)),
    ])
}

/// Whether all of both directions is delivered.
pub(crate) fn is_delivered(world: &World) -> bool {
    failed_of(world, Side::A) == 0 && failed_of(world, Side::B) == 0
}

fn is_orderly(world: &World, side: Side) -> bool {
    world.endpoint(side).ending() == Ending::Orderly
}

/// How many facts didn't hold, of both directions; and where both users closed, both ends ended in order.
pub(crate) fn failed_in(world: &World) -> u32 {
    let both_closed = world.closed(Side::A) && world.closed(Side::B);
    count_failed(&[
        !both_closed || is_orderly(world, Side::A),
        !both_closed || is_orderly(world, Side::B),
    ])
    .saturating_add(failed_of(world, Side::A))
    .saturating_add(failed_of(world, Side::B))
}

pub(crate) fn is_settled(world: &World) -> bool {
    failed_in(world) == 0
}

/// What the user of a side requested.
#[derive(Drop)]
struct Asked {
    accepted: Vec<u8>,
    closed: bool,
}

impl Asked {
    fn of(alloc: Global, world: &World, side: Side) -> Result<Asked, AllocError> {
        Ok(Asked {
            accepted: world.accepted(side).to_vec(alloc)?,
            closed: world.closed(side),
        })
    }

    /// How many of the two are different now.
    fn changed(&self, world: &World, side: Side) -> u32 {
        count_failed(&[
            world.accepted(side) == self.accepted.as_slice(),
            world.closed(side) == self.closed,
        ])
    }
}

/// What both users requested.
#[derive(Drop)]
pub(crate) struct AllAsked {
    a: Asked,
    b: Asked,
}

impl AllAsked {
    pub(crate) fn of(alloc: Global, world: &World) -> Result<AllAsked, AllocError> {
        Ok(AllAsked {
            a: Asked::of(alloc, world, Side::A)?,
            b: Asked::of(alloc, world, Side::B)?,
        })
    }

    /// How much of it is different now.
    pub(crate) fn changed(&self, world: &World) -> u32 {
        self.a
            .changed(world, Side::A)
            .saturating_add(self.b.changed(world, Side::B))
    }
}
