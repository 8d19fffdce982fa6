//! The state of a direction: what its sender knows to be taken, what is taken, what was sent, and what there is.
use crate::settling::segments::segment_at;
use tcp_conn::Ending;
use tcp_replay::{Side, World};

pub(crate) fn other(side: Side) -> Side {
    match side {
        Side::A => Side::B,
        Side::B => Side::A,
    }
}

/// What was found of the segments that one side emitted.
#[derive(Clone, Copy, Default)]
struct Seen {
    count: usize,
    /// The greatest position after one: SND.NXT.
    next: u64,
}

/// What was found of both sides.
#[derive(Clone, Copy, Default)]
pub(crate) struct Nexts {
    a: Seen,
    b: Seen,
}

impl Nexts {
    /// SND.NXT of this side (RFC 9293, 3.3.1), as a position.
    pub(crate) fn of(&mut self, world: &World, side: Side) -> u64 {
        let seen = match side {
            Side::A => &mut self.a,
            Side::B => &mut self.b,
        };
        for k in seen.count..world.count(side) {
            if let Some(segment) = segment_at(world, side, k)
                && !segment.is_reset
            {
                seen.next = seen.next.max(segment.end);
            }
        }
        seen.count = world.count(side);
        seen.next
    }
}

/// SND.UNA of this side (RFC 9293, 3.3.1).
pub(crate) fn una(world: &World, side: Side) -> u64 {
    world.endpoint(side).snd_una()
}

/// RCV.NXT of the other side (RFC 9293, 3.3.1): what is taken of this side's direction.
pub(crate) fn taken(world: &World, side: Side) -> u64 {
    world.endpoint(other(side)).rcv_position()
}

/// The position after all that this side has to send: its SYN, the text that was accepted, and its FIN.
pub(crate) fn total(world: &World, side: Side) -> u64 {
    (world.accepted(side).len() as u64)
        .saturating_add(1)
        .saturating_add(u64::from(world.closed(side)))
}

/// How much of this side's direction isn't taken yet, and isn't known to be taken.
fn left(world: &World, side: Side) -> u64 {
    let all = total(world, side);
    all.saturating_sub(taken(world, side))
        .saturating_add(all.saturating_sub(una(world, side)))
}

/// How much of both directions isn't.
pub(crate) fn left_in(world: &World) -> u64 {
    left(world, Side::A).saturating_add(left(world, Side::B))
}

/// Whether this side took the other's SYN, and hasn't ended.
fn is_live_side(world: &World, side: Side) -> bool {
    let end = world.endpoint(side);
    end.negotiated().is_some() && end.ending() == Ending::NotEnded
}

pub(crate) fn is_live(world: &World) -> bool {
    is_live_side(world, Side::A) && is_live_side(world, Side::B)
}
