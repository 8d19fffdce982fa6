//! Turns of a caller's loop, there and back, while the network is free between turns and in them: old segments arrive,
//! some again and some damaged. No reset arrives, so that no end is reset.
use crate::generator::Generator;
use crate::settling::events::{next_damage, side_of};
use crate::settling::facts::{is_delivered, is_settled};
use crate::settling::failure::Failure;
use crate::settling::places::{left_in, other};
use crate::settling::segments::segment_at;
use tcp_conn::Timer;
use tcp_replay::{Event, Outcome, Side, StepError, World};

/// The most that a user requests at once, in bytes: as much as an end can keep.
const ROOM: usize = 1_048_576;

/// As many emissions as a burst can have: one for each byte that is in flight, the SYN and the FIN; a reset, an
/// acknowledgement, and the one at which nothing is due.
const MOST_EMISSIONS: u32 = 1_048_581;

/// Whether clock, network or a user who only reads does this.
fn is_calm(event: &Event) -> bool {
    matches!(
        event,
        Event::Receive(..)
            | Event::Acknowledge(_)
            | Event::Timer(_, Timer::Retransmit | Timer::Reorder)
            | Event::Emit(_)
            | Event::EmitAcknowledgement(_)
            | Event::ResendFirst(_)
            | Event::Resend(..)
            | Event::Deliver(..)
            | Event::Damage(..)
    )
}

/// One calm event, which may be refused; returns whether a segment was emitted.
pub(crate) fn happen(world: &mut World, event: Event) -> Result<bool, Failure> {
    if !is_calm(&event) {
        return Err(Failure);
    }
    match world.step(&event) {
        Ok(outcome) => Ok(matches!(outcome, Outcome::Emitted(Some(_)))),
        Err(StepError::NoMemory) => Err(Failure),
        Err(_) => Ok(false),
    }
}

/// Segment `k` of this side arrives, unless it is a reset.
fn arrive(world: &mut World, side: Side, k: usize) -> Result<(), Failure> {
    let Some(segment) = segment_at(world, side, k) else {
        return Ok(());
    };
    if !segment.is_reset {
        happen(world, Event::Deliver(side, k))?;
    }
    Ok(())
}

/// Any segment that this side emitted arrives.
fn arrive_old(generator: &mut Generator, world: &mut World, side: Side) -> Result<(), Failure> {
    let count = world.count(side).min(100_000) as u32;
    arrive(world, side, generator.below(count) as usize)
}

/// One more event of the network or the users.
fn disturb_once(generator: &mut Generator, world: &mut World) -> Result<(), Failure> {
    let side = side_of(generator);
    match generator.below(8) {
        0..4 => arrive_old(generator, world, side)?,
        4 => {
            let k = world.count(side).saturating_sub(1);
            happen(world, next_damage(generator, side, k))?;
        }
        5 => {
            happen(world, Event::Receive(side, generator.below(50) as usize))?;
        }
        6 => {
            happen(world, Event::Acknowledge(side))?;
        }
        _ => {
            happen(world, Event::Emit(side))?;
        }
    }
    Ok(())
}

/// A timer expires, or something goes out before its turn.
fn hurry(generator: &mut Generator, world: &mut World) -> Result<(), Failure> {
    let side = side_of(generator);
    let event = match generator.below(4) {
        0 => Event::Timer(side, Timer::Retransmit),
        1 => Event::Timer(side, Timer::Reorder),
        2 => Event::EmitAcknowledgement(side),
        _ => Event::ResendFirst(side),
    };
    happen(world, event)?;
    Ok(())
}

/// None of these, or up to three; timers expire too where they may.
pub(crate) fn disturb(
    generator: &mut Generator,
    world: &mut World,
    timed: bool,
) -> Result<(), Failure> {
    for _ in 0..generator.below(4) {
        disturb_once(generator, world)?;
    }
    if timed && generator.one_in(3) {
        hurry(generator, world)?;
    }
    Ok(())
}

/// This side emits until nothing is due.
pub(crate) fn emit_all(world: &mut World, side: Side) -> Result<(), Failure> {
    for _ in 0..MOST_EMISSIONS {
        if !happen(world, Event::Emit(side))? {
            return Ok(());
        }
    }
    Err(Failure)
}

/// This side's retransmission timeout expires, and at once it emits.
pub(crate) fn serve(world: &mut World, side: Side) -> Result<(), Failure> {
    happen(world, Event::Timer(side, Timer::Retransmit))?;
    emit_all(world, side)
}

/// Both users read all, and once more, for the end of the stream.
pub(crate) fn read_both(world: &mut World) -> Result<(), Failure> {
    happen(world, Event::Receive(Side::A, ROOM))?;
    happen(world, Event::Receive(Side::A, 0))?;
    happen(world, Event::Receive(Side::B, ROOM))?;
    happen(world, Event::Receive(Side::B, 0))?;
    Ok(())
}

/// How many segments each side has emitted.
#[derive(Clone, Copy)]
pub(crate) struct Counts {
    a: usize,
    b: usize,
}

impl Counts {
    pub(crate) fn of(world: &World) -> Counts {
        Counts {
            a: world.count(Side::A),
            b: world.count(Side::B),
        }
    }
}

/// The order in which segments come: from one of them on, forward or backward.
#[derive(Clone, Copy)]
struct Order {
    first: usize,
    is_backward: bool,
}

impl Order {
    fn of(generator: &mut Generator, count: usize) -> Order {
        Order {
            first: generator.below(count.min(100_000) as u32) as usize,
            is_backward: generator.one_in(2),
        }
    }

    /// Which of `count` comes at index `i`.
    fn at(self, i: usize, count: usize) -> usize {
        let place = if self.is_backward {
            count.saturating_sub(i).saturating_sub(1)
        } else {
            i
        };
        self.first
            .saturating_add(place)
            .checked_rem(count)
            .unwrap_or(0)
    }
}

/// All that was emitted between two counts arrives, whatever else happens meanwhile.
fn bring(
    generator: &mut Generator,
    world: &mut World,
    from: Counts,
    to: Counts,
    timed: bool,
) -> Result<(), Failure> {
    let of_a = to.a.saturating_sub(from.a);
    let count = of_a.saturating_add(to.b.saturating_sub(from.b));
    let order = Order::of(generator, count);
    for i in 0..count {
        disturb(generator, world, timed)?;
        let place = order.at(i, count);
        if place < of_a {
            arrive(world, Side::A, from.a.saturating_add(place))?;
        } else {
            arrive(world, Side::B, from.b.saturating_add(place - of_a))?;
        }
    }
    Ok(())
}

/// A turn: the users read; one side is served, and then the other; all that both sent arrives, and both answer; and
/// what they answered arrives.
fn take_turn(generator: &mut Generator, world: &mut World) -> Result<(), Failure> {
    read_both(world)?;
    let start = Counts::of(world);
    let first = side_of(generator);
    serve(world, first)?;
    serve(world, other(first))?;
    let sent = Counts::of(world);
    bring(generator, world, start, sent, false)?;
    emit_all(world, Side::A)?;
    emit_all(world, Side::B)?;
    bring(generator, world, sent, Counts::of(world), true)
}

/// TIME-WAIT expires at both ends.
pub(crate) fn wait_out(world: &mut World) -> Result<(), Failure> {
    let at_a: Event = Event::Timer(Side::A, Timer::TimeWait);
    let at_b: Event = Event::Timer(Side::B, Timer::TimeWait);
    world.step(&at_a)?;
    world.step(&at_b)?;
    Ok(())
}

/// What was found on a walk.
#[derive(Clone, Copy, Default)]
pub(crate) struct Walk {
    /// Nothing was left after as many turns as there was left before, and one, at most; and all is delivered.
    pub(crate) is_through: bool,
    /// After some turn more was left than before it.
    pub(crate) grew: bool,
    /// Once TIME-WAIT has expired at both ends, the world is settled.
    pub(crate) is_settled: bool,
}

/// Turn after turn, with what comes between them.
pub(crate) fn take_turns(generator: &mut Generator, world: &mut World) -> Result<Walk, Failure> {
    let mut walk = Walk::default();
    for _ in 0..left_in(world).saturating_add(1) {
        let before = left_in(world);
        disturb(generator, world, true)?;
        take_turn(generator, world)?;
        walk.grew = walk.grew || left_in(world) > before;
        walk.is_through = left_in(world) == 0 && is_delivered(world);
        if walk.is_through {
            break;
        }
    }
    wait_out(world)?;
    walk.is_settled = is_settled(world);
    Ok(walk)
}
