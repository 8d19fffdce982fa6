//! Half turns: one side's retransmission timeout expires and it emits one segment; this arrives, and so does what
//! answers it. The two halves of a pair, one of each side, go on in any order, one within the other too. All else is
//! free: other timers expire, more is emitted and lost, old segments arrive, some again and some damaged.
use crate::generator::Generator;
use crate::settling::events::side_of;
use crate::settling::facts::{is_delivered, is_settled};
use crate::settling::failure::Failure;
use crate::settling::places::{left_in, other};
use crate::settling::turns::{Walk, disturb, happen, read_both, wait_out};
use tcp_conn::{Kind, Timer};
use tcp_replay::{Event, Side, World};

/// The most steps of a pair: each half has four, and the others are free.
const MOST_STEPS: u32 = 1000;

/// How far the half turn of a side has come.
#[derive(Clone, Copy, PartialEq, Eq)]
enum Step {
    /// Its timeout hasn't expired.
    Begins,
    /// Its first segment, of this number, is on its way.
    IsSent(usize),
    /// It has arrived, and the other side has an acknowledgement pending for it.
    IsTaken,
    /// The answer, of this number, is on its way.
    IsAnswered(usize),
    IsOver,
}

/// The half turns of both sides.
#[derive(Clone, Copy)]
struct Halves {
    a: Step,
    b: Step,
}

/// The kind of what is due at a side.
fn kind_of(world: &World, side: Side) -> Option<Kind> {
    let next = world.endpoint(side).next_transmit()?;
    Some(next.kind)
}

/// A reset or a SYN that is pending goes out: at most one of each.
fn clear(world: &mut World, side: Side) -> Result<(), Failure> {
    for _ in 0..2 {
        if matches!(kind_of(world, side), Some(Kind::Reset | Kind::Syn)) {
            happen(world, Event::Emit(side))?;
        }
    }
    Ok(())
}

/// What this side, which has an acknowledgement pending, emits at SND.NXT: new text or the FIN where that is due and this
/// is chosen, or the acknowledgement alone. The number of the segment.
fn answer(generator: &mut Generator, world: &mut World, side: Side) -> Result<usize, Failure> {
    let k = world.count(side);
    let is_next = matches!(
        kind_of(world, side),
        Some(Kind::NewText | Kind::Fin | Kind::Acknowledgement)
    );
    let event: Event = if is_next && generator.one_in(2) {
        Event::Emit(side)
    } else {
        Event::EmitAcknowledgement(side)
    };
    if happen(world, event)? {
        Ok(k)
    } else {
        Err(Failure)
    }
}

impl Halves {
    fn step_of(self, side: Side) -> Step {
        match side {
            Side::A => self.a,
            Side::B => self.b,
        }
    }

    fn set(&mut self, side: Side, step: Step) {
        match side {
            Side::A => self.a = step,
            Side::B => self.b = step,
        }
    }

    fn are_over(self) -> bool {
        self.a == Step::IsOver && self.b == Step::IsOver
    }

    /// The answer that this side has pending goes out, before anything else of it does.
    fn settle(
        &mut self,
        generator: &mut Generator,
        world: &mut World,
        side: Side,
    ) -> Result<(), Failure> {
        if self.step_of(other(side)) == Step::IsTaken {
            let k = answer(generator, world, side)?;
            self.set(other(side), Step::IsAnswered(k));
        }
        Ok(())
    }

    /// The timeout of this side expires, and at once it emits.
    fn begin(
        &mut self,
        generator: &mut Generator,
        world: &mut World,
        side: Side,
    ) -> Result<(), Failure> {
        self.settle(generator, world, side)?;
        clear(world, side)?;
        happen(world, Event::Timer(side, Timer::Retransmit))?;
        let k = world.count(side);
        let is_sent = happen(world, Event::Emit(side))?;
        self.set(
            side,
            if is_sent {
                Step::IsSent(k)
            } else {
                Step::IsOver
            },
        );
        Ok(())
    }

    /// Its first segment arrives.
    fn bring(&mut self, world: &mut World, side: Side, k: usize) -> Result<(), Failure> {
        clear(world, other(side))?;
        happen(world, Event::Deliver(side, k))?;
        clear(world, other(side))?;
        let is_pending = world
            .endpoint(other(side))
            .pending_acknowledgement()
            .is_some();
        self.set(
            side,
            if is_pending {
                Step::IsTaken
            } else {
                Step::IsOver
            },
        );
        Ok(())
    }

    /// The half of this side goes on by a step.
    fn go_on(
        &mut self,
        generator: &mut Generator,
        world: &mut World,
        side: Side,
    ) -> Result<(), Failure> {
        match self.step_of(side) {
            Step::Begins => self.begin(generator, world, side),
            Step::IsSent(k) => self.bring(world, side, k),
            Step::IsTaken => self.settle(generator, world, other(side)),
            Step::IsAnswered(k) => {
                self.settle(generator, world, side)?;
                happen(world, Event::Deliver(other(side), k))?;
                self.set(side, Step::IsOver);
                Ok(())
            }
            Step::IsOver => Ok(()),
        }
    }

    /// Something else happens; answers that are pending have gone out before.
    fn let_be(&mut self, generator: &mut Generator, world: &mut World) -> Result<(), Failure> {
        self.settle(generator, world, Side::A)?;
        self.settle(generator, world, Side::B)?;
        disturb(generator, world, true)
    }
}

/// A pair of half turns, in any order; `is_free` where anything else may happen meanwhile.
pub(crate) fn take_pair(
    generator: &mut Generator,
    world: &mut World,
    is_free: bool,
) -> Result<(), Failure> {
    read_both(world)?;
    let mut halves = Halves {
        a: Step::Begins,
        b: Step::Begins,
    };
    for _ in 0..MOST_STEPS {
        if halves.are_over() {
            return Ok(());
        }
        if is_free && generator.one_in(3) {
            halves.let_be(generator, world)?;
        }
        let side = side_of(generator);
        halves.go_on(generator, world, side)?;
    }
    Err(Failure)
}

/// Whether one of the users didn't close, or one of the ends has room for two bytes.
pub(crate) fn have_room(world: &World) -> bool {
    !(world.closed(Side::A) && world.closed(Side::B))
        || world.endpoint(Side::A).config().recv_capacity >= 2
        || world.endpoint(Side::B).config().recv_capacity >= 2
}

/// Pair after pair, with what comes between them: as many as there was left before, and two, at most.
pub(crate) fn take_pairs(generator: &mut Generator, world: &mut World) -> Result<Walk, Failure> {
    let mut walk = Walk::default();
    for _ in 0..left_in(world).saturating_add(2) {
        let before = left_in(world);
        disturb(generator, world, true)?;
        take_pair(generator, world, true)?;
        walk.grew = walk.grew || left_in(world) > before;
        walk.is_through = left_in(world) == 0 && is_delivered(world);
        if walk.is_through {
            break;
        }
    }
    wait_out(world)?;
    walk.is_settled = is_settled(world);
    Ok(walk)
}
