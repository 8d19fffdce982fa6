//! Worlds that settle. Events of all kinds, made by a fixed generator or by hand, happen to two ends. Then turns of a
//! caller's loop lead them to where each user has all that the other one's end accepted; and, made anew, half turns of
//! two hosts that send one segment after a timeout, whatever the network does meanwhile. Printed is how many worlds
//! didn't come through by as many turns as what was left, and one, or by as many pairs of half turns as that, and two:
//! none; and what becomes of worlds under loops that aren't turns.

mod configs;
mod events;
mod facts;
mod failure;
mod given;
mod halves;
mod places;
mod rows;
mod segments;
mod turns;
mod walks;

use crate::generator::Generator;
use crate::settling::configs::{Shape, shape_of};
use crate::settling::events::{Habit, habit_of, late_opening, next_event, opening, side_of};
use crate::settling::failure::Failure;
use crate::settling::given::{COUNT, given};
use crate::settling::rows::Rows;
use crate::settling::walks::{Pace, Walks};
use std::alloc::Global;
use std::io;
use tcp_replay::{Event, World};

const WORLDS: u32 = 250;

/// Most worlds open.
fn open(generator: &mut Generator, world: &mut World) {
    let side = side_of(generator);
    match generator.below(16) {
        0 => {}
        1 => {
            let _ = world.run(&late_opening(side));
        }
        _ => {
            let _ = world.run(&opening(side));
        }
    }
}

/// 60 to 200 events, of which some are refused.
fn run_events(
    alloc: Global,
    generator: &mut Generator,
    habit: Habit,
    world: &mut World,
) -> Result<(), Failure> {
    let count = generator.below(141).saturating_add(60);
    for _ in 0..count {
        let event = next_event(alloc, generator, habit, world)?;
        let _ = world.step(&event);
    }
    Ok(())
}

/// The world of these numbers.
fn make_world(alloc: Global, generator: &mut Generator) -> Result<World, Failure> {
    let shape = shape_of(generator);
    let Some(mut world) = shape.world(alloc) else {
        return Err(Failure);
    };
    open(generator, &mut world);
    let habit = habit_of(generator, shape.is_large());
    run_events(alloc, generator, habit, &mut world)?;
    Ok(world)
}

/// The world of this number under turns, or under half turns.
fn walk_world(alloc: Global, number: u32, walks: &mut Walks, pace: Pace) -> Result<(), Failure> {
    let mut generator = Generator::new(u64::from(number));
    let mut world = make_world(alloc, &mut generator)?;
    walks.take(alloc, &mut generator, &mut world, pace)
}

/// A world after these events, none of which is refused.
fn make(alloc: Global, shape: Shape, events: &[Event]) -> Result<World, Failure> {
    let Some(mut world) = shape.world(alloc) else {
        return Err(Failure);
    };
    match world.run(events) {
        Ok(()) => Ok(world),
        Err(_) => Err(Failure),
    }
}

/// The hand-made world of this number under turns, or under half turns.
fn walk_given(alloc: Global, number: u32, walks: &mut Walks, pace: Pace) -> Result<(), Failure> {
    let mut generator = Generator::new(u64::from(number));
    let (shape, events) = given(alloc, number)?;
    let mut world = make(alloc, shape, &events)?;
    walks.take(alloc, &mut generator, &mut world, pace)
}

/// What is counted of all, by pace.
#[derive(Clone, Copy, Default)]
struct Tallies {
    turns: Walks,
    halves: Walks,
    given_turns: Walks,
    given_halves: Walks,
}

impl Tallies {
    fn run(&mut self, alloc: Global) -> Result<(), Failure> {
        for number in 0..WORLDS {
            walk_world(alloc, number, &mut self.turns, Pace::Turns)?;
            walk_world(alloc, number, &mut self.halves, Pace::Halves)?;
        }
        for number in 0..COUNT {
            walk_given(alloc, number, &mut self.given_turns, Pace::Turns)?;
            walk_given(alloc, number, &mut self.given_halves, Pace::Halves)?;
        }
        Ok(())
    }

    fn print(&self, rt: &impl Print, rows: &Rows) -> io::Result<()> {
        println!(rt; "random, under turns:")?;
        self.turns.print(rt, Pace::Turns)?;
        println!(rt; "random, under half turns:")?;
        self.halves.print(rt, Pace::Halves)?;
        println!(rt; "by hand, under turns:")?;
        self.given_turns.print(rt, Pace::Turns)?;
        println!(rt; "by hand, under half turns:")?;
        self.given_halves.print(rt, Pace::Halves)?;
        rows.print(rt)
    }
}

/// Makes all worlds and leads them to their ends; returns whether what became of them was printed.
pub(crate) fn shows_worlds(rt: &(impl Print + AllocGlobal)) -> bool {
    let mut tallies = Tallies::default();
    if tallies.run(rt.alloc()).is_err() {
        return false;
    }
    let Ok(rows) = Rows::run(rt.alloc()) else {
        return false;
    };
    tallies.print(rt, &rows).is_ok()
}
