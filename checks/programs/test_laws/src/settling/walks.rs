//! The counts of the walks, by turns or by pairs of half turns.
use crate::generator::Generator;
use crate::settling::facts::{AllAsked, is_settled};
use crate::settling::failure::Failure;
use crate::settling::halves::{have_room, take_pairs};
use crate::settling::places::is_live;
use crate::settling::turns::{Walk, take_turns};
use std::alloc::Global;
use std::io;
use tcp_replay::World;

/// What a walk goes by.
#[derive(Clone, Copy, PartialEq, Eq)]
pub(crate) enum Pace {
    Turns,
    /// Pairs of half turns, where not both ends can be full.
    Halves,
}

impl Pace {
    fn walk(self, generator: &mut Generator, world: &mut World) -> Result<Walk, Failure> {
        match self {
            Pace::Turns => take_turns(generator, world),
            Pace::Halves => take_pairs(generator, world),
        }
    }

    /// The most that are needed.
    fn bound(self) -> &'static str {
        match self {
            Pace::Turns => "turns as was left, and one",
            Pace::Halves => "pairs of half turns as was left, and two",
        }
    }
}

#[derive(Clone, Copy, Default)]
pub(crate) struct Walks {
    /// Worlds in which both ends are live.
    walked: u32,
    /// Of these, worlds in which not all was delivered and acknowledged before.
    unsettled: u32,
    /// Of these, worlds that came through by no more than the bound.
    through: u32,
    /// Worlds in which after some turn or pair more was left than before it, or a request of a user was different.
    grew: u32,
    /// Worlds that were settled once TIME-WAIT had expired at both ends.
    settled: u32,
}

impl Walks {
    /// Walks a world where both ends are live.
    pub(crate) fn take(
        &mut self,
        alloc: Global,
        generator: &mut Generator,
        world: &mut World,
        pace: Pace,
    ) -> Result<(), Failure> {
        if !is_live(world) || pace == Pace::Halves && !have_room(world) {
            return Ok(());
        }
        let asked = AllAsked::of(alloc, world)?;
        self.unsettled = self.unsettled.saturating_add(u32::from(!is_settled(world)));
        let walk = pace.walk(generator, world)?;
        let is_other = walk.grew || asked.changed(world) > 0;
        self.walked = self.walked.saturating_add(1);
        self.through = self.through.saturating_add(u32::from(walk.is_through));
        self.grew = self.grew.saturating_add(u32::from(is_other));
        self.settled = self.settled.saturating_add(u32::from(walk.is_settled));
        Ok(())
    }

    pub(crate) fn print(&self, rt: &impl Print, pace: Pace) -> io::Result<()> {
        println!(rt; "some were unsettled: {}", self.unsettled > 0)?;
        println!(rt;
            "not through by as many {}: {}",
            pace.bound(),
            self.walked.saturating_sub(self.through)
        )?;
        println!(rt; "more was left, or asked for: {}", self.grew)?;
        println!(rt;
            "not settled after TIME-WAIT: {}",
            self.walked.saturating_sub(self.settled)
        )
    }
}
