//! Numbers that look random and are the same in each run.

/// A linear congruential generator, with the multiplier of Knuth's MMIX.
#[derive(Drop)]
pub(crate) struct Generator {
    state: u64,
}

impl Generator {
    pub(crate) fn new(seed: u64) -> Generator {
        Generator { state: seed }
    }

    /// The next number of 32 bits.
    pub(crate) fn number(&mut self) -> u32 {
        self.state = self
            .state
            .wrapping_mul(6_364_136_223_846_793_005)
            .wrapping_add(1_442_695_040_888_963_407);
        (self.state >> 32) as u32
    }

    /// A number below the bound, or 0 where that is 0.
    pub(crate) fn below(&mut self, bound: u32) -> u32 {
        self.number().checked_rem(bound).unwrap_or(0)
    }

    /// One of these numbers, or 0 where there is none.
    pub(crate) fn one_of(&mut self, choices: &[u32]) -> u32 {
        let index = self.below(choices.len().min(1000) as u32) as usize;
        choices.get(index).copied().unwrap_or(0)
    }

    /// True with a chance of one in `count`.
    pub(crate) fn one_in(&mut self, count: u32) -> bool {
        self.below(count) == 0
    }
}
