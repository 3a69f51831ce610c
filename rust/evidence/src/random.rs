//! Seeded numbers (splitmix64).

use std::fmt;

/// A sequence of numbers that its seed and its round determine. A test makes one for each of its rounds, so a round that fails can
/// be run alone.
#[derive(Clone, Debug)]
pub struct Random {
    state: u64,
    seed: u64,
    round: u64,
}

impl fmt::Display for Random {
    fn fmt(&self, f: &mut fmt::Formatter<'_>) -> fmt::Result {
        write!(f, "seed {}, round {}", self.seed, self.round)
    }
}

fn mixed(mut z: u64) -> u64 {
    z = (z ^ (z >> 30)).wrapping_mul(0xbf58_476d_1ce4_e5b9);
    z = (z ^ (z >> 27)).wrapping_mul(0x94d0_49bb_1331_11eb);
    z ^ (z >> 31)
}

impl Random {
    /// The sequence of a seed, in round 0.
    pub fn new(seed: u64) -> Random {
        Random::round(seed, 0)
    }

    /// The sequence of a seed in a round.
    pub fn round(seed: u64, round: u64) -> Random {
        Random {
            state: seed.wrapping_add(mixed(round)),
            seed,
            round,
        }
    }

    /// The next 64 bits.
    pub fn long(&mut self) -> u64 {
        self.state = self.state.wrapping_add(0x9e37_79b9_7f4a_7c15);
        mixed(self.state)
    }

    /// The next 32 bits.
    pub fn word(&mut self) -> u32 {
        self.long() as u32
    }

    /// A number below `bound`, which is not 0.
    pub fn below(&mut self, bound: usize) -> usize {
        ((u128::from(self.long()) * bound as u128) >> 64) as usize
    }

    /// A number of `low..=high`.
    pub fn within(&mut self, low: usize, high: usize) -> usize {
        low + self.below(high - low + 1)
    }

    /// True in `share` of 1,000 cases.
    pub fn chance(&mut self, share: usize) -> bool {
        self.below(1_000) < share
    }

    /// One of the choices.
    pub fn pick<T: Copy>(&mut self, choices: &[T]) -> T {
        choices[self.below(choices.len())]
    }

    /// The choices in another order.
    pub fn shuffle<T>(&mut self, items: &mut [T]) {
        for last in (1..items.len()).rev() {
            items.swap(last, self.below(last + 1));
        }
    }

    /// Bytes of any value.
    pub fn bytes(&mut self, length: usize) -> Vec<u8> {
        (0..length).map(|_| self.long() as u8).collect()
    }
}
