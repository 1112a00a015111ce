//! A small seeded source of numbers, the same on every machine.

use std::ops::RangeInclusive;

/// A splitmix64 generator.
#[derive(Debug, Clone)]
pub struct Rng {
    /// The present state.
    state: u64,
}

impl Rng {
    /// A generator for one seed and one index under it, so that each input can be had alone.
    pub fn new(seed: u64, index: u64) -> Rng {
        let mut rng = Rng { state: seed };
        let mixed = rng.bits() ^ index.wrapping_mul(0xD6E8_FEB8_6659_FD93);
        Rng { state: mixed }
    }

    /// The next 64 bits.
    pub fn bits(&mut self) -> u64 {
        self.state = self.state.wrapping_add(0x9E37_79B9_7F4A_7C15);
        let mut z = self.state;
        z = (z ^ (z >> 30)).wrapping_mul(0xBF58_476D_1CE4_E5B9);
        z = (z ^ (z >> 27)).wrapping_mul(0x94D0_49BB_1331_11EB);
        z ^ (z >> 31)
    }

    /// A number below the bound, which is not 0.
    pub fn below(&mut self, bound: usize) -> usize {
        (self.bits() % bound as u64) as usize
    }

    /// A number in the range, which is not empty.
    pub fn within(&mut self, range: RangeInclusive<usize>) -> usize {
        range.start() + self.below(range.end() - range.start() + 1)
    }

    /// Whether an event that comes `times` in `of` comes now.
    pub fn chance(&mut self, times: usize, of: usize) -> bool {
        self.below(of) < times
    }

    /// One of the elements, of which there is at least one.
    pub fn pick<'a, T>(&mut self, from: &'a [T]) -> &'a T {
        &from[self.below(from.len())]
    }

    /// A byte.
    pub fn byte(&mut self) -> u8 {
        self.bits() as u8
    }

    /// A value, often near an edge of the range.
    pub fn value(&mut self) -> u16 {
        const EDGES: [u16; 10] = [0, 1, 2, 3, 255, 256, 32767, 32768, 65534, 65535];
        if self.chance(2, 3) {
            *self.pick(&EDGES)
        } else {
            self.bits() as u16
        }
    }
}
