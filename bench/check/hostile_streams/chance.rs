//! Random numbers by xorshift: the same ones for the same seed, on every machine.

use std::ops::RangeInclusive;

pub struct Chance(u64);

impl Chance {
    /// Seeds that follow each other give numbers that have nothing in common.
    pub fn new(seed: u64) -> Chance {
        let mixed = (seed ^ seed >> 31).wrapping_add(1).wrapping_mul(0x9E37_79B9_7F4A_7C15);
        let mut chance = Chance((mixed ^ mixed >> 29) | 1);
        for _ in 0..4 {
            chance.number();
        }
        chance
    }

    pub fn number(&mut self) -> u64 {
        self.0 ^= self.0 >> 12;
        self.0 ^= self.0 << 25;
        self.0 ^= self.0 >> 27;
        self.0.wrapping_mul(0x2545_F491_4F6C_DD1D)
    }

    /// A number below `bound`, which is above 0 and below 2^32.
    pub fn below(&mut self, bound: usize) -> usize {
        ((self.number() >> 32) * bound as u64 >> 32) as usize
    }

    pub fn within(&mut self, range: RangeInclusive<usize>) -> usize {
        range.start() + self.below(range.end() - range.start() + 1)
    }

    pub fn one_in(&mut self, count: usize) -> bool {
        self.below(count) == 0
    }

    pub fn byte(&mut self) -> u8 {
        (self.number() >> 56) as u8
    }

    pub fn pick<T: Clone>(&mut self, from: &[T]) -> T {
        from[self.below(from.len())].clone()
    }

    pub fn fill(&mut self, bytes: &mut [u8]) {
        for chunk in bytes.chunks_mut(8) {
            let random = self.number().to_be_bytes();
            chunk.copy_from_slice(&random[..chunk.len()]);
        }
    }

    pub fn bytes(&mut self, count: usize) -> Vec<u8> {
        let mut bytes = vec![0; count];
        self.fill(&mut bytes);
        bytes
    }

    pub fn shuffle<T>(&mut self, items: &mut [T]) {
        for place in (1..items.len()).rev() {
            items.swap(place, self.below(place + 1));
        }
    }
}
