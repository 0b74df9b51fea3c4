//! Chance, from a seed: the same seed gives the same tables again.

pub mod damaged;
pub mod draft;
pub mod noise;
pub mod states;
pub mod steps;
pub mod stream;
pub mod trees;
pub mod valid;

/// A generator of 64-bit numbers: a counter with a large odd stride, its bits
/// mixed.
#[derive(Clone)]
pub struct Dice {
    counter: u64,
}

impl Dice {
    pub fn new(seed: u64) -> Self {
        Dice { counter: seed }
    }

    pub fn number(&mut self) -> u64 {
        self.counter = self.counter.wrapping_add(0x9e37_79b9_7f4a_7c15);
        let mut mixed = self.counter;
        mixed = (mixed ^ mixed >> 30).wrapping_mul(0xbf58_476d_1ce4_e5b9);
        mixed = (mixed ^ mixed >> 27).wrapping_mul(0x94d0_49bb_1331_11eb);
        mixed ^ mixed >> 31
    }

    /// A number below `end`, which is above 0.
    pub fn below(&mut self, end: usize) -> usize {
        (self.number() % end as u64) as usize
    }

    /// A number from `least` to `most`, both included.
    pub fn between(&mut self, least: usize, most: usize) -> usize {
        least + self.below(most - least + 1)
    }

    /// True so many times in a hundred.
    pub fn chance(&mut self, percent: usize) -> bool {
        self.below(100) < percent
    }

    pub fn byte(&mut self) -> u8 {
        self.number() as u8
    }

    /// One of the choices, of which there is at least one.
    pub fn pick<T: Copy>(&mut self, choices: &[T]) -> T {
        choices[self.below(choices.len())]
    }

    pub fn bytes(&mut self, count: usize) -> Vec<u8> {
        let eights = (0..count.div_ceil(8)).flat_map(|_| self.number().to_le_bytes());
        eights.take(count).collect()
    }
}
