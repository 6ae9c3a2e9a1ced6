//! Random numbers from a seed, the same on every run.

/// The generator SplitMix64.
pub struct Rng(u64);

impl Rng {
    /// A sequence of its own for each part of a run.
    pub fn new(seed: u64, part: u64) -> Self {
        let mut rng = Self(seed);
        let start = rng.next();
        Self(start ^ part.wrapping_mul(0x9e37_79b9_7f4a_7c15))
    }

    pub fn next(&mut self) -> u64 {
        self.0 = self.0.wrapping_add(0x9e37_79b9_7f4a_7c15);
        let mut mixed = self.0;
        mixed = (mixed ^ mixed >> 30).wrapping_mul(0xbf58_476d_1ce4_e5b9);
        mixed = (mixed ^ mixed >> 27).wrapping_mul(0x94d0_49bb_1331_11eb);
        mixed ^ mixed >> 31
    }

    /// A number below `bound`, which is not 0.
    pub fn below(&mut self, bound: u64) -> u64 {
        ((u128::from(self.next()) * u128::from(bound)) >> 64) as u64
    }

    /// A 32-bit number below `bound`, which is not 0.
    pub fn below32(&mut self, bound: u32) -> u32 {
        self.below(bound.into()) as u32
    }

    /// Whether one of `many` draws falls here.
    pub fn one_in(&mut self, many: u64) -> bool {
        self.below(many) == 0
    }

    pub fn pick<T: Copy>(&mut self, items: &[T]) -> T {
        items[self.below(items.len() as u64) as usize]
    }
}
