//! A seeded generator of numbers (SplitMix64), so that every list can be made again.

pub struct Rng(u64);

impl Rng {
    pub fn new(seed: u64) -> Self {
        Rng(seed)
    }

    pub fn next(&mut self) -> u64 {
        self.0 = self.0.wrapping_add(0x9e37_79b9_7f4a_7c15);
        let mut z = self.0;
        z = (z ^ (z >> 30)).wrapping_mul(0xbf58_476d_1ce4_e5b9);
        z = (z ^ (z >> 27)).wrapping_mul(0x94d0_49bb_1331_11eb);
        z ^ (z >> 31)
    }

    /// A number below `bound`, which is positive.
    pub fn below(&mut self, bound: usize) -> usize {
        (self.next() % bound as u64) as usize
    }

    /// True once in `times`.
    pub fn once_in(&mut self, times: usize) -> bool {
        self.below(times) == 0
    }

    pub fn pick<'a, T>(&mut self, from: &'a [T]) -> &'a T {
        &from[self.below(from.len())]
    }

    /// A number that is small, or next to a limit of its width, or any.
    pub fn corner(&mut self) -> u64 {
        match self.below(8) {
            0 => u64::MAX - self.next() % 2,
            1 => (1 << 62) - 1 + self.next() % 3,
            2 => self.next(),
            3 => (1 << 32) - 1 + self.next() % 2,
            _ => self.next() % 8,
        }
    }
}
