//! A small seeded source of numbers (splitmix64), so that every file can be made again.

pub struct Random {
    state: u64,
}

impl Random {
    /// A source of its own for each pair of seed and index.
    pub fn new(seed: u64, index: u64) -> Random {
        let mut random = Random { state: seed };
        let mixed = random.next() ^ index.wrapping_mul(0xD134_2543_DE82_EF95);
        random.state = mixed;
        random.next();
        random
    }

    pub fn next(&mut self) -> u64 {
        self.state = self.state.wrapping_add(0x9E37_79B9_7F4A_7C15);
        let mut z = self.state;
        z = (z ^ (z >> 30)).wrapping_mul(0xBF58_476D_1CE4_E5B9);
        z = (z ^ (z >> 27)).wrapping_mul(0x94D0_49BB_1331_11EB);
        z ^ (z >> 31)
    }

    /// A number from 0 to `bound` - 1.
    pub fn below(&mut self, bound: u64) -> u64 {
        ((u128::from(self.next()) * u128::from(bound)) >> 64) as u64
    }

    /// An index below `bound`.
    pub fn index(&mut self, bound: usize) -> usize {
        self.below(bound as u64) as usize
    }

    /// A number from `low` to `high`, both possible.
    pub fn within(&mut self, low: u64, high: u64) -> u64 {
        low + self.below(high - low + 1)
    }

    /// True in so many of a hundred cases.
    pub fn percent(&mut self, share: u64) -> bool {
        self.below(100) < share
    }

    pub fn byte(&mut self) -> u8 {
        self.next() as u8
    }

    pub fn pick<T: Copy>(&mut self, from: &[T]) -> T {
        from[self.index(from.len())]
    }

    /// A number from `low` to `high` with all magnitudes about equally often; `low` is above 0.
    pub fn magnitude(&mut self, low: u64, high: u64) -> u64 {
        let share = self.below(1 << 53) as f64 / (1u64 << 53) as f64;
        let value = (low as f64) * ((high as f64) / (low as f64)).powf(share);
        (value as u64).clamp(low, high)
    }
}
