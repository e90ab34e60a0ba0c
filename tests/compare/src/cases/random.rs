//! Random numbers from a seed.

/// A generator of 64-bit numbers (splitmix64).
pub struct Random(u64);

impl Random {
    /// The generator of this case of this seed.
    pub fn new(seed: u64, case: u64) -> Random {
        let mut start = Random(seed);
        let mixed = start.number() ^ case.wrapping_mul(0xD134_2543_DE82_EF95);
        Random(mixed)
    }

    /// The next number.
    pub fn number(&mut self) -> u64 {
        self.0 = self.0.wrapping_add(0x9E37_79B9_7F4A_7C15);
        let mut x = self.0;
        x = (x ^ (x >> 30)).wrapping_mul(0xBF58_476D_1CE4_E5B9);
        x = (x ^ (x >> 27)).wrapping_mul(0x94D0_49BB_1331_11EB);
        x ^ (x >> 31)
    }

    /// A number below the limit, which is not 0.
    pub fn below(&mut self, limit: usize) -> usize {
        ((u128::from(self.number()) * limit as u128) >> 64) as usize
    }

    /// True once in so many times.
    pub fn once_in(&mut self, times: usize) -> bool {
        self.below(times) == 0
    }

    /// Any byte.
    pub fn byte(&mut self) -> u8 {
        self.number() as u8
    }

    /// One of these.
    pub fn pick<T: Copy>(&mut self, from: &[T]) -> T {
        from[self.below(from.len())]
    }

    /// A word, often at the edge where it wraps.
    pub fn word(&mut self) -> u16 {
        match self.below(4) {
            0 => (self.below(8) as u16).wrapping_sub(4),
            _ => self.number() as u16,
        }
    }
}
