//! Inputs drawn from a fixed seed (splitmix64). Sizes are drawn by bit pattern, which is evenly by order of magnitude.

/// Document 01's domain: a floating input is 0 or between these in size.
pub const LEAST: f64 = 1e-6;
pub const MOST: f64 = 1e6;

pub struct Random(pub u64);

impl Random {
    pub fn word(&mut self) -> u64 {
        self.0 = self.0.wrapping_add(0x9e37_79b9_7f4a_7c15);
        let mut z = self.0;
        z = (z ^ (z >> 30)).wrapping_mul(0xbf58_476d_1ce4_e5b9);
        z = (z ^ (z >> 27)).wrapping_mul(0x94d0_49bb_1331_11eb);
        z ^ (z >> 31)
    }

    pub fn below(&mut self, n: u64) -> u64 {
        self.word() % n
    }

    /// Once in n times.
    pub fn once_in(&mut self, n: u64) -> bool {
        self.below(n) == 0
    }

    pub fn one_of<T: Copy>(&mut self, all: &[T]) -> T {
        all[self.below(all.len() as u64) as usize]
    }

    /// Evenly between two numbers.
    pub fn between(&mut self, low: f64, high: f64) -> f64 {
        low + (high - low) * (self.word() >> 11) as f64 / (1u64 << 53) as f64
    }

    /// A size between two that are above 0.
    pub fn size(&mut self, low: f64, high: f64) -> f64 {
        let (low, high) = (low.to_bits(), high.to_bits());
        f64::from_bits(low + self.below(high - low + 1))
    }

    /// A size with either sign.
    pub fn signed(&mut self, low: f64, high: f64) -> f64 {
        let x = self.size(low, high);
        if self.once_in(2) { -x } else { x }
    }

    /// Above 0, over the whole domain.
    pub fn positive(&mut self) -> f64 {
        self.size(LEAST, MOST)
    }

    /// Over the whole domain, zero too.
    pub fn any(&mut self) -> f64 {
        if self.once_in(16) { 0.0 } else { self.signed(LEAST, MOST) }
    }

    /// Not below 0, over the whole domain.
    pub fn any_size(&mut self) -> f64 {
        self.any().abs()
    }

    pub fn three(&mut self, mut f: impl FnMut(&mut Self) -> f64) -> [f64; 3] {
        [f(self), f(self), f(self)]
    }
}
