//! Random numbers that a seed fixes.

/// splitmix64
pub struct Dice(pub u64);

impl Dice {
    pub fn roll(&mut self) -> u64 {
        self.0 = self.0.wrapping_add(0x9e37_79b9_7f4a_7c15);
        let mut z = self.0;
        z = (z ^ (z >> 30)).wrapping_mul(0xbf58_476d_1ce4_e5b9);
        z = (z ^ (z >> 27)).wrapping_mul(0x94d0_49bb_1331_11eb);
        z ^ (z >> 31)
    }

    pub fn below(&mut self, n: usize) -> usize {
        (self.roll() % n as u64) as usize
    }

    pub fn chance(&mut self, percent: u64) -> bool {
        self.roll() % 100 < percent
    }

    pub fn pick<T: Clone>(&mut self, from: &[T]) -> T {
        from[self.below(from.len())].clone()
    }

    /// An index, with these weights.
    pub fn weighted(&mut self, weights: &[u64]) -> usize {
        let mut at = self.roll() % weights.iter().sum::<u64>();
        for (i, w) in weights.iter().enumerate() {
            if at < *w {
                return i;
            }
            at -= w;
        }
        unreachable!("the weights' sum is above every roll")
    }

    /// A number near `n`.
    pub fn near(&mut self, n: u64) -> u64 {
        match self.below(4) {
            0 => n.saturating_sub(1),
            1 | 2 => n,
            _ => n.saturating_add(1),
        }
    }
}
