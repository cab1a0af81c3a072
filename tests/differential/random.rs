//! A generator of random numbers that a seed repeats exactly (splitmix64).

pub struct Random {
    state: u64,
}

impl Random {
    pub fn new(seed: u64) -> Self {
        Self { state: seed }
    }

    /// Another generator, which leaves this one as it is.
    pub fn apart(&self) -> Self {
        Self::new(!self.state)
    }

    pub fn bits(&mut self) -> u64 {
        self.state = self.state.wrapping_add(0x9e37_79b9_7f4a_7c15);
        let mut x = self.state;
        x = (x ^ (x >> 30)).wrapping_mul(0xbf58_476d_1ce4_e5b9);
        x = (x ^ (x >> 27)).wrapping_mul(0x94d0_49bb_1331_11eb);
        x ^ (x >> 31)
    }

    /// From 0 to `end` - 1.
    pub fn below(&mut self, end: usize) -> usize {
        ((u128::from(self.bits()) * end as u128) >> 64) as usize
    }

    /// From `first` to `last`, both included.
    pub fn between(&mut self, first: i64, last: i64) -> i64 {
        first + self.below((last - first + 1) as usize) as i64
    }

    /// True in `part` of `whole` cases.
    pub fn chance(&mut self, part: usize, whole: usize) -> bool {
        self.below(whole) < part
    }

    pub fn pick<T: Copy>(&mut self, choices: &[T]) -> T {
        choices[self.below(choices.len())]
    }

    /// An index below n, the first and the last somewhat more often; 0 if there is none.
    pub fn index(&mut self, n: usize) -> usize {
        let any = self.below(n);
        self.pick(&[any, any, any, 0, n.saturating_sub(1)])
    }

    /// From 0 to `largest`, the larger ones more often.
    pub fn dimension(&mut self, largest: usize) -> usize {
        self.below(largest + 1).max(self.below(largest + 1))
    }

    /// Uniform in [0, 1).
    pub fn unit(&mut self) -> f64 {
        (self.bits() >> 11) as f64 / (1u64 << 53) as f64
    }

    pub fn sign(&mut self, value: f64) -> f64 {
        if self.chance(1, 2) {
            -value
        } else {
            value
        }
    }
}
