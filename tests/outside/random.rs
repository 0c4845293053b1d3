//! A small deterministic generator (xorshift), so that a printed seed gives the same cases again.

pub struct Random {
    state: u64,
}

impl Random {
    /// Each suite draws from its own sequence: one suite run alone meets the cases that it meets in a full run.
    pub fn new(seed: u64, suite: &str) -> Random {
        let mut state = seed.wrapping_mul(0x9e37_79b9_7f4a_7c15) ^ 0x2545_f491_4f6c_dd1d;
        for letter in suite.bytes() {
            state = (state ^ u64::from(letter)).wrapping_mul(0x0000_0100_0000_01b3);
        }
        let mut random = Random { state: state | 1 };
        for _ in 0..8 {
            random.next();
        }
        random
    }

    pub fn next(&mut self) -> u64 {
        self.state ^= self.state >> 12;
        self.state ^= self.state << 25;
        self.state ^= self.state >> 27;
        self.state.wrapping_mul(0x2545_f491_4f6c_dd1d)
    }

    /// A number from 0 up to, and not including, `end`.
    pub fn below(&mut self, end: usize) -> usize {
        ((self.next() >> 11) % end as u64) as usize
    }

    /// A number from `low` to `high`, both included.
    pub fn within(&mut self, low: i64, high: i64) -> i64 {
        low + ((self.next() >> 11) % (high - low + 1) as u64) as i64
    }

    pub fn one_in(&mut self, times: usize) -> bool {
        self.below(times) == 0
    }

    pub fn pick<T: Copy>(&mut self, from: &[T]) -> T {
        from[self.below(from.len())]
    }
}
