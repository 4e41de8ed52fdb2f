//! What the benchmark runs on. Everything is drawn from seeds or written out, so that each run has the same input.

pub mod limits;
pub mod tables;
pub mod texts;

pub struct Random(pub u64);

impl Random {
    pub fn below(&mut self, n: u64) -> u64 {
        self.0 ^= self.0 << 13;
        self.0 ^= self.0 >> 7;
        self.0 ^= self.0 << 17;
        self.0 % n
    }
}
