//! One case of a run: all that it draws follows from the run's seed and its own number.

use second::generate::prng::Prng;

#[derive(Clone, Copy, Debug)]
pub struct Case {
    pub seed: u64,
    pub index: u64,
}

impl Case {
    pub fn rng(&self) -> Prng {
        Prng::new(self.seed ^ Prng::new(self.index).draw())
    }
}

/// What was compared, what the library answered and left, and what was due.
#[derive(Clone, Debug)]
pub struct Difference {
    pub job: String,
    pub library: String,
    pub due: String,
    pub input: Vec<u8>,
}
