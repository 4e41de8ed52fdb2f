//! How much room is lent for a result.

use second::generate::prng::Prng;

/// One short, none, just enough, or with a tail.
pub fn room(rng: &mut Prng, due: usize) -> usize {
    match rng.below(8) {
        0 => due.saturating_sub(1),
        1 if rng.one_in(4) => 0,
        2 | 3 => due,
        _ => due + rng.between(1, 20),
    }
}
