//! Recordings of lasso words, sound and damaged.

use super::prng::Prng;
use crate::limits::POSITIONS;
use crate::recording::Lasso;

/// A random lasso word over some signals.
pub fn lasso(rng: &mut Prng, most_positions: usize, signals: usize) -> Lasso {
    let positions = rng.between(1, most_positions);
    lasso_of(rng, positions, signals)
}

fn lasso_of(rng: &mut Prng, positions: usize, signals: usize) -> Lasso {
    let loop_start = rng.below(positions);
    let letters = (0..positions)
        .map(|_| (0..signals).map(|_| rng.one_in(2)).collect())
        .collect();
    Lasso {
        loop_start,
        letters,
    }
}

/// A recording that is sound for the signal count, or lacks some of the signals (about one in twelve), or is damaged.
pub fn recording(rng: &mut Prng, signal_count: usize) -> Vec<u8> {
    let recorded = match rng.below(12) {
        0 if signal_count > 0 => rng.below(signal_count),
        _ => signal_count,
    };
    let mut bytes = match rng.below(60) {
        0 => lasso_of(rng, POSITIONS, recorded).bytes(recorded),
        _ => lasso(rng, 12, recorded).bytes(recorded),
    };
    if rng.one_in(3) {
        damage(rng, &mut bytes);
    }
    bytes
}

fn damage(rng: &mut Prng, bytes: &mut Vec<u8>) {
    let positions = u32::from(bytes[0]) << 4 | u32::from(bytes[1]) >> 4;
    match rng.below(8) {
        7 => {
            // N = 2049.
            bytes[0] = 0x80;
            bytes[1] |= 0x10;
        }
        0 => bytes.truncate(rng.below(bytes.len())),
        1 => bytes.push(0),
        2 => {
            // L = N.
            bytes[1] = bytes[1] & 0xf0 | (positions >> 8) as u8;
            bytes[2] = positions as u8;
        }
        3 => {
            bytes[0] = 0;
            bytes[1] &= 0x0f;
        }
        4 => bytes[3] = bytes[3].wrapping_add(1),
        5 => {
            let last = bytes.len() - 1;
            bytes[last] |= 1 << rng.below(3);
        }
        _ => {
            let at = rng.below(bytes.len());
            bytes[at] = rng.draw() as u8;
        }
    }
}
