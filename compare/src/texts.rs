//! The text of a case: of any kind, or, every fourth, of a length that is set beforehand, so that 4 * 32,770 cases in a row meet every length up to 32,769.

use crate::long;
use second::generate::{self, prng::Prng};
use second::{limits, token};

/// Lengths from 0 to one more than a text may have.
pub const LENGTHS: u64 = limits::TEXT_BYTES as u64 + 2;

/// Has no common divisor with `LENGTHS`, so that its multiples meet every length, the short and the long mixed.
const STRIDE: u64 = 10_007;

pub fn text(rng: &mut Prng, index: u64) -> Vec<u8> {
    if index % 4 > 0 {
        return generate::any_text(rng);
    }
    let length = (index / 4 % LENGTHS * STRIDE % LENGTHS) as usize;
    let text = of_length(rng, length);
    assert_eq!(text.len(), length, "the text has the length that was set");
    text
}

/// A text of so many bytes.
pub fn of_length(rng: &mut Prng, length: usize) -> Vec<u8> {
    match rng.below(10) {
        0 => random_bytes(rng, length),
        1 => {
            let mut text = long::filled(rng, length + 200);
            text.resize(length, b' ');
            text
        }
        2..=5 => padded(rng, |rng| long::filled(rng, length), length),
        _ => padded(rng, generate::any_text, length),
    }
}

/// Bytes at random, of a few or of all values.
fn random_bytes(rng: &mut Prng, length: usize) -> Vec<u8> {
    const FEW: &[u8] = b"ab01*(){}[]!;:,= \n/\"-<>|&XGFU";
    let all = rng.one_in(2);
    (0..length)
        .map(|_| match all {
            true => rng.draw() as u8,
            false => *rng.pick(FEW),
        })
        .collect()
}

/// A text that is not longer, with blanks, a comment or a longer string put in; cut off where none comes.
fn padded(rng: &mut Prng, text: impl Fn(&mut Prng) -> Vec<u8>, length: usize) -> Vec<u8> {
    let mut short = text(rng);
    for _ in 0..8 {
        if short.len() <= length {
            break;
        }
        short = text(rng);
    }
    short.truncate(length);
    let missing = length - short.len();
    let (place, padding) = match rng.below(6) {
        0 => (string_place(&short), vec![rng.draw() as u8 | 1; missing]),
        1 | 2 if missing >= 4 => (token_place(rng, &short), comment(rng, missing)),
        _ => (token_place(rng, &short), blanks(rng, missing)),
    };
    short.splice(place..place, padding);
    short
}

/// Inside the first string, or the end.
fn string_place(text: &[u8]) -> usize {
    match text.iter().position(|byte| *byte == b'"') {
        Some(quote) => quote + 1,
        None => text.len(),
    }
}

/// Before some token, or the end.
fn token_place(rng: &mut Prng, text: &[u8]) -> usize {
    match token::scan(text) {
        Ok(tokens) if !tokens.is_empty() => rng.pick(&tokens).start,
        _ => rng.below(text.len() + 1),
    }
}

fn blanks(rng: &mut Prng, count: usize) -> Vec<u8> {
    (0..count).map(|_| *rng.pick(b" \t\n\r")).collect()
}

/// A comment of so many bytes, at least four: to the end of a line, or nested as deep as it goes, or with anything in it.
fn comment(rng: &mut Prng, count: usize) -> Vec<u8> {
    let inside = count - 4;
    match rng.below(3) {
        0 => [b"// ", &vec![b'c'; inside][..], b"\n"].concat(),
        1 => {
            let pairs = count / 4;
            let mut comment = b"/*".repeat(pairs);
            comment.extend(vec![b' '; count % 4]);
            comment.extend(b"*/".repeat(pairs));
            comment
        }
        _ => {
            let bytes: Vec<u8> = (0..inside).map(|_| rng.draw() as u8).collect();
            [b"/*", &bytes[..], b"*/"].concat()
        }
    }
}
