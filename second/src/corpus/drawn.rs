//! Texts drawn from a seed, so many of each answer.

use super::{files, File, Stored, SEPARATOR};
use crate::answer::Answer;
use crate::generate::{self, prng::Prng};
use crate::reader;

const SEED: u64 = 20_261_116;

/// How many accepted texts are stored of those that have so many bytes or more, the longest first.
const ACCEPTED: [(usize, usize); 3] = [(8_192, 8), (800, 200), (0, 1_030)];

/// How many texts are stored of each refusal, from 1 to 16; 14 no longer occurs.
const REFUSED: [usize; 16] = [3, 80, 4, 120, 60, 80, 80, 16, 80, 80, 80, 80, 80, 0, 16, 30];

/// Which of the counts a text belongs to: those of the accepted ones stand first.
fn row(text: &[u8]) -> usize {
    match reader::read_freely(text).answer {
        Answer::Accepted { .. } => {
            let row = ACCEPTED.iter().position(|&(bytes, _)| text.len() >= bytes);
            row.expect("every length has a row")
        }
        Answer::Refused(refusal) => ACCEPTED.len() + refusal.number as usize - 1,
    }
}

/// The texts in the order in which they are drawn, the empty one first.
pub fn texts() -> Vec<Stored> {
    let mut rng = Prng::new(SEED);
    let mut wanted: Vec<usize> = ACCEPTED.iter().map(|&(_, count)| count).collect();
    wanted.extend(REFUSED);
    let mut stored = vec![Stored::new("0", "")];
    while wanted.iter().any(|&count| count > 0) {
        let text = generate::any_text(&mut rng);
        if text.contains(&SEPARATOR) {
            continue;
        }
        let left = &mut wanted[row(&text)];
        if *left > 0 {
            *left -= 1;
            stored.push(Stored::new(stored.len().to_string(), text));
        }
    }
    stored
}

/// The files of the program.
pub fn data() -> Vec<File> {
    files("texts", &texts())
}
