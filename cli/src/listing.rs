//! Document 01's listing.

use crate::formula::{Formula, Refusal};
use crate::node;
use std::sync::OnceLock;

pub fn accepted(formula: &Formula) -> Vec<u8> {
    let mut listing = format!("accepted {} {}\n", formula.nodes.len(), formula.signals.len()).into_bytes();
    let mut end = listing.len();
    let spellings = SPELLINGS.get_or_init(|| (0..1 << 14).map(spelt).collect());
    listing.resize(end + formula.nodes.len() * LONGEST_LINE + SPELLING, 0);
    for (number, &node) in formula.nodes.iter().enumerate() {
        let fields = [number, node::kind(node) as usize, node::first(node), node::second(node)];
        for (field, after) in fields.into_iter().zip(*b"   \n") {
            let spelling = &spellings[field];
            listing[end..end + SPELLING].copy_from_slice(&spelling.digits);
            end += spelling.length;
            listing[end] = after;
            end += 1;
        }
    }
    listing.truncate(end);
    listing
}

/// A line has four numbers of at most 14 bits.
const LONGEST_LINE: usize = 4 * 6;

/// Bytes that are put at once: a number's digits, and some that the next number takes the place of.
const SPELLING: usize = 8;

/// A number of at most 14 bits in decimal digits.
#[derive(Clone, Copy)]
struct Spelling {
    digits: [u8; SPELLING],
    length: usize,
}

// A day's listings have millions of numbers: each is spelt once.
static SPELLINGS: OnceLock<Vec<Spelling>> = OnceLock::new();

fn spelt(number: usize) -> Spelling {
    let written = number.to_string();
    let mut digits = [0; SPELLING];
    digits[..written.len()].copy_from_slice(written.as_bytes());
    Spelling {
        digits,
        length: written.len(),
    }
}

pub fn refused(refusal: Refusal) -> String {
    format!("refused {} {}\n", refusal.number, refusal.place)
}
