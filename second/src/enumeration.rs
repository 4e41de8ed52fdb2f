//! Enumerations: refusal 10, and the words.

use crate::answer::Refusal;
use crate::limits;
use crate::syntax::{Enumeration, Syntax};

/// Refusal 10 at the first wrong word of the whole text (N8).
pub fn check(syntax: &Syntax) -> Result<(), Refusal> {
    let wrong = syntax
        .enumerations
        .iter()
        .filter_map(|enumeration| first_wrong_word(syntax, enumeration));
    Refusal::at_first(10, wrong)
}

/// The words before one of the same enumeration, with the number of their identifier.
type Earlier<'s> = Vec<(usize, &'s [u8])>;

fn first_wrong_word(syntax: &Syntax, enumeration: &Enumeration) -> Option<usize> {
    let mut earlier = Earlier::new();
    for (number, identifier) in enumeration.identifiers.iter().enumerate() {
        for word in &identifier.words {
            let marks = syntax.bytes(*word);
            if is_wrong(&earlier, number, marks) {
                return Some(syntax.place(*word));
            }
            earlier.push((number, marks));
        }
    }
    None
}

// 01: 'words unequal, too long or many, or one valuation under two identifiers'.
fn is_wrong(earlier: &Earlier, identifier: usize, marks: &[u8]) -> bool {
    let unequal = earlier
        .first()
        .is_some_and(|(_, first)| first.len() != marks.len());
    let shared = earlier
        .iter()
        .any(|(other, word)| *other != identifier && share_a_valuation(word, marks));
    unequal
        || marks.len() > limits::WORD_MARKS
        || earlier.len() >= limits::ENUMERATION_WORDS
        || shared
}

// Words of equal length share a valuation unless some bit is 0 in one and 1 in the other.
fn share_a_valuation(one: &[u8], other: &[u8]) -> bool {
    one.len() == other.len()
        && one
            .iter()
            .zip(other)
            .all(|(a, b)| a == b || *a == b'*' || *b == b'*')
}

/// The words of one identifier, in text order.
pub fn identifier_words(syntax: &Syntax, enumeration: usize, identifier: usize) -> Vec<Vec<u8>> {
    syntax.enumerations[enumeration].identifiers[identifier]
        .words
        .iter()
        .map(|word| syntax.bytes(*word).to_vec())
        .collect()
}

/// All words of an enumeration, in text order.
pub fn all_words(syntax: &Syntax, enumeration: usize) -> Vec<Vec<u8>> {
    (0..syntax.enumerations[enumeration].identifiers.len())
        .flat_map(|identifier| identifier_words(syntax, enumeration, identifier))
        .collect()
}

/// The width of an enumeration's words.
pub fn width(syntax: &Syntax, enumeration: usize) -> u32 {
    let first = syntax.enumerations[enumeration].identifiers[0].words[0];
    syntax.bytes(first).len() as u32
}

/// 01: 'a star matching both'. Bit i of the valuation stands for mark i.
pub fn matches(word: &[u8], valuation: impl Fn(usize) -> bool) -> bool {
    word.iter().enumerate().all(|(bit, mark)| match mark {
        b'0' => !valuation(bit),
        b'1' => valuation(bit),
        _ => true,
    })
}

/// Whether the words leave some valuation unnamed.
pub fn leaves_some_unnamed(words: &[Vec<u8>]) -> bool {
    let width = words[0].len();
    (0..1u32 << width).any(|valuation| {
        !words
            .iter()
            .any(|word| matches(word, |bit| valuation >> bit & 1 == 1))
    })
}
