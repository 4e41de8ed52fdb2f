//! Refusal 10: the words of an enumeration.

use super::{Advice, Case};
use crate::enumerations;
use crate::message::counted;
use crate::tokens::Token;

/// A word with the identifier that it stands for.
#[derive(Clone, Copy)]
struct Named<'a> {
    identifier: &'a str,
    word: Token,
}

impl Named<'_> {
    fn marks(&self) -> usize {
        self.word.end - self.word.start
    }
}

pub fn advice(case: &Case) -> Advice {
    let all = enumerations::of(case.text, &case.outline);
    let place = case.refusal.place;
    for by in &all {
        let named = by.identifiers.iter().flat_map(|identifier| {
            identifier.words.iter().map(|word| Named {
                identifier: &identifier.name,
                word: *word,
            })
        });
        let (earlier, others): (Vec<Named>, Vec<Named>) = named.partition(|named| named.word.start < place);
        if let Some(later) = others.first().filter(|named| named.word.start == place) {
            return fault(case, &by.name, &earlier, *later);
        }
    }
    Advice::default()
}

/// Why a word does not fit those before it.
fn fault(case: &Case, enumeration: &str, earlier: &[Named], later: Named) -> Advice {
    let marks = later.marks();
    if let Some(first) = earlier.iter().find(|first| first.marks() != marks) {
        return told(
            format!("the words of '{enumeration}' are not equally long"),
            counted(marks, "mark"),
            Some((&first.word, counted(first.marks(), "mark"))),
            "Every word of an enumeration has a mark for each bit of its buses.",
        );
    }
    if marks > 8 {
        let title = "a word with more than 8 marks".to_string();
        return told(title, counted(marks, "mark"), None, "A word has at most 8 marks.");
    }
    if earlier.len() >= 16 {
        let note = "An enumeration has at most 16 words; a star stands for both values of a bit.";
        return told(
            format!("'{enumeration}' has more than 16 words"),
            "the 17th".to_string(),
            None,
            note,
        );
    }
    let overlaps = |first: &&Named| {
        let mut both = first.word.bytes(case.text).iter().zip(later.word.bytes(case.text));
        first.identifier != later.identifier && both.all(|(one, other)| one == other || *one == b'*' || *other == b'*')
    };
    match earlier.iter().find(overlaps) {
        Some(first) => told(
            format!(
                "'{}' stands for a valuation that {} names already",
                later.word.shown(case.text),
                first.identifier
            ),
            format!("of {}", later.identifier),
            Some((&first.word, format!("of {}, for the same bits", first.identifier))),
            "Each valuation of the bits belongs to one identifier; a star stands for 0 and for 1.",
        ),
        None => Advice::default(),
    }
}

fn told(title: String, label: String, other: Option<(&Token, String)>, note: &str) -> Advice {
    Advice {
        title: Some(title),
        label,
        others: other.into_iter().map(|(token, said)| (token.start..token.end, said)).collect(),
        notes: vec![note.to_string()],
        ..Advice::default()
    }
}
