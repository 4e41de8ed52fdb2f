//! What is told about a refusal beyond its page: what was found and expected, the names and values at fault, and further places.
//! The library decides; everything here only helps whoever mends the text.

mod characters;
mod names;
mod syntax;
mod types;
mod values;
mod words;

use crate::formula::Refusal;
use crate::outline::{self, Outline};
use crate::worker::Pool;
use std::ops::Range;

/// What a message says of a refusal. What is left empty is told by the refusal's page.
#[derive(Debug, Default)]
pub struct Advice {
    /// In place of the page's title.
    pub title: Option<String>,
    /// The bytes that are marked.
    pub mark: Range<usize>,
    pub label: String,
    /// Further places, each with what is said there.
    pub others: Vec<(Range<usize>, String)>,
    /// In place of the page's rule and of how to mend it.
    pub notes: Vec<String>,
    /// What may stand at the place, of an unexpected token.
    pub expected: Vec<&'static str>,
}

/// A refused text with what its tokens tell.
pub struct Case<'a> {
    pub text: &'a [u8],
    pub refusal: Refusal,
    pub outline: &'a Outline,
    pub pool: &'a Pool,
}

pub fn of(text: &[u8], outline: &Outline, refusal: Refusal, pool: &Pool) -> Advice {
    let case = Case {
        text,
        refusal,
        outline,
        pool,
    };
    let mut advice = match refusal.number {
        2 => characters::advice(&case),
        4 => syntax::advice(&case),
        6 => names::unknown(&case),
        7 => names::twice(&case),
        9 => types::advice(&case),
        10 => words::advice(&case),
        11 => values::out_of_range(&case),
        12 => values::set(&case),
        13 => values::width(&case),
        14 => other_model(&case),
        15 => values::too_many_signals(&case),
        16 => values::too_many_nodes(&case),
        _ => Advice::default(),
    };
    if advice.mark.is_empty() {
        advice.mark = case.token();
    }
    if advice.label.is_empty() {
        advice.label = label(&case);
    }
    advice
}

/// What a mark says where nothing else does.
fn label(case: &Case) -> String {
    match case.refusal.number {
        1 => "the first byte too many",
        3 => "the 8,193rd token",
        5 => "this expression",
        8 => "the 257th name",
        _ => "here",
    }
    .to_string()
}

impl Case<'_> {
    /// The bytes of the token at the refusal's place.
    pub fn token(&self) -> Range<usize> {
        let place = self.refusal.place;
        let found = self.outline.token_at(place).map(|token| self.outline.tokens[token]);
        found.map_or(place..place, |token| token.start..token.end)
    }

    /// A token's spelling, nothing beyond the last one.
    pub fn spelling(&self, token: usize) -> &str {
        let token = self.outline.tokens.get(token);
        token
            .and_then(|token| std::str::from_utf8(token.bytes(self.text)).ok())
            .unwrap_or("")
    }

    pub fn line_of(&self, place: usize) -> usize {
        let before = &self.text[..place.min(self.text.len())];
        before.iter().filter(|&&byte| byte == b'\n').count() + 1
    }
}

// Changing a word changes what is asked for.
fn other_model(case: &Case) -> Advice {
    let of = |entry: &str| {
        outline::joined(
            case.text,
            &case.outline.entry(case.text, entry)[..case.outline.entry(case.text, entry).len().min(1)],
        )
    };
    let (semantics, target) = (of("SEMANTICS"), of("TARGET"));
    Advice {
        title: Some(format!("SEMANTICS is {semantics} and TARGET is {target}: not converted yet")),
        label: "a machine of the other model".to_string(),
        notes: vec![
            "The text is in order, but its formula would have to be converted between Mealy and Moore, which is not done yet.".to_string(),
            "Writing the same model for both asks for another machine: do so only if that is what is wanted.".to_string(),
        ],
        ..Advice::default()
    }
}
