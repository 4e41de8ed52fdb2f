//! Further faults of a refused text: names that are not declared or declared twice, and wrong types. The first is the library's; for the
//! others what is at fault is blanked, and the library is asked again.

use crate::advice;
use crate::formula::Refusal;
use crate::outline::{self, Outline, Statement};
use crate::tokens::Kind;
use crate::worker::Pool;
use std::ops::Range;

/// A further fault: its place, and what it is.
pub struct Further {
    pub place: usize,
    pub title: String,
}

const MOST: usize = 9;
const MOST_QUESTIONS: usize = 30;

const UNKNOWN: u32 = 6;
const TWICE: u32 = 7;
const WRONG_TYPE: u32 = 9;

/// A text in which faults are blanked one after the other; its length stays.
struct Blanked<'a> {
    text: Vec<u8>,
    outline: &'a Outline,
    /// Where a name was replaced by something that may be of another type.
    replaced: Vec<Range<usize>>,
    /// How many names were given another one.
    renamed: usize,
}

pub fn of(text: &[u8], outline: &Outline, first: Refusal, pool: &Pool) -> Vec<Further> {
    if !has_further(first.number) {
        return Vec::new();
    }
    let mut blanked = Blanked {
        text: text.to_vec(),
        outline,
        replaced: Vec::new(),
        renamed: 0,
    };
    let mut further: Vec<Further> = Vec::new();
    let mut refusal = first;
    for _ in 0..MOST_QUESTIONS {
        if blanked.blank(refusal).is_none() || further.len() == MOST {
            break;
        }
        match pool.answers(&blanked.text, &[""]).as_deref() {
            Some([Some(next)]) if has_further(next.number) && next.place < text.len() => refusal = *next,
            _ => break,
        }
        if refusal.number != WRONG_TYPE {
            let title = advice::of(text, outline, refusal, pool).title.unwrap_or_default();
            further.push(Further {
                place: refusal.place,
                title,
            });
        } else if !blanked.is_replaced(refusal.place) {
            let advice = advice::of(&blanked.text, &outline::of(&blanked.text), refusal, pool);
            let title = advice.title.filter(|title| !title.starts_with("wrong type"));
            further.push(Further {
                place: refusal.place,
                title: title.unwrap_or(format!("wrong type: {}", advice.label)),
            });
        }
    }
    further
}

/// Whether what is at fault can be blanked, so that the library goes on behind it.
fn has_further(number: u32) -> bool {
    matches!(number, UNKNOWN | TWICE | WRONG_TYPE)
}

impl Blanked<'_> {
    /// Takes the fault away, if that leaves the rest as it was.
    fn blank(&mut self, refusal: Refusal) -> Option<()> {
        let statement = self.outline.statement_at(refusal.place)?.clone();
        match refusal.number {
            UNKNOWN if !matches!(statement.section, "INPUTS" | "OUTPUTS") => self.replace_name(refusal.place, &statement),
            UNKNOWN => self.part_names(refusal.place),
            TWICE if !outline::is_formula(statement.section) => self.rename(refusal.place),
            TWICE => Some(self.fill(statement.start..statement.end)),
            WRONG_TYPE if outline::is_formula(statement.section) => Some(self.fill(statement.start..statement.end)),
            _ => None,
        }
    }

    fn fill(&mut self, bytes: Range<usize>) {
        self.text[bytes].fill(b' ');
    }

    /// `open lamp;` becomes two signals.
    fn part_names(&mut self, place: usize) -> Option<()> {
        let name = self.outline.tokens[self.outline.token_at(place)?];
        let gap = self.text.get_mut(name.end).filter(|byte| byte.is_ascii_whitespace())?;
        *gap = b';';
        Some(())
    }

    /// The second of two equal names becomes another one, which nobody has: each time another.
    fn rename(&mut self, place: usize) -> Option<()> {
        let name = self.outline.tokens[self.outline.token_at(place)?];
        let bytes = &mut self.text[name.start..name.end];
        bytes.fill(b'_');
        for (bit, byte) in bytes.iter_mut().enumerate().take(8) {
            if self.renamed >> bit & 1 == 1 {
                *byte = b'@';
            }
        }
        self.renamed += 1;
        Some(())
    }

    /// A name, with its index, becomes a number: that is told only by later refusals.
    fn replace_name(&mut self, place: usize, statement: &Statement) -> Option<()> {
        let at = self.outline.token_at(place)?;
        let name = self.outline.tokens[at];
        if name.kind != Kind::Name {
            return None;
        }
        let mut end = name.end;
        let mut depth = 0;
        for token in &self.outline.tokens[at + 1..statement.tokens.end] {
            match token.bytes(&self.text) {
                b"[" => depth += 1,
                b"]" if depth > 0 => depth -= 1,
                _ if depth == 0 => break,
                _ => {}
            }
            end = token.end;
        }
        self.fill(name.start..end);
        self.text[name.start] = b'0';
        self.replaced.push(statement.start..statement.end);
        Some(())
    }

    fn is_replaced(&self, place: usize) -> bool {
        self.replaced.iter().any(|bytes| bytes.contains(&place))
    }
}
