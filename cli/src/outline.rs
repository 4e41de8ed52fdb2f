//! Where a text's sections and statements stand.

use crate::tokens::{self, Kind, Token};
use std::ops::Range;

/// A line of a section: its tokens without the `;`, its bytes with it.
#[derive(Clone, Debug)]
pub struct Statement {
    pub section: &'static str,
    pub tokens: Range<usize>,
    pub start: usize,
    pub end: usize,
}

/// A section of GLOBAL or MAIN, from its word to its closing brace.
#[derive(Clone, Debug)]
pub struct Section {
    pub name: &'static str,
    pub start: usize,
    pub end: usize,
}

/// A text as far as its braces show it.
#[derive(Debug, Default)]
pub struct Outline {
    pub tokens: Vec<Token>,
    pub sections: Vec<Section>,
    pub statements: Vec<Statement>,
    /// INFO's tokens between its braces.
    pub info: Range<usize>,
    /// Where MAIN's closing brace stands.
    pub main_end: Option<usize>,
}

// Names of v1.1, and those of v1.0 that are read like them.
const SECTIONS: [(&str, &str); 13] = [
    ("PARAMETERS", "PARAMETERS"),
    ("DEFINITIONS", "DEFINITIONS"),
    ("INPUTS", "INPUTS"),
    ("OUTPUTS", "OUTPUTS"),
    ("INITIALLY", "INITIALLY"),
    ("PRESET", "PRESET"),
    ("REQUIRE", "REQUIRE"),
    ("ASSERT", "ASSERT"),
    ("INVARIANTS", "ASSERT"),
    ("ASSUME", "ASSUME"),
    ("ASSUMPTIONS", "ASSUME"),
    ("GUARANTEE", "GUARANTEE"),
    ("GUARANTEES", "GUARANTEE"),
];

/// The sections whose lines are formulas.
pub const FORMULAS: [&str; 6] = ["INITIALLY", "PRESET", "REQUIRE", "ASSERT", "ASSUME", "GUARANTEE"];

pub fn is_formula(section: &str) -> bool {
    FORMULAS.contains(&section)
}

impl Statement {
    /// The line as it is shown: without its `;` and its comments, each run of blanks as one.
    pub fn shown(&self, text: &[u8], tokens: &[Token]) -> String {
        joined(text, tokens.get(self.tokens.clone()).unwrap_or_default())
    }
}

/// Tokens with a blank between those that stand apart.
pub fn joined(text: &[u8], tokens: &[Token]) -> String {
    let mut shown = String::new();
    let mut end = None;
    for token in tokens {
        if end.is_some_and(|end| end < token.start) {
            shown.push(' ');
        }
        shown.push_str(&token.shown(text));
        end = Some(token.end);
    }
    shown
}

/// What is open while tokens are gone through.
#[derive(Default)]
struct Walk {
    depth: usize,
    block: Option<usize>,
    section: Option<(&'static str, usize)>,
    first: Option<usize>,
}

pub fn of(text: &[u8]) -> Outline {
    of_tokens(text, tokens::of(text))
}

/// Of a text's beginning, up to MAIN.
pub fn before_main(text: &[u8]) -> Outline {
    of_tokens(text, tokens::before(text, "MAIN"))
}

fn of_tokens(text: &[u8], tokens: Vec<Token>) -> Outline {
    let mut outline = Outline {
        tokens,
        ..Outline::default()
    };
    let mut walk = Walk::default();
    for number in 0..outline.tokens.len() {
        step(text, &mut outline, &mut walk, number);
    }
    outline
}

fn step(text: &[u8], outline: &mut Outline, walk: &mut Walk, number: usize) {
    let token = outline.tokens[number];
    match (token.bytes(text), walk.depth) {
        (b"{", depth) => {
            walk.depth += 1;
            if depth >= 2 {
                walk.first.get_or_insert(number);
            } else if walk.block.is_some_and(|block| outline.tokens[block].is(text, "INFO")) {
                outline.info.start = number + 1;
            }
        }
        (b"}", 0) => {}
        (b"}", depth) => {
            walk.depth -= 1;
            close(text, outline, walk, number, depth);
        }
        (b";", 2) => end_statement(outline, walk, number, token.end),
        (_, 2..) => {
            walk.first.get_or_insert(number);
        }
        (word, depth) if token.kind == Kind::Word => {
            if depth == 0 {
                walk.block = Some(number);
            }
            let named = SECTIONS.iter().find(|(spelling, _)| spelling.as_bytes() == word);
            walk.section = named.map(|(_, section)| (*section, token.start));
        }
        _ => {}
    }
}

fn close(text: &[u8], outline: &mut Outline, walk: &mut Walk, number: usize, depth: usize) {
    let token = outline.tokens[number];
    if depth == 2 {
        end_statement(outline, walk, number, outline.tokens[number.saturating_sub(1)].end);
        if let Some((name, start)) = walk.section.take() {
            outline.sections.push(Section {
                name,
                start,
                end: token.end,
            });
        }
    } else if depth == 1 {
        match walk.block.take().map(|block| outline.tokens[block].bytes(text)) {
            Some(b"INFO") => outline.info.end = number,
            Some(b"MAIN") => outline.main_end = Some(token.start),
            _ => {}
        }
    }
}

fn end_statement(outline: &mut Outline, walk: &mut Walk, number: usize, end: usize) {
    if let (Some((section, _)), Some(first)) = (walk.section, walk.first.take()) {
        outline.statements.push(Statement {
            section,
            tokens: first..number,
            start: outline.tokens[first].start,
            end,
        });
    }
}

impl Outline {
    /// The text's bytes with a blank in the place of some sections.
    pub fn without(&self, text: &[u8], is_left_out: impl Fn(&str) -> bool) -> Vec<u8> {
        let mut rest = Vec::new();
        let mut at = 0;
        for section in self.sections.iter().filter(|section| is_left_out(section.name)) {
            rest.extend_from_slice(text.get(at..section.start).unwrap_or_default());
            rest.push(b' ');
            at = section.end;
        }
        rest.extend_from_slice(text.get(at..).unwrap_or_default());
        rest
    }

    /// The statement that a place stands in, or directly behind.
    pub fn statement_at(&self, place: usize) -> Option<&Statement> {
        self.statements
            .iter()
            .find(|statement| (statement.start..statement.end).contains(&place))
    }

    /// The token that begins at a place, by its number.
    pub fn token_at(&self, place: usize) -> Option<usize> {
        self.tokens.binary_search_by_key(&place, |token| token.start).ok()
    }

    /// The tokens of an entry of INFO, after its `:`.
    pub fn entry(&self, text: &[u8], word: &str) -> &[Token] {
        let info = self.tokens.get(self.info.clone()).unwrap_or_default();
        let entries = ["TITLE", "DESCRIPTION", "SEMANTICS", "TARGET", "TAGS"];
        let Some(start) = info.iter().position(|token| token.is(text, word)) else {
            return &[];
        };
        let rest = info.get(start + 2..).unwrap_or_default();
        let end = rest.iter().position(|token| entries.iter().any(|entry| token.is(text, entry)));
        &rest[..end.unwrap_or(rest.len())]
    }

    pub fn is_strict(&self, text: &[u8]) -> bool {
        self.entry(text, "SEMANTICS").iter().any(|token| token.is(text, "Strict"))
    }
}

#[cfg(test)]
mod tests {
    use super::*;

    #[test]
    fn lines_of_sections() {
        let text = b"INFO { TITLE: \"ASSUME { x; }\" SEMANTICS: Mealy,Strict TARGET: Mealy } MAIN { INPUTS { a; }
            OUTPUTS { b[2]; } ASSERT { /* one; /* two */ */ a /* four */ ; // three;
            &&[i IN {0, 1}] // five
              b[i] } GUARANTEES { G a; } PRESET { } }";
        let outline = of(text);
        let shown: Vec<(&str, String)> = outline
            .statements
            .iter()
            .map(|line| (line.section, line.shown(text, &outline.tokens)))
            .collect();
        let expected = [
            ("INPUTS", "a"),
            ("OUTPUTS", "b[2]"),
            ("ASSERT", "a"),
            ("ASSERT", "&&[i IN {0, 1}] b[i]"),
            ("GUARANTEE", "G a"),
        ];
        assert_eq!(shown, expected.map(|(section, line)| (section, line.to_string())));
        assert!(outline.is_strict(text));
        let title = joined(text, outline.entry(text, "TITLE"));
        assert_eq!(title, "\"ASSUME { x; }\"");
        assert_eq!(outline.main_end, Some(text.len() - 1));
        let last = outline.sections.last().map(|section| (section.name, section.end));
        assert_eq!(last, Some(("PRESET", text.len() - 2)));
    }

    #[test]
    fn any_bytes() {
        for text in [&b"}}}"[..], b"{{{", b"\"", b"/*", b"MAIN { ASSUME { a", b"\xff;{}", b";", b"}{;}"] {
            of(text);
        }
    }
}
