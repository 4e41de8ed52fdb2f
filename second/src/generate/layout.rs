//! From a list of tokens to a text: blanks and comments between them.

use super::prng::Prng;
use crate::token;

/// How much stands between the tokens.
#[derive(Clone, Copy, Debug, PartialEq, Eq)]
pub enum Style {
    /// Blanks only where two tokens would run together.
    Compact,
    Spaced,
    /// Blanks of all kinds, and comments.
    Wild,
}

const COMMENTS: [&str; 7] = [
    "/**/",
    "/* ; } */",
    "/*/**/*/",
    "// c\n",
    "//}\r;\n",
    "/* \" */",
    "/*\0\u{b}*/",
];

/// The tokens as one text.
pub fn lay_out(rng: &mut Prng, tokens: &[String], style: Style) -> Vec<u8> {
    let mut text = String::new();
    let mut in_words = false;
    let mut before = "";
    for token in tokens {
        text.push_str(&gap(rng, before, token, in_words, style));
        text.push_str(token);
        in_words = match token.as_str() {
            "enum" => true,
            ";" | "}" => false,
            _ => in_words,
        };
        before = token;
    }
    text.into_bytes()
}

fn gap(rng: &mut Prng, before: &str, after: &str, in_words: bool, style: Style) -> String {
    let needed = run_together(before, after, in_words);
    match style {
        Style::Compact if needed => " ".to_string(),
        Style::Compact => String::new(),
        Style::Spaced => " ".to_string(),
        Style::Wild => wild_gap(rng, needed),
    }
}

fn wild_gap(rng: &mut Prng, needed: bool) -> String {
    let mut gap = String::new();
    while rng.one_in(3) {
        gap.push_str(rng.pick::<&str>(&[" ", "\t", "\n", "\r", "  "]));
    }
    if rng.one_in(12) {
        gap.push_str(rng.pick::<&str>(&COMMENTS));
    }
    if needed && gap.is_empty() {
        gap.push(' ');
    }
    // A sign before a comment could make another one: `/` before `/*`.
    if !gap.is_empty() && gap.starts_with('/') {
        gap.insert(0, ' ');
    }
    gap
}

// Whether the two would not be read as just these two tokens.
fn run_together(before: &str, after: &str, in_words: bool) -> bool {
    if before.is_empty() {
        return false;
    }
    let mode = if in_words { "enum " } else { "" };
    let joined = format!("{mode}{before}{after}");
    let expected = mode.len() + before.len();
    match token::scan(joined.as_bytes()) {
        Ok(tokens) => {
            let own = &tokens[usize::from(in_words)..];
            own.len() != 2 || own[0].end != expected
        }
        Err(_) => true,
    }
}
