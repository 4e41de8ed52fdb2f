//! Texts broken by mutation: of their tokens, or of their bytes.

use super::prng::Prng;
use crate::token::FORMAT_WORDS;

const SIGNS: [&str; 42] = [
    "(*)", "(+)", "(\\)", "(-)", "<->", "==", "!=", "/=", "<=", ">=", "<-", "&&", "||", "->", "..",
    "(", ")", "[", "]", "{", "}", ",", ";", ":", "=", "|", "+", "*", "/", "%", "-", "<", ">", "!",
    "~", "0", "1", "a", "i", "\"\"", "01*", "X",
];

/// Deletes, doubles, swaps, replaces or inserts a token.
pub fn damage_tokens(rng: &mut Prng, tokens: &mut Vec<String>) {
    if tokens.is_empty() {
        return;
    }
    let at = rng.below(tokens.len());
    match rng.below(5) {
        0 => {
            tokens.remove(at);
        }
        1 => tokens.insert(at, tokens[at].clone()),
        2 => {
            let other = rng.below(tokens.len());
            tokens.swap(at, other);
        }
        3 => tokens[at] = any_token(rng, tokens),
        _ => tokens.insert(at, any_token(rng, tokens)),
    }
}

fn any_token(rng: &mut Prng, tokens: &[String]) -> String {
    match rng.below(3) {
        0 => rng.pick(&FORMAT_WORDS).to_string(),
        1 => rng.pick(&SIGNS).to_string(),
        _ => rng.pick(tokens).clone(),
    }
}

// Pieces of expressions, some of several tokens.
const PIECES: [&str; 40] = [
    "a",
    "a",
    "b [ 0 ]",
    "b",
    "1",
    "1",
    "{ 1 }",
    "{ }",
    "( a )",
    "true",
    "!",
    "X",
    "F",
    "G",
    "X [ 1 ]",
    "F [ 0 : 1 ]",
    "&&",
    "||",
    "->",
    "<->",
    "U",
    "R",
    "W",
    "==",
    "<",
    "IN",
    "+",
    "*",
    "-",
    "/",
    "(+)",
    "(*)",
    "(\\)",
    "|",
    "MIN",
    "SIZEOF",
    "&& [ i IN { 1 } ]",
    "+ [ 0 <= i < 2 ]",
    "(+) [ i IN { 1 } ]",
    "i",
];

/// A piece of an expression.
pub fn expression_token(rng: &mut Prng) -> &'static str {
    PIECES[rng.below(PIECES.len())]
}

// Bytes that begin no token, open something, or change what stands around them.
const BYTES: [&[u8]; 24] = [
    b"#", b".", b"&", b"\\", b"'", b"\x0b", b"\x0c", b"\0", b"\x80", b"\xff", b"\"", b"/*", b"*/",
    b"//", b"$", b"|", b"*", b"0", b"2", b" ", b"\r", b"\n", b"enum ", b"=",
];

/// Changes, deletes or inserts a byte, or cuts the text off.
pub fn damage_bytes(rng: &mut Prng, text: &mut Vec<u8>) {
    if text.is_empty() {
        return;
    }
    let at = rng.below(text.len());
    match rng.below(6) {
        0 => {
            text.remove(at);
        }
        1 => text[at] = rng.draw() as u8,
        2 => text.truncate(at),
        3 => text.insert(at, text[at]),
        _ => {
            let bytes = *rng.pick(&BYTES);
            text.splice(at..at, bytes.iter().copied());
        }
    }
}
