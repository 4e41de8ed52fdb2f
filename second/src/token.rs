//! Tokens: refusals 1, 2 and 3.

use crate::answer::Refusal;
use crate::limits;

/// What a token is.
#[derive(Clone, Copy, Debug, PartialEq, Eq)]
pub enum Kind {
    /// A name that is no word of the format.
    Name,
    /// A run of digits.
    Numeral,
    /// A word of an enumeration: a run of `0`, `1`, `*`.
    Marks,
    /// A string with its quotes.
    Quoted,
    /// A sign, or a word of the format.
    Fixed(&'static str),
}

/// A token with its bytes `start .. end`.
#[derive(Clone, Copy, Debug, PartialEq, Eq)]
pub struct Token {
    pub kind: Kind,
    pub start: usize,
    pub end: usize,
}

// T3, and 01: 'Tokens are read longest first'. The longer signs stand first.
const SIGNS: [&str; 35] = [
    "(*)", "(+)", "(\\)", "(-)", "<->", "==", "!=", "/=", "<=", ">=", "<-", "&&", "||", "->", "..",
    "(", ")", "[", "]", "{", "}", ",", ";", ":", "=", "|", "+", "*", "/", "%", "-", "<", ">", "!",
    "~",
];

// T7: the words of the format.
pub const FORMAT_WORDS: [&str; 64] = [
    "INFO",
    "TITLE",
    "DESCRIPTION",
    "SEMANTICS",
    "TARGET",
    "TAGS",
    "GLOBAL",
    "PARAMETERS",
    "DEFINITIONS",
    "MAIN",
    "INPUTS",
    "OUTPUTS",
    "INITIALLY",
    "PRESET",
    "REQUIRE",
    "ASSERT",
    "ASSUME",
    "GUARANTEE",
    "INVARIANTS",
    "ASSUMPTIONS",
    "GUARANTEES",
    "enum",
    "true",
    "false",
    "otherwise",
    "Mealy",
    "Moore",
    "Strict",
    "SUM",
    "PROD",
    "SIZE",
    "MIN",
    "MAX",
    "SIZEOF",
    "MUL",
    "DIV",
    "MOD",
    "PLUS",
    "MINUS",
    "CAP",
    "CUP",
    "SETMINUS",
    "EQ",
    "NEQ",
    "LE",
    "LEQ",
    "GE",
    "GEG",
    "GEQ",
    "IN",
    "ELEM",
    "NOT",
    "X",
    "F",
    "G",
    "AND",
    "FORALL",
    "OR",
    "EXISTS",
    "IMPLIES",
    "EQUIV",
    "W",
    "U",
    "R",
];

/// Refusals 1, 2, 3, each over the whole text; otherwise the tokens.
pub fn tokens(text: &[u8]) -> Result<Vec<Token>, Refusal> {
    check_length(text)?;
    let tokens = scan(text)?;
    check_count(&tokens)?;
    Ok(tokens)
}

// 01: 'text 32,768 bytes'; refusal 1.
fn check_length(text: &[u8]) -> Result<(), Refusal> {
    if text.len() > limits::TEXT_BYTES {
        return Err(Refusal::new(1, limits::TEXT_BYTES));
    }
    Ok(())
}

// 01: '8,192 tokens'; refusal 3 at the 8,193rd.
fn check_count(tokens: &[Token]) -> Result<(), Refusal> {
    match tokens.get(limits::TOKENS) {
        Some(token) => Err(Refusal::new(3, token.start)),
        None => Ok(()),
    }
}

/// Refusal 2 at its first place; otherwise all tokens of the text, however many.
pub fn scan(text: &[u8]) -> Result<Vec<Token>, Refusal> {
    let mut tokens = Vec::new();
    let mut in_words = false;
    let mut at = skip_blanks(text, 0)?;
    while at < text.len() {
        let token = token_at(text, at, in_words)?;
        in_words = words_after(in_words, token.kind);
        tokens.push(token);
        at = skip_blanks(text, token.end)?;
    }
    Ok(tokens)
}

// T5: from any token `enum` to the next token `;` or `}`.
fn words_after(in_words: bool, kind: Kind) -> bool {
    match kind {
        Kind::Fixed("enum") => true,
        Kind::Fixed(";") | Kind::Fixed("}") => false,
        _ => in_words,
    }
}

fn token_at(text: &[u8], at: usize, in_words: bool) -> Result<Token, Refusal> {
    let byte = text[at];
    if is_name_start(byte) {
        return name_at(text, at);
    }
    if byte == b'"' {
        return string_at(text, at);
    }
    if in_words && is_mark(byte) {
        return Ok(run_at(text, at, Kind::Marks, is_mark));
    }
    if !in_words && byte.is_ascii_digit() {
        return Ok(run_at(text, at, Kind::Numeral, |b| b.is_ascii_digit()));
    }
    sign_at(text, at)
}

// T3: names hold letters, digits, `_`, `'`, `@` and start with no digit or `'`.
fn is_name_start(byte: u8) -> bool {
    byte.is_ascii_alphabetic() || byte == b'_' || byte == b'@'
}

fn is_name_byte(byte: u8) -> bool {
    is_name_start(byte) || byte.is_ascii_digit() || byte == b'\''
}

fn is_mark(byte: u8) -> bool {
    matches!(byte, b'0' | b'1' | b'*')
}

fn run_at(text: &[u8], at: usize, kind: Kind, belongs: impl Fn(u8) -> bool) -> Token {
    let length = text[at..].iter().take_while(|b| belongs(**b)).count();
    Token {
        kind,
        start: at,
        end: at + length,
    }
}

// T6: a run of more than 64 bytes is 2 at its first byte.
fn name_at(text: &[u8], at: usize) -> Result<Token, Refusal> {
    let mut token = run_at(text, at, Kind::Name, is_name_byte);
    if token.end - at > limits::NAME_BYTES {
        return Err(Refusal::new(2, at));
    }
    if let Some(word) = format_word(&text[at..token.end]) {
        token.kind = Kind::Fixed(word);
    }
    Ok(token)
}

/// T7: the word of the format with these bytes, if there is one.
pub fn format_word(bytes: &[u8]) -> Option<&'static str> {
    FORMAT_WORDS
        .into_iter()
        .find(|word| word.as_bytes() == bytes)
}

// 01: 'A string ends at the next quote', any byte may stand in it.
fn string_at(text: &[u8], at: usize) -> Result<Token, Refusal> {
    match text[at + 1..].iter().position(|b| *b == b'"') {
        Some(length) => Ok(Token {
            kind: Kind::Quoted,
            start: at,
            end: at + length + 2,
        }),
        None => Err(Refusal::new(2, at)),
    }
}

// 01: 'Tokens are read longest first'.
fn sign_at(text: &[u8], at: usize) -> Result<Token, Refusal> {
    let sign = SIGNS
        .into_iter()
        .find(|sign| text[at..].starts_with(sign.as_bytes()));
    match sign {
        Some(sign) => Ok(Token {
            kind: Kind::Fixed(sign),
            start: at,
            end: at + sign.len(),
        }),
        None => Err(Refusal::new(2, at)),
    }
}

// 01: 'Blanks are space, tab, line feed and carriage return'; comments are skipped too.
fn skip_blanks(text: &[u8], mut at: usize) -> Result<usize, Refusal> {
    loop {
        let rest = &text[at..];
        if rest.starts_with(b"//") {
            at = line_comment_end(text, at);
        } else if rest.starts_with(b"/*") {
            at = block_comment_end(text, at)?;
        } else if matches!(rest.first(), Some(b' ' | b'\t' | b'\n' | b'\r')) {
            at += 1;
        } else {
            return Ok(at);
        }
    }
}

// T1: to the next line feed or the end of the text.
fn line_comment_end(text: &[u8], at: usize) -> usize {
    match text[at..].iter().position(|b| *b == b'\n') {
        Some(length) => at + length + 1,
        None => text.len(),
    }
}

// T2: only `/*` and `*/` count, left to right; unclosed is 2 at the outermost `/*`.
fn block_comment_end(text: &[u8], start: usize) -> Result<usize, Refusal> {
    let mut depth = 0usize;
    let mut at = start;
    while at < text.len() {
        if text[at..].starts_with(b"/*") {
            depth += 1;
            at += 2;
        } else if text[at..].starts_with(b"*/") {
            depth -= 1;
            at += 2;
            if depth == 0 {
                return Ok(at);
            }
        } else {
            at += 1;
        }
    }
    Err(Refusal::new(2, start))
}
