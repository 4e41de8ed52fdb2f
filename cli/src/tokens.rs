//! A text's tokens, for what is told about it. What is accepted is the library's to say.

use crate::files;

/// What a token is.
#[derive(Clone, Copy, Debug, PartialEq, Eq)]
pub enum Kind {
    Name,
    Numeral,
    /// A word of an enumeration: a run of `0`, `1`, `*`.
    Marks,
    Quoted,
    /// A word of the format.
    Word,
    Sign,
    /// A comment or a string that is not closed: the rest of the text.
    Unclosed,
    /// Bytes that begin no token: one character.
    Unknown,
}

/// A token: its bytes are `start .. end`.
#[derive(Clone, Copy, Debug, PartialEq, Eq)]
pub struct Token {
    pub kind: Kind,
    pub start: usize,
    pub end: usize,
}

impl Token {
    pub fn bytes<'a>(&self, text: &'a [u8]) -> &'a [u8] {
        text.get(self.start..self.end).unwrap_or_default()
    }

    pub fn is(&self, text: &[u8], spelling: &str) -> bool {
        self.bytes(text) == spelling.as_bytes()
    }

    /// As it is shown: no byte that a terminal would act on.
    pub fn shown(&self, text: &[u8]) -> String {
        files::harmless(&String::from_utf8_lossy(self.bytes(text)))
    }
}

/// The signs, longer ones first.
pub const SIGNS: [&str; 35] = [
    "(*)", "(+)", "(\\)", "(-)", "<->", "==", "!=", "/=", "<=", ">=", "<-", "&&", "||", "->", "..", "(", ")", "[", "]", "{", "}", ",", ";",
    ":", "=", "|", "+", "*", "/", "%", "-", "<", ">", "!", "~",
];

/// The words of the format.
pub const WORDS: [&str; 64] = [
    "INFO",
    "TITLE",
    "DESCRIPTION",
    "SEMANTICS",
    "TARGET",
    "TAGS",
    "GLOBAL",
    "PARAMETERS",
    "DEFINITIONS",
    "MAIN",
    "INPUTS",
    "OUTPUTS",
    "INITIALLY",
    "PRESET",
    "REQUIRE",
    "ASSERT",
    "ASSUME",
    "GUARANTEE",
    "INVARIANTS",
    "ASSUMPTIONS",
    "GUARANTEES",
    "enum",
    "true",
    "false",
    "otherwise",
    "Mealy",
    "Moore",
    "Strict",
    "SUM",
    "PROD",
    "SIZE",
    "MIN",
    "MAX",
    "SIZEOF",
    "MUL",
    "DIV",
    "MOD",
    "PLUS",
    "MINUS",
    "CAP",
    "CUP",
    "SETMINUS",
    "EQ",
    "NEQ",
    "LE",
    "LEQ",
    "GE",
    "GEG",
    "GEQ",
    "IN",
    "ELEM",
    "NOT",
    "X",
    "F",
    "G",
    "AND",
    "FORALL",
    "OR",
    "EXISTS",
    "IMPLIES",
    "EQUIV",
    "W",
    "U",
    "R",
];

pub fn starts_name(byte: u8) -> bool {
    byte.is_ascii_alphabetic() || byte == b'_' || byte == b'@'
}

pub fn of_name(byte: u8) -> bool {
    starts_name(byte) || byte.is_ascii_digit() || byte == b'\''
}

/// All tokens of a text, whatever its bytes are.
pub fn of(text: &[u8]) -> Vec<Token> {
    before(text, "")
}

/// The tokens before the first one of a spelling.
pub fn before(text: &[u8], spelling: &str) -> Vec<Token> {
    let mut tokens = Vec::new();
    let mut in_words = false;
    let mut at = 0;
    while at < text.len() {
        let (kind, end) = match blank(text, at) {
            Blank::Until(end) => {
                at = end;
                continue;
            }
            Blank::Unclosed => (Kind::Unclosed, text.len()),
            Blank::None => token(text, at, in_words),
        };
        let token = Token { kind, start: at, end };
        if token.is(text, spelling) {
            break;
        }
        in_words = match token.bytes(text) {
            b"enum" => true,
            b";" | b"}" => false,
            _ => in_words,
        };
        tokens.push(token);
        at = end;
    }
    tokens
}

enum Blank {
    None,
    Until(usize),
    Unclosed,
}

fn blank(text: &[u8], at: usize) -> Blank {
    let rest = &text[at..];
    match rest {
        [b' ' | b'\t' | b'\n' | b'\r', ..] => Blank::Until(at + run(rest, |byte| matches!(byte, b' ' | b'\t' | b'\n' | b'\r'))),
        [b'/', b'/', ..] => Blank::Until(at + rest.iter().position(|&byte| byte == b'\n').unwrap_or(rest.len())),
        [b'/', b'*', ..] => comment(rest).map_or(Blank::Unclosed, |length| Blank::Until(at + length)),
        _ => Blank::None,
    }
}

// Block comments nest.
fn comment(rest: &[u8]) -> Option<usize> {
    let mut depth = 0;
    let mut at = 0;
    while at < rest.len() {
        let step = match &rest[at..] {
            [b'/', b'*', ..] => {
                depth += 1;
                2
            }
            [b'*', b'/', ..] => {
                depth -= 1;
                2
            }
            _ => 1,
        };
        at += step;
        if depth == 0 {
            return Some(at);
        }
    }
    None
}

/// How many of the first bytes belong together.
fn run(rest: &[u8], belongs: impl Fn(u8) -> bool) -> usize {
    rest.iter().position(|&byte| !belongs(byte)).unwrap_or(rest.len())
}

fn token(text: &[u8], at: usize, in_words: bool) -> (Kind, usize) {
    let rest = &text[at..];
    let mark = |byte: u8| matches!(byte, b'0' | b'1' | b'*');
    match rest[0] {
        byte if starts_name(byte) => {
            let end = at + run(rest, of_name);
            (if is_word(&text[at..end]) { Kind::Word } else { Kind::Name }, end)
        }
        b'"' => match rest[1..].iter().position(|&byte| byte == b'"') {
            Some(length) => (Kind::Quoted, at + length + 2),
            None => (Kind::Unclosed, text.len()),
        },
        byte if in_words && mark(byte) => (Kind::Marks, at + run(rest, mark)),
        byte if !in_words && byte.is_ascii_digit() => (Kind::Numeral, at + run(rest, |byte| byte.is_ascii_digit())),
        _ => match sign(rest) {
            0 => (Kind::Unknown, at + character(rest)),
            length => (Kind::Sign, at + length),
        },
    }
}

/// The length of the sign that stands here, the longest first; 0 for none.
fn sign(rest: &[u8]) -> usize {
    match rest {
        [b'(', b'*' | b'+' | b'\\' | b'-', b')', ..] | [b'<', b'-', b'>', ..] => 3,
        [b'=' | b'!' | b'/' | b'<' | b'>', b'=', ..] | [b'<', b'-', ..] | [b'-', b'>', ..] => 2,
        [b'&', b'&', ..] | [b'|', b'|', ..] | [b'.', b'.', ..] => 2,
        [first, ..] if b"()[]{},;:=|+*/%-<>!~".contains(first) => 1,
        _ => 0,
    }
}

/// For each first byte the words that begin with it, a bit for each.
const BEGINNING: [u128; 256] = {
    let mut beginning = [0; 256];
    let mut number = 0;
    while number < WORDS.len() {
        beginning[WORDS[number].as_bytes()[0] as usize] |= 1 << number;
        number += 1;
    }
    beginning
};

fn is_word(name: &[u8]) -> bool {
    let mut left = name.first().map_or(0, |&first| BEGINNING[usize::from(first)]);
    while left != 0 {
        if WORDS[left.trailing_zeros() as usize].as_bytes() == name {
            return true;
        }
        left &= left - 1;
    }
    false
}

/// The bytes of the first character, 1 for what is no UTF-8.
fn character(rest: &[u8]) -> usize {
    let chunk = rest.utf8_chunks().next();
    chunk.and_then(|chunk| chunk.valid().chars().next()).map_or(1, char::len_utf8)
}

#[cfg(test)]
mod tests {
    use super::*;

    fn shown(text: &str) -> Vec<(Kind, String)> {
        of(text.as_bytes())
            .iter()
            .map(|token| (token.kind, token.shown(text.as_bytes())))
            .collect()
    }

    #[test]
    fn longest_first_and_marks_in_enumerations() {
        let tokens = shown("enum E = A: 0*1 B: 11; x' <-> (*) ( * ) 12 /* a /* b */ c */ // d\n\"s;\" ö");
        let due = "enum E = A : 0*1 B : 11 ; x' <-> (*) ( * ) 12 \"s;\" ö";
        assert_eq!(tokens.iter().map(|token| token.1.as_str()).collect::<Vec<_>>().join(" "), due);
        assert_eq!((tokens[5].0, tokens[8].0), (Kind::Marks, Kind::Marks));
        assert_eq!(tokens.last().map(|token| token.0), Some(Kind::Unknown));
    }

    #[test]
    fn signs_are_those_of_the_list() {
        for first in 0..=127_u8 {
            for second in *b" (*)+\\-<>=&|.!/" {
                for third in *b" )>" {
                    let rest = [first, second, third];
                    let listed = SIGNS.iter().find(|sign| rest.starts_with(sign.as_bytes()));
                    assert_eq!(sign(&rest), listed.map_or(0, |sign| sign.len()), "{rest:?}");
                }
            }
        }
        assert!(WORDS.iter().all(|word| is_word(word.as_bytes())));
    }

    #[test]
    fn any_bytes() {
        for text in [&b"\xff\xfe"[..], b"/*", b"\"", b"/", b"a/*b", b"\x00", "→".as_bytes(), b""] {
            let tokens = of(text);
            assert!(tokens.iter().all(|token| token.start < token.end && token.end <= text.len()));
        }
        assert_eq!(of(b"a /* b")[1].kind, Kind::Unclosed);
    }
}
