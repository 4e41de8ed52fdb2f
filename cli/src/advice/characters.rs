//! Refusal 2: bytes that are no token.

use super::{Advice, Case};
use crate::encoding;
use crate::tokens;

/// What some write for a sign of the format.
const MEANT: [(&str, &str); 31] = [
    ("&", "write '&&' for 'and'"),
    ("#", "a comment begins with '//'"),
    ("^", "there is no exclusive or: write '!(a <-> b)'"),
    ("'", "a string stands in double quotes, and no name begins with '"),
    ("`", "a string stands in double quotes"),
    (".", "a range is written '{0, 1 .. 7}'"),
    ("\\", "sets are subtracted by '(\\)' or '(-)'"),
    ("$", "names have letters, digits, '_', '@' and '"),
    ("?", "names have letters, digits, '_', '@' and '"),
    ("\u{201c}", "a string stands in plain double quotes: \""),
    ("\u{201d}", "a string stands in plain double quotes: \""),
    ("\u{201e}", "a string stands in plain double quotes: \""),
    ("\u{ab}", "a string stands in plain double quotes: \""),
    ("\u{bb}", "a string stands in plain double quotes: \""),
    ("\u{2018}", "a string stands in plain double quotes: \""),
    ("\u{2019}", "a name may end in a plain '"),
    ("\u{2192}", "write '->'"),
    ("\u{21d2}", "write '->'"),
    ("\u{2194}", "write '<->'"),
    ("\u{21d4}", "write '<->'"),
    ("\u{2227}", "write '&&'"),
    ("\u{2228}", "write '||'"),
    ("\u{ac}", "write '!'"),
    ("\u{25a1}", "write 'G'"),
    ("\u{25c7}", "write 'F'"),
    ("\u{25cb}", "write 'X'"),
    ("\u{2264}", "write '<='"),
    ("\u{2265}", "write '>='"),
    ("\u{2260}", "write '!='"),
    ("\u{2013}", "write a plain '-'"),
    ("\u{a0}", "this is a blank that is not plain: type it again"),
];

const ASCII: &str =
    "Outside strings and comments a text has ASCII characters only: letters without accents, digits, '_', '@', ' and signs.";
const SAVE: &str = "Save it as UTF-8 without byte order mark.";

pub fn advice(case: &Case) -> Advice {
    let place = case.refusal.place;
    let rest = case.text.get(place..).unwrap_or_default();
    if let Some(encoding) = encoding::of_mark(case.text) {
        return file(case, format!("the file is {}", encoding.name()), SAVE);
    }
    if case.text.starts_with("\u{feff}".as_bytes()) && place == 0 {
        return file(case, "the file begins with a byte order mark".to_string(), SAVE);
    }
    match rest {
        [b'/', b'*', ..] => unclosed(case, "comment", "Comments nest: each '/*' inside wants a '*/' of its own."),
        [b'"', ..] => unclosed(case, "string", "A string ends at the next double quote, and has none inside."),
        [byte, ..] if tokens::starts_name(*byte) => long_name(case),
        _ => character(case, rest),
    }
}

fn file(case: &Case, title: String, mend: &str) -> Advice {
    let place = case.refusal.place;
    Advice {
        title: Some(title),
        mark: place..place + if case.text.starts_with("\u{feff}".as_bytes()) { 3 } else { 1 },
        label: NO_TOKEN.to_string(),
        notes: vec![mend.to_string()],
        ..Advice::default()
    }
}

fn unclosed(case: &Case, what: &str, note: &str) -> Advice {
    let place = case.refusal.place;
    Advice {
        title: Some(format!("this {what} is not closed")),
        mark: place..place + if what == "comment" { 2 } else { 1 },
        label: "it begins here, and the text ends before it does".to_string(),
        notes: vec![note.to_string()],
        ..Advice::default()
    }
}

fn long_name(case: &Case) -> Advice {
    let token = case.token();
    Advice {
        title: Some("a name that is too long".to_string()),
        label: format!("{} characters", token.len()),
        notes: vec!["A name has at most 64 characters.".to_string()],
        ..Advice::default()
    }
}

const NO_TOKEN: &str = "no token begins with this";

fn character(case: &Case, rest: &[u8]) -> Advice {
    let place = case.refusal.place;
    let chunk = rest.utf8_chunks().next();
    let Some(found) = chunk.and_then(|chunk| chunk.valid().chars().next()) else {
        return byte(place, rest.first().copied().unwrap_or(0));
    };
    let seen = if found.is_control() || found.is_whitespace() {
        format!("U+{:04X}", u32::from(found))
    } else {
        format!("'{found}'")
    };
    Advice {
        title: Some(format!("unexpected character {seen}")),
        mark: place..place + found.len_utf8(),
        label: NO_TOKEN.to_string(),
        notes: notes(case, found),
        ..Advice::default()
    }
}

fn notes(case: &Case, found: char) -> Vec<String> {
    let mut notes = Vec::new();
    if let Some((_, meant)) = MEANT.iter().find(|(sign, _)| *sign == found.to_string()) {
        notes.push(capitalised(meant));
    }
    if found.is_ascii_digit() && case.outline.tokens.iter().any(|token| token.is(case.text, "enum")) {
        notes.push("From 'enum' to the next ';' words have only the marks '0', '1' and '*'. Is a ';' missing at its end?".to_string());
    }
    if !found.is_ascii() {
        notes.push(ASCII.to_string());
    }
    notes
}

/// A byte that is no UTF-8.
fn byte(place: usize, byte: u8) -> Advice {
    let letter = encoding::letter(byte).map_or(String::new(), |letter| format!(", perhaps {letter} as older programs save it"));
    Advice {
        title: Some(format!("unexpected byte 0x{byte:02x}{letter}")),
        mark: place..place + 1,
        label: NO_TOKEN.to_string(),
        notes: vec![ASCII.to_string(), "In strings and comments any letter may stand.".to_string()],
        ..Advice::default()
    }
}

fn capitalised(text: &str) -> String {
    let mut chars = text.chars();
    chars
        .next()
        .map_or(String::new(), |first| first.to_uppercase().chain(chars).chain(['.']).collect())
}
