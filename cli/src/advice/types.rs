//! Refusal 9: something of a wrong type, and the type that the library would take in its place.

use super::{Advice, Case};
use crate::declared::{self, What};
use crate::tokens::Kind;

/// Something of each type.
const TYPES: [(&str, &str); 3] = [("true", "a formula"), ("0", "a number"), ("{}", "a set")];

pub fn advice(case: &Case) -> Advice {
    let Some(at) = case.outline.token_at(case.refusal.place) else {
        return Advice::default();
    };
    let name = case.spelling(at).to_string();
    let found = found_type(case, at);
    let mut needed = needed_type(case, at);
    if found.as_deref() == Some("a signal") && case.spelling(at + 1) == "[" && is_single(case, &name) {
        return single_signal(&name);
    }
    if is_beside_identifier(case, at) {
        needed = Some("a bus");
    }
    Advice {
        title: Some(needed.map_or("wrong type".to_string(), |needed| format!("wrong type: {needed} is needed"))),
        label: match (&found, needed) {
            (Some(found), Some(needed)) => format!("{found}, where {needed} is needed"),
            (Some(found), None) => found.clone(),
            (None, Some(needed)) => format!("{needed} is needed here"),
            (None, None) => "of a wrong type".to_string(),
        },
        notes: vec![note(&name, found.as_deref().unwrap_or(""), needed.unwrap_or(""))],
        ..Advice::default()
    }
}

/// How something of the type that is needed is had.
fn note(name: &str, found: &str, needed: &str) -> String {
    match (found, needed) {
        (_, "a bus") => "An identifier of an enumeration is compared with a bus of its width.".to_string(),
        ("a bus", _) => format!(
            "A bus is no formula: take one of its bits, '{name}[0]', or compare it with an identifier of its enumeration, '{name} == ID'."
        ),
        ("a number" | "a parameter, a number", "a formula") => "Numbers become formulas by a comparison: 'n > 0'.".to_string(),
        (_, "a number") => {
            "Numbers are numerals, parameters, definitions of numbers, SIZEOF a bus, MIN, MAX and sums of them; signals are none."
                .to_string()
        }
        (_, "a set") => "Sets are '{0, 1}', '{0, 1 .. 7}', definitions of sets, and what (+), (*) and (\\) make of them.".to_string(),
        _ => "Both sides of an operator are of one type; a line is a formula, a width a number.".to_string(),
    }
}

fn is_single(case: &Case, name: &str) -> bool {
    let all = declared::of(case.text, &case.outline);
    all.iter().any(|declared| declared.name == name && declared.what == What::Signal)
}

fn single_signal(name: &str) -> Advice {
    Advice {
        title: Some(format!("'{name}' is a single signal and has no bits")),
        label: "not a bus".to_string(),
        notes: vec![format!("Write '{name}' without an index, or declare it as a bus: '{name}[2]'.")],
        ..Advice::default()
    }
}

/// Whether it is compared with an identifier of an enumeration.
fn is_beside_identifier(case: &Case, at: usize) -> bool {
    let is_comparison = |at: usize| ["==", "!=", "/=", "EQ", "NEQ"].contains(&case.spelling(at));
    let all = declared::of(case.text, &case.outline);
    let is_identifier = |at: usize| {
        all.iter()
            .any(|known| known.what == What::Identifier && known.name == case.spelling(at))
    };
    (is_comparison(at + 1) && is_identifier(at + 2)) || (at > 1 && is_comparison(at - 1) && is_identifier(at - 2))
}

/// What the token at the place is, as far as it tells.
fn found_type(case: &Case, at: usize) -> Option<String> {
    let token = case.outline.tokens.get(at)?;
    let indexed = case.spelling(at + 1) == "[";
    match token.kind {
        Kind::Numeral => Some("a number".to_string()),
        Kind::Name => {
            let name = case.spelling(at);
            let all = declared::of(case.text, &case.outline);
            let statement = case.outline.statement_at(case.refusal.place);
            let running = statement
                .map(|line| declared::running(case.text, &case.outline, line))
                .unwrap_or_default();
            let what = all.iter().chain(&running).find(|declared| declared.name == name)?.what;
            Some(match what {
                What::Bus if indexed => "a signal".to_string(),
                What::Parameter | What::Running => format!("{}, a number", what.shown()),
                what => what.shown().to_string(),
            })
        }
        Kind::Word if ["true", "false"].contains(&case.spelling(at)) => Some("a formula".to_string()),
        Kind::Sign if case.spelling(at) == "{" => Some("a set".to_string()),
        _ => None,
    }
}

/// Of a name, a numeral or a bit: the one type that is not refused in its place.
fn needed_type(case: &Case, at: usize) -> Option<&'static str> {
    let token = case.outline.tokens.get(at)?;
    let mut end = token.end;
    if case.spelling(at + 1) == "[" && token.kind == Kind::Name {
        end = closing(case, at + 1, "[", "]")?;
    } else if case.spelling(at) == "{" {
        end = closing(case, at, "{", "}")?;
    } else if !matches!(token.kind, Kind::Name | Kind::Numeral | Kind::Word) {
        return None;
    }
    let rest = String::from_utf8_lossy(case.text.get(end..)?).into_owned();
    let endings: Vec<String> = TYPES.iter().map(|(sample, _)| format!(" {sample} {rest}")).collect();
    let endings: Vec<&str> = endings.iter().map(String::as_str).collect();
    let answers = case.pool.answers(&case.text[..token.start], &endings)?;
    let fits = |answer: &Option<crate::formula::Refusal>| !matches!(answer, Some(refusal) if refusal.number <= 9 && refusal.place <= case.refusal.place + 1);
    let mut fitting = TYPES.iter().zip(&answers).filter(|(_, answer)| fits(answer));
    match (fitting.next(), fitting.next()) {
        (Some((found, _)), None) => Some(found.1),
        _ => None,
    }
}

/// The end of the bracket that a token opens.
fn closing(case: &Case, from: usize, open: &str, close: &str) -> Option<usize> {
    let mut depth = 0;
    for at in from..case.outline.tokens.len() {
        match case.spelling(at) {
            spelling if spelling == open => depth += 1,
            spelling if spelling == close && depth == 1 => return Some(case.outline.tokens[at].end),
            spelling if spelling == close => depth -= 1,
            _ => {}
        }
    }
    None
}
