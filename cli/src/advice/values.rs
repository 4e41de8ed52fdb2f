//! Refusals 11, 12, 13, 15 and 16: values out of range, sets, widths and indices, and what is too large.

use super::{Advice, Case};
use crate::declared::{self, What};
use crate::enumerations;
use crate::lines;
use crate::message::counted;
use crate::numbers::{Numbers, Values, Without};
use crate::outline::Statement;

impl Case<'_> {
    fn numbers(&self) -> Numbers<'_> {
        Numbers {
            text: self.text,
            outline: &self.outline,
        }
    }
}

/// The big operators' names with their values: `i = 0`.
fn running(case: &Case, statement: &Statement, values: &Values) -> String {
    let names = declared::running(case.text, &case.outline, statement);
    let told = names
        .iter()
        .filter_map(|name| Some(format!("{} = {}", name.name, values.get(&name.name)?)));
    let told: Vec<String> = told.collect();
    if told.is_empty() {
        String::new()
    } else {
        format!(" where {}", told.join(", "))
    }
}

pub fn out_of_range(case: &Case) -> Advice {
    let place = case.refusal.place;
    let (Some(at), Some(statement)) = (case.outline.token_at(place), case.outline.statement_at(place)) else {
        return Advice::default();
    };
    let operator = case.spelling(at);
    if operator.starts_with(|c: char| c.is_ascii_digit()) {
        return told(
            "a number over 1,000,000",
            "at most 1,000,000",
            "Values are 0 to 1,000,000 at every step.",
        );
    }
    if ["F", "G"].contains(&operator) {
        return window(case, at, statement);
    }
    if ["MIN", "MAX", "(*)", "CAP"].contains(&operator) {
        return told(
            &format!("{operator} of nothing"),
            "the set is empty here",
            "MIN, MAX and a big (*) need one element at least.",
        );
    }
    let numbers = case.numbers();
    let around = numbers.around(at, statement);
    for values in numbers.choices(statement, at) {
        if let Err(Without::Fault { token, left, right }) = numbers.value(around.clone(), &values) {
            if token == at {
                return fault(operator, left, right, &running(case, statement, &values));
            }
        }
    }
    told(
        &format!("the value of '{operator}' is out of range"),
        "out of range",
        "Values are 0 to 1,000,000 at every step: there are no negative numbers, also not in between, and nothing is divided by 0.",
    )
}

fn fault(operator: &str, left: u64, right: u64, running: &str) -> Advice {
    let said = format!("{left} {operator} {right}{running}");
    match operator {
        "-" | "MINUS" => told(
            &format!("{said} is below 0"),
            &said,
            "There are no negative numbers, also not in between. In bounds write '0 <= i < n' rather than '0 <= i <= n - 1'.",
        ),
        "/" | "DIV" | "%" | "MOD" if right == 0 => told(&format!("{said}: a division by 0"), &said, "Nothing is divided by 0."),
        _ => told(
            &format!("{said} is over 1,000,000"),
            &said,
            "Values are 0 to 1,000,000 at every step.",
        ),
    }
}

/// F[n:m] with m below n.
fn window(case: &Case, at: usize, statement: &Statement) -> Advice {
    let operator = case.spelling(at);
    let numbers = case.numbers();
    let find = |from: usize, sign: &str| (from..statement.tokens.end).find(|&at| case.spelling(at) == sign);
    let ends = find(at, ":").and_then(|colon| Some((colon, find(colon, "]")?)));
    let mut said = "it ends before it begins".to_string();
    if let Some((colon, close)) = ends {
        for values in numbers.choices(statement, at) {
            let value = |from: usize, to: usize| numbers.value(from..to, &values).ok();
            if let (Some(from), Some(to)) = (value(at + 2, colon), value(colon + 1, close)) {
                if to < from {
                    said = format!("from {from} to {to}{}", running(case, statement, &values));
                    break;
                }
            }
        }
    }
    told(
        &format!("'{operator}[n:m]' ends before it begins"),
        &said,
        "The second number of the window is not below the first.",
    )
}

pub fn set(case: &Case) -> Advice {
    let place = case.refusal.place;
    let (Some(at), Some(statement)) = (case.outline.token_at(place), case.outline.statement_at(place)) else {
        return Advice::default();
    };
    let numbers = case.numbers();
    if let Some([first, second]) = numbers.set_parts(at, statement.tokens.end).as_deref() {
        for values in numbers.choices(statement, at) {
            let value = |part: &std::ops::Range<usize>| numbers.value(part.clone(), &values).ok();
            if let (Some(one), Some(two)) = (value(first), value(second)) {
                if two <= one && case.spelling(second.end) == ".." {
                    let said = format!("{one}, then {two}{}", running(case, statement, &values));
                    return told(
                        "a range that does not go up",
                        &said,
                        "The second number of a range is its second element, which gives the step: '{0, 1 .. 7}'.",
                    );
                }
            }
        }
    }
    let is_range = numbers
        .set_parts(at, statement.tokens.end)
        .and_then(|parts| Some(parts.last()?.end));
    if is_range.is_some_and(|end| case.spelling(end) == "..") {
        return told(
            "a range with more than 256 elements, or that does not go up",
            "too large, or its second number is not above the first",
            "A set has at most 256 elements. The second number of a range is its second element, which gives the step: '{0, 1 .. 7}'.",
        );
    }
    told("a set with more than 256 elements", "too large", "A set has at most 256 elements.")
}

pub fn width(case: &Case) -> Advice {
    let place = case.refusal.place;
    let (Some(at), Some(statement)) = (case.outline.token_at(place), case.outline.statement_at(place)) else {
        return Advice::default();
    };
    let name = case.spelling(at);
    let numbers = case.numbers();
    let bracket = bracketed(case, at + 1, statement);
    if matches!(statement.section, "INPUTS" | "OUTPUTS") {
        let width = bracket.and_then(|inner| numbers.value(inner, &numbers.constants()).ok());
        let said = width.map_or("a width of 0 or over 255".to_string(), |width| format!("width {width}"));
        return told(&format!("bus '{name}' cannot have this width"), &said, "A bus has 1 to 255 bits.");
    }
    if at > 0 && case.spelling(at - 1) == "SIZEOF" {
        return told(
            &format!("'{name}' has no width yet"),
            "not sized yet",
            "Widths are worked out for inputs, then for outputs, in the text's order.",
        );
    }
    let (width, declared) = declared_width(case, name);
    let mut advice = match (bracket, width) {
        (Some(inner), Some(width)) => index(case, statement, at, inner, width),
        (None, Some(width)) => compared(case, at, width),
        _ => Advice::default(),
    };
    if let (Some(token), false) = (declared, advice.title.is_none()) {
        let said = width.map_or("declared here".to_string(), |width| format!("declared with width {width}"));
        advice.others.push((token, said));
    }
    advice
}

/// An index that is not below the width.
fn index(case: &Case, statement: &Statement, at: usize, inner: std::ops::Range<usize>, width: u64) -> Advice {
    let (name, numbers) = (case.spelling(at), case.numbers());
    for values in numbers.choices(statement, at) {
        if let Ok(index) = numbers.value(inner.clone(), &values) {
            if index >= width {
                let running = running(case, statement, &values);
                return told(
                    &format!("bus '{name}' has no bit {index}"),
                    &format!("index {index}, width {width}{running}"),
                    &format!("The bits of '{name}' are 0 to {}.", width - 1),
                );
            }
        }
    }
    told(
        &format!("bus '{name}' has no bit of this index"),
        &format!("the index is not below the width, {width}"),
        &format!("The bits of '{name}' are 0 to {}.", width.saturating_sub(1)),
    )
}

/// A bus beside an identifier of another width.
fn compared(case: &Case, at: usize, width: u64) -> Advice {
    let all = enumerations::of(case.text, &case.outline);
    let is_comparison = |at: usize| ["==", "!=", "/=", "EQ", "NEQ"].contains(&case.spelling(at));
    let other = if is_comparison(at + 1) { at + 2 } else { at.saturating_sub(2) };
    let (name, identifier) = (case.spelling(at), case.spelling(other));
    let marks = all
        .iter()
        .flat_map(|by| &by.identifiers)
        .find(|known| known.name == identifier)
        .and_then(|known| known.words.first())
        .map(|word| word.end - word.start);
    match marks {
        Some(marks) => told(
            &format!("bus '{name}' and '{identifier}' are of different widths"),
            &format!("width {width}, and {identifier} has {}", counted(marks, "mark")),
            "A bus is compared with identifiers of its own width.",
        ),
        None => Advice::default(),
    }
}

/// The tokens between `[` here and its `]`.
fn bracketed(case: &Case, open: usize, statement: &Statement) -> Option<std::ops::Range<usize>> {
    if case.spelling(open) != "[" {
        return None;
    }
    let mut depth = 0;
    for at in open..statement.tokens.end {
        match case.spelling(at) {
            "[" => depth += 1,
            "]" if depth == 1 => return Some(open + 1..at),
            "]" => depth -= 1,
            _ => {}
        }
    }
    None
}

/// A bus's width, and where its name is declared.
fn declared_width(case: &Case, name: &str) -> (Option<u64>, Option<std::ops::Range<usize>>) {
    let all = declared::of(case.text, &case.outline);
    let Some(bus) = all.iter().find(|declared| declared.name == name && declared.what == What::Bus) else {
        return (None, None);
    };
    let place = bus.token.start..bus.token.end;
    let (Some(at), Some(statement)) = (case.outline.token_at(place.start), case.outline.statement_at(place.start)) else {
        return (None, None);
    };
    let numbers = case.numbers();
    let written = bracketed(case, at + 1, statement).and_then(|inner| numbers.value(inner, &numbers.constants()).ok());
    let by_words = || {
        let enumerations = enumerations::of(case.text, &case.outline);
        let by = enumerations::of_bus(case.text, &case.outline, &enumerations, name)?;
        let word = by.identifiers.first()?.words.first()?;
        Some((word.end - word.start) as u64)
    };
    (written.or_else(by_words), Some(place))
}

pub fn too_many_signals(case: &Case) -> Advice {
    let names = declared::of(case.text, &case.outline);
    let mut widths = Vec::new();
    for declared in names.iter().filter(|declared| matches!(declared.what, What::Signal | What::Bus)) {
        let width = match declared.what {
            What::Signal => Some(1),
            _ => declared_width(case, &declared.name).0,
        };
        widths.push((width, declared));
    }
    let total: Option<u64> = widths.iter().map(|(width, _)| *width).sum();
    let largest = widths.iter().max_by_key(|(width, _)| *width);
    let (Some(total), Some((Some(width), largest))) = (total, largest) else {
        return Advice::default();
    };
    let mut advice = told(
        &format!("{total} signals, at most 255"),
        "passes 255 here",
        "Each bit of a bus is a signal: narrow the buses, or encode a position in fewer bits with an enumeration.",
    );
    if largest.token.start != case.refusal.place {
        let said = format!("{width} of them");
        advice.others.push((largest.token.start..largest.token.end, said));
    }
    advice
}

/// The line that has most nodes by itself.
pub fn too_many_nodes(case: &Case) -> Advice {
    let counts = lines::node_counts(case.text, &case.outline, case.pool);
    let Some((statement, count)) = counts.into_iter().max_by_key(|(_, count)| count.unwrap_or(usize::MAX)) else {
        return Advice::default();
    };
    let said = match count {
        Some(count) => format!("{count} nodes"),
        None => "more than 8,192 nodes by itself".to_string(),
    };
    Advice {
        mark: statement.start..statement.end,
        title: Some("the formula has more than 8,192 nodes".to_string()),
        label: format!("the largest line: {said}"),
        notes: vec![
            "Each use of a definition and each element of a big operator writes its formula out again, and 'F[n:m]', 'G[n:m]' and 'X[n]' a node for each step. \
             Shorten this line, or cut the specification in two; forms 1 and 2 may have more nodes than form 0."
                .to_string(),
        ],
        ..Advice::default()
    }
}

fn told(title: &str, label: &str, note: &str) -> Advice {
    Advice {
        title: Some(title.to_string()),
        label: label.to_string(),
        notes: vec![note.to_string()],
        ..Advice::default()
    }
}
