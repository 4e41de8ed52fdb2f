//! Refusals 6 and 7: names that are not declared, or twice.

use super::{Advice, Case};
use crate::declared::{self, Declared, What};
use crate::near;
use crate::tokens::Kind;

const CONSTANTS: [&str; 2] = ["true", "false"];

pub fn unknown(case: &Case) -> Advice {
    let Some(at) = case.outline.token_at(case.refusal.place) else {
        return Advice::default();
    };
    let name = case.spelling(at).to_string();
    let statement = case.outline.statement_at(case.refusal.place);
    let declared = declared::of(case.text, &case.outline);
    let running = statement.map(|statement| declared::running(case.text, &case.outline, statement));
    let running = running.unwrap_or_default();
    let in_ports = statement.is_some_and(|statement| matches!(statement.section, "INPUTS" | "OUTPUTS"));
    if in_ports && case.outline.tokens.get(at + 1).is_some_and(|next| next.kind == Kind::Name) {
        return two_names(case, at, &name);
    }
    let by_order = |declared: &&Declared| declared.name == name && !matches!(declared.what, What::Signal | What::Bus);
    match (running.iter().find(|running| running.name == name), declared.iter().find(by_order)) {
        (Some(operator), _) => outside_operator(&name, operator),
        (_, Some(later)) => before_declaration(&name, later),
        _ => guess(&name, &declared, &running),
    }
}

fn outside_operator(name: &str, operator: &Declared) -> Advice {
    let place = operator.token.start..operator.token.end;
    Advice {
        title: Some(format!("'{name}' stands outside its big operator")),
        label: "not in its operand".to_string(),
        others: vec![(place, "declared for this operator's operand only".to_string())],
        notes: vec![format!(
            "A big operator's operand ends before a looser operator: put parentheses around all that '{name}' stands in, \
             '&&[0 <= {name} < 2] (r[{name}] -> F g[{name}])'."
        )],
        ..Advice::default()
    }
}

fn before_declaration(name: &str, later: &Declared) -> Advice {
    Advice {
        title: Some(format!("'{name}' is used before it is declared")),
        label: "not declared yet".to_string(),
        others: vec![(later.token.start..later.token.end, "declared here".to_string())],
        notes: vec!["Parameters, enumerations and definitions can be used only below their own line.".to_string()],
        ..Advice::default()
    }
}

/// A name that is nowhere, with the one that may have been meant.
fn guess(name: &str, declared: &[Declared], running: &[Declared]) -> Advice {
    let mut advice = Advice {
        title: Some(format!("unknown name '{name}'")),
        label: "not declared".to_string(),
        ..Advice::default()
    };
    let known = || declared.iter().chain(running);
    let Some(near) = near::nearest(name, known().map(|known| known.name.as_str()).chain(CONSTANTS)) else {
        let where_declared = "Signals are declared in INPUTS and OUTPUTS, all else in GLOBAL.";
        advice.notes.push(where_declared.to_string());
        return advice;
    };
    advice.title = Some(format!("unknown name '{name}': did you mean '{near}'?"));
    match known().find(|known| known.name == near) {
        Some(known) => {
            advice.label = format!("not declared; {} is called '{near}'", known.what.shown());
            advice.notes.push(format!("Write '{near}', or declare '{name}'."));
        }
        None => advice.notes.push(format!("Write '{near}': words are spelt exactly so.")),
    }
    advice
}

/// `open lamp;` declares `lamp` by an enumeration `open`.
fn two_names(case: &Case, at: usize, name: &str) -> Advice {
    let next = case.outline.tokens[at + 1];
    let second = next.shown(case.text);
    Advice {
        title: Some(format!(
            "'{name} {second}' is read as a bus '{second}' of an enumeration '{name}', which is not declared"
        )),
        label: "is a ';' missing after this?".to_string(),
        others: vec![(next.start..next.end, "a second name".to_string())],
        notes: vec![format!(
            "Write '{name}; {second};' for two signals, or declare 'enum {name} = ..' in DEFINITIONS."
        )],
        ..Advice::default()
    }
}

pub fn twice(case: &Case) -> Advice {
    let Some(at) = case.outline.token_at(case.refusal.place) else {
        return Advice::default();
    };
    let name = case.spelling(at);
    let mut all = declared::of(case.text, &case.outline);
    for statement in &case.outline.statements {
        all.extend(declared::running(case.text, &case.outline, statement));
    }
    let mut advice = Advice {
        title: Some(format!("'{name}' is declared twice")),
        label: "declared again".to_string(),
        notes: vec!["Give one of the two another name.".to_string()],
        ..Advice::default()
    };
    let here = case.refusal.place;
    let again = all
        .iter()
        .find(|declared| declared.token.start == here)
        .map(|declared| declared.what);
    let mut others = all.iter().filter(|declared| declared.name == name && declared.token.start != here);
    if let Some(first) =
        others.find(|declared| again != Some(What::Running) || declared.token.start < here || declared.what != What::Running)
    {
        let said = format!("declared first here, as {}", first.what.shown());
        advice.others.push((first.token.start..first.token.end, said));
    }
    advice
}
