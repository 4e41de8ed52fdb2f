//! Which constructs a text uses, for the count of a run.

use crate::parser;
use crate::syntax::*;
use crate::token::{self, Kind};
use std::collections::BTreeSet;

/// The constructs of a text that keeps to the grammar, by name; empty otherwise.
pub fn constructs(text: &[u8]) -> BTreeSet<String> {
    let mut found = BTreeSet::new();
    let Ok(tokens) = token::tokens(text) else {
        return found;
    };
    for token in &tokens {
        if let Kind::Fixed(word) = token.kind {
            found.insert(format!("token {word}"));
        }
    }
    let Ok(syntax) = parser::parse(text, tokens) else {
        return BTreeSet::new();
    };
    for expr in &syntax.exprs {
        found.insert(form_name(&syntax, expr));
    }
    section_names(&syntax, &mut found);
    if has_comment(text) {
        found.insert("comment".to_string());
    }
    found
}

fn form_name(syntax: &Syntax, expr: &Expr) -> String {
    let sign = || String::from_utf8_lossy(syntax.bytes(expr.sign)).into_owned();
    match &expr.form {
        Form::Numeral => "form numeral".to_string(),
        Form::True | Form::False => "form constant".to_string(),
        Form::Name => "form name".to_string(),
        Form::Index(_) => "form index".to_string(),
        Form::Parenthesis(_) => "form parenthesis".to_string(),
        Form::List(elements) if elements.is_empty() => "form empty set".to_string(),
        Form::List(_) => "form set".to_string(),
        Form::Range { .. } => "form range".to_string(),
        Form::Measure(..) | Form::SizeOf(_) | Form::Unary(..) => format!("unary {}", sign()),
        Form::NextBy { .. } | Form::Window { .. } => format!("timed {}", sign()),
        Form::Binary(..) => format!("binary {}", sign()),
        Form::Big { binders, .. } => {
            let many = if binders.len() > 1 { " with names" } else { "" };
            format!("big {}{many}", sign())
        }
    }
}

fn section_names(syntax: &Syntax, found: &mut BTreeSet<String>) {
    if syntax.info.strict {
        found.insert("strict".to_string());
    }
    for signal in &syntax.signals {
        let shape = match signal.shape {
            Shape::Single => "signal single",
            Shape::Bus(_) => "signal bus",
            Shape::Enumerated(_) => "signal bus by enumeration",
        };
        found.insert(shape.to_string());
    }
}

fn has_comment(text: &[u8]) -> bool {
    text.windows(2).any(|pair| pair == b"//" || pair == b"/*")
}
