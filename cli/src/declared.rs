//! The names that a text declares, for what is told about a name.

use crate::outline::{Outline, Statement};
use crate::tokens::{Kind, Token};

#[derive(Clone, Copy, Debug, PartialEq, Eq)]
pub enum What {
    Parameter,
    Definition,
    Enumeration,
    Identifier,
    Signal,
    Bus,
    /// A big operator's name.
    Running,
}

impl What {
    pub fn shown(self) -> &'static str {
        match self {
            What::Parameter => "a parameter",
            What::Definition => "a definition",
            What::Enumeration => "an enumeration",
            What::Identifier => "an identifier of an enumeration",
            What::Signal => "a signal",
            What::Bus => "a bus",
            What::Running => "a big operator's name",
        }
    }
}

#[derive(Clone, Debug)]
pub struct Declared {
    pub what: What,
    pub token: Token,
    pub name: String,
}

/// All declarations in the order of the text, big operators' names left out.
pub fn of(text: &[u8], outline: &Outline) -> Vec<Declared> {
    let mut declared = Vec::new();
    for statement in &outline.statements {
        let tokens = outline.tokens.get(statement.tokens.clone()).unwrap_or_default();
        let found = |what, token: &Token| Declared {
            what,
            token: *token,
            name: token.shown(text),
        };
        match (statement.section, tokens) {
            ("PARAMETERS", [name, ..]) => declared.push(found(What::Parameter, name)),
            ("DEFINITIONS", [first, name, rest @ ..]) if first.is(text, "enum") => {
                declared.push(found(What::Enumeration, name));
                let identifiers = rest.iter().filter(|token| token.kind == Kind::Name);
                declared.extend(identifiers.map(|token| found(What::Identifier, token)));
            }
            ("DEFINITIONS", [name, ..]) => declared.push(found(What::Definition, name)),
            ("INPUTS" | "OUTPUTS", [_, name]) if name.kind == Kind::Name => declared.push(found(What::Bus, name)),
            ("INPUTS" | "OUTPUTS", [name]) => declared.push(found(What::Signal, name)),
            ("INPUTS" | "OUTPUTS", [name, ..]) => declared.push(found(What::Bus, name)),
            _ => {}
        }
    }
    declared
}

/// The names that big operators of a statement declare: before IN, or between two bounds.
pub fn running(text: &[u8], outline: &Outline, statement: &Statement) -> Vec<Declared> {
    let tokens = outline.tokens.get(statement.tokens.clone()).unwrap_or_default();
    let is = |at: usize, spellings: &[&str]| {
        tokens
            .get(at)
            .is_some_and(|token| spellings.iter().any(|spelling| token.is(text, spelling)))
    };
    const BOUNDS: [&str; 4] = ["<", "<=", "LE", "LEQ"];
    let mut found = Vec::new();
    let mut brackets: Vec<bool> = Vec::new();
    for (at, token) in tokens.iter().enumerate() {
        const BIG: [&str; 12] = ["&&", "||", "AND", "OR", "FORALL", "EXISTS", "+", "*", "SUM", "PROD", "(+)", "(*)"];
        match token.bytes(text) {
            b"[" => brackets.push(at > 0 && (is(at - 1, &BIG) || is(at - 1, &["CAP", "CUP"]))),
            b"]" => {
                brackets.pop();
            }
            _ => {}
        }
        let member = is(at + 1, &["IN", "ELEM", "<-"]) && (at > 0 && is(at - 1, &["[", ","]));
        let bounded = at > 0 && is(at - 1, &BOUNDS) && is(at + 1, &BOUNDS);
        if token.kind == Kind::Name && brackets.last() == Some(&true) && (member || bounded) {
            found.push(Declared {
                what: What::Running,
                token: *token,
                name: token.shown(text),
            });
        }
    }
    found
}

#[cfg(test)]
mod tests {
    use super::*;
    use crate::outline;

    #[test]
    fn names_of_every_kind() {
        let text = b"GLOBAL { PARAMETERS { n = 2; } DEFINITIONS { enum E = A: 0 B: 1; d = n; } }
            MAIN { INPUTS { a; b[n]; E e; } OUTPUTS { } GUARANTEE { &&[0 <= i < n, j IN {0}] a[i] } }";
        let outline = outline::of(text);
        let names: Vec<(What, String)> = of(text, &outline).into_iter().map(|found| (found.what, found.name)).collect();
        let due = [
            (What::Parameter, "n"),
            (What::Enumeration, "E"),
            (What::Identifier, "A"),
            (What::Identifier, "B"),
            (What::Definition, "d"),
            (What::Signal, "a"),
            (What::Bus, "b"),
            (What::Bus, "e"),
        ];
        assert_eq!(names, due.map(|(what, name)| (what, name.to_string())));
        let line = outline.statements.last().expect("a line");
        let running: Vec<String> = running(text, &outline, line).into_iter().map(|found| found.name).collect();
        assert_eq!(running, ["i", "j"]);
    }
}
