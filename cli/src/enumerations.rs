//! The enumerations of a text, and which of its buses they declare.

use crate::outline::Outline;
use crate::tokens::{Kind, Token};

/// An identifier with its words of `0`, `1`, `*`, bit 0 first.
pub struct Identifier {
    pub name: String,
    pub words: Vec<Token>,
}

pub struct Enumeration {
    pub name: String,
    pub identifiers: Vec<Identifier>,
}

/// Whether a word stands for these bits.
pub fn matches(word: &[u8], bits: &[bool]) -> bool {
    word.len() == bits.len() && word.iter().zip(bits).all(|(&mark, &bit)| mark == b'*' || (mark == b'1') == bit)
}

impl Enumeration {
    /// The identifier that stands for these bits.
    pub fn value<'a>(&'a self, text: &[u8], bits: &[bool]) -> Option<&'a str> {
        let found = self
            .identifiers
            .iter()
            .find(|identifier| identifier.words.iter().any(|word| matches(word.bytes(text), bits)));
        found.map(|identifier| identifier.name.as_str())
    }
}

/// All enumerations of the text, in its order.
pub fn of(text: &[u8], outline: &Outline) -> Vec<Enumeration> {
    let statements = outline.statements.iter().filter(|statement| statement.section == "DEFINITIONS");
    statements
        .filter_map(|statement| enumeration(text, &outline.tokens[statement.tokens.clone()]))
        .collect()
}

// enum NAME = ID: WORD, WORD ID: WORD ..
fn enumeration(text: &[u8], tokens: &[Token]) -> Option<Enumeration> {
    let [first, name, equals, rest @ ..] = tokens else {
        return None;
    };
    if !first.is(text, "enum") || !equals.is(text, "=") {
        return None;
    }
    let mut identifiers: Vec<Identifier> = Vec::new();
    for token in rest {
        match token.kind {
            Kind::Name => identifiers.push(Identifier {
                name: token.shown(text),
                words: Vec::new(),
            }),
            Kind::Marks => identifiers.last_mut()?.words.push(*token),
            _ => {}
        }
    }
    Some(Enumeration {
        name: name.shown(text),
        identifiers,
    })
}

/// The enumeration that declares a bus.
pub fn of_bus<'a>(text: &[u8], outline: &Outline, all: &'a [Enumeration], bus: &str) -> Option<&'a Enumeration> {
    let declares = |tokens: &[Token]| match tokens {
        [by, name] if name.is(text, bus) => Some(by.shown(text)),
        _ => None,
    };
    let mut statements = outline
        .statements
        .iter()
        .filter(|line| matches!(line.section, "INPUTS" | "OUTPUTS"));
    let by = statements.find_map(|statement| declares(&outline.tokens[statement.tokens.clone()]))?;
    all.iter().find(|enumeration| enumeration.name == by)
}

#[cfg(test)]
mod tests {
    use super::*;
    use crate::outline;

    #[test]
    fn values_of_a_bus() {
        let text = b"GLOBAL { DEFINITIONS { enum Mode = IDLE: 00 SORTING: 01, 1* ; } } MAIN { INPUTS { Mode m; a; } OUTPUTS { } }";
        let outline = outline::of(text);
        let all = of(text, &outline);
        let mode = of_bus(text, &outline, &all, "m").expect("an enumeration");
        let value = |bits: [bool; 2]| mode.value(text, &bits);
        assert_eq!(value([false, false]), Some("IDLE"));
        assert_eq!((value([false, true]), value([true, false])), (Some("SORTING"), Some("SORTING")));
        assert!(of_bus(text, &outline, &all, "a").is_none());
        assert_eq!(mode.value(text, &[true]), None);
    }
}
