//! Refusals 6 and 7 checked against a walk through the text that keeps the visible names.

use second::generate;
use second::generate::prng::Prng;
use second::names;
use second::parser;
use second::syntax::*;
use second::token;

/// A walk through a text: what is visible, and the wrong places found.
struct Walk<'s> {
    syntax: &'s Syntax<'s>,
    visible: Vec<TokenId>,
    unseen: Vec<usize>,
    again: Vec<usize>,
}

impl Walk<'_> {
    fn equal(&self, name: TokenId) -> Vec<TokenId> {
        let same = |other: &&TokenId| self.syntax.bytes(**other) == self.syntax.bytes(name);
        self.visible.iter().filter(same).copied().collect()
    }

    fn uses(&mut self, name: TokenId) {
        if self.equal(name).is_empty() {
            self.unseen.push(self.syntax.place(name));
        }
    }

    fn declare(&mut self, name: TokenId) {
        for other in self.equal(name) {
            self.again.push(self.syntax.place(other.max(name)));
        }
        self.visible.push(name);
    }

    fn expression(&mut self, id: ExprId) {
        let syntax = self.syntax;
        let expr = &syntax.exprs[id];
        if matches!(expr.form, Form::Name | Form::Index(_)) {
            self.uses(expr.first);
        }
        let Form::Big { binders, body, .. } = &expr.form else {
            for operand in parser::operands(&expr.form) {
                self.expression(operand);
            }
            return;
        };
        let outside = self.visible.len();
        for binder in binders {
            match &binder.range {
                BinderRange::Member(set) => self.expression(*set),
                BinderRange::Bounds(bounds) => {
                    self.expression(bounds.low);
                    self.expression(bounds.high);
                }
            }
            self.declare(binder.name);
        }
        self.expression(*body);
        self.visible.truncate(outside);
    }

    fn global(&mut self) {
        let syntax = self.syntax;
        for parameter in &syntax.parameters {
            self.expression(parameter.value);
            self.declare(parameter.name);
        }
        let mut lines: Vec<(TokenId, Option<ExprId>, usize)> = Vec::new();
        for definition in &syntax.definitions {
            lines.push((definition.name, Some(definition.value), 0));
        }
        for (number, enumeration) in syntax.enumerations.iter().enumerate() {
            lines.push((enumeration.name, None, number));
        }
        lines.sort();
        for (name, value, number) in lines {
            if let Some(value) = value {
                self.expression(value);
            }
            self.declare(name);
            if value.is_none() {
                for identifier in &syntax.enumerations[number].identifiers {
                    self.declare(identifier.name);
                }
            }
        }
    }

    fn main(&mut self) {
        let syntax = self.syntax;
        for signal in &syntax.signals {
            match signal.shape {
                Shape::Single => {}
                Shape::Bus(width) => self.expression(width),
                Shape::Enumerated(type_name) => self.uses(type_name),
            }
        }
        for line in syntax.sections.iter().flat_map(|section| &section.lines) {
            self.expression(*line);
        }
    }
}

/// The number and place of refusal 6 or 7 by the walk.
fn walked(syntax: &Syntax) -> Option<(u32, usize)> {
    let mut walk = Walk {
        syntax,
        visible: Vec::new(),
        unseen: Vec::new(),
        again: Vec::new(),
    };
    for signal in &syntax.signals {
        walk.declare(signal.name);
    }
    walk.global();
    walk.main();
    let unseen = walk.unseen.iter().min().map(|place| (6, *place));
    let again = walk.again.iter().min().map(|place| (7, *place));
    unseen.or(again)
}

#[test]
fn places_of_refusals_6_and_7() {
    let mut rng = Prng::new(21);
    let (mut unseen, mut again, mut sound) = (0, 0, 0);
    for _ in 0..12_000 {
        let text = generate::any_text(&mut rng);
        let Ok(tokens) = token::tokens(&text) else {
            continue;
        };
        let Ok(syntax) = parser::parse(&text, tokens) else {
            continue;
        };
        if syntax.check_levels().is_err() {
            continue;
        }
        let expected = walked(&syntax);
        let found = names::resolve(&syntax).err();
        let found = found.map(|refusal| (refusal.number, refusal.place));
        match found {
            Some((6, _)) => unseen += 1,
            Some((7, _)) => again += 1,
            _ => sound += 1,
        }
        if found.is_none_or(|(number, _)| number != 8) {
            assert_eq!(expected, found, "{}", String::from_utf8_lossy(&text));
        }
    }
    let enough = unseen > 250 && again > 200 && sound > 1000;
    assert!(enough, "{unseen} {again} {sound}");
}
