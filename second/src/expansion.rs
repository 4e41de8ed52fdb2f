//! Expansion: from the checked text to one formula.

use crate::answer::Refusal;
use crate::enumeration;
use crate::formula::Formula;
use crate::names::Referent;
use crate::node::Node;
use crate::syntax::*;
use crate::values::Values;
use std::collections::HashMap;

type Worked<T> = Result<T, Refusal>;

/// Works out all sections in text order and joins them to the text's formula.
pub fn expand(values: &mut Values) -> Worked<Formula> {
    let syntax = values.syntax;
    let mut expander = Expander {
        values,
        definitions: HashMap::new(),
    };
    let mut sections = Sections::default();
    for section in &syntax.sections {
        let lines = expander.lines(&section.lines)?;
        sections.lines.insert(section_slot(section.kind), lines);
    }
    expander.add_implied_lines(&mut sections);
    Ok(sections.join(syntax.info.strict))
}

struct Expander<'v, 's> {
    values: &'v mut Values<'s>,
    definitions: HashMap<usize, Formula>,
}

impl Expander<'_, '_> {
    fn lines(&mut self, lines: &[ExprId]) -> Worked<Vec<Formula>> {
        lines.iter().map(|line| self.formula(*line)).collect()
    }

    fn formula(&mut self, id: ExprId) -> Worked<Formula> {
        let syntax = self.values.syntax;
        let expr = &syntax.exprs[id];
        match &expr.form {
            Form::True => Ok(Formula::constant(true)),
            Form::False => Ok(Formula::constant(false)),
            Form::Name => self.named(expr.first),
            Form::Index(index) => self.bus_bit(expr.first, *index),
            Form::Parenthesis(inner) => self.formula(*inner),
            Form::Unary(unary, operand) => {
                let operand = self.formula(*operand)?;
                Ok(Formula::unary(unary_kind(*unary), &operand))
            }
            Form::NextBy { steps, operand } => {
                let steps = self.values.number(*steps)?;
                Ok(Formula::next_by(steps, &self.formula(*operand)?))
            }
            Form::Window {
                unary,
                from,
                to,
                operand,
            } => {
                let (from, to) = self.values.window(*from, *to, expr.sign)?;
                let operand = self.formula(*operand)?;
                Ok(Formula::window(window_join(*unary), from, to, &operand))
            }
            Form::Binary(binary, left, right) => self.binary(*binary, *left, *right),
            Form::Big {
                operator,
                binders,
                body,
            } => self.big(*operator, binders, *body),
            other => unreachable!("types were checked: {other:?}"),
        }
    }

    fn named(&mut self, name: TokenId) -> Worked<Formula> {
        match self.values.names.referent(name) {
            Referent::Signal(signal) => Ok(self.bit(signal, 0)),
            Referent::Definition(definition) => self.defined(definition),
            other => unreachable!("types were checked: {other:?}"),
        }
    }

    // E1. A definition is the same at each use, so its tree is shared until it is written.
    fn defined(&mut self, definition: usize) -> Worked<Formula> {
        if let Some(formula) = self.definitions.get(&definition) {
            return Ok(formula.clone());
        }
        let formula = self.formula(self.values.syntax.definitions[definition].value)?;
        self.definitions.insert(definition, formula.clone());
        Ok(formula)
    }

    fn bus_bit(&mut self, name: TokenId, index: ExprId) -> Worked<Formula> {
        let index = self.values.index(name, index)?;
        Ok(self.bit(self.values.declared(name), index as usize))
    }

    /// A declared signal, or a bit of a declared bus. 02, F-2: 'From Moore to Mealy each input node gets an X above it;
    /// from Mealy to Moore each output node does'.
    fn bit(&self, declared: usize, index: usize) -> Formula {
        let signal = Formula::signal(self.values.first_number(declared) + index);
        let syntax = self.values.syntax;
        if syntax.info.is_late(syntax.signals[declared].output) {
            return Formula::unary(Node::NEXT, &signal);
        }
        signal
    }

    fn binary(&mut self, binary: Binary, left: ExprId, right: ExprId) -> Worked<Formula> {
        if let Some(kind) = binary_kind(binary) {
            let left = self.formula(left)?;
            let right = self.formula(right)?;
            return Ok(Formula::binary(kind, &left, &right));
        }
        let equality = matches!(binary, Binary::Equal | Binary::Unequal);
        if equality && self.values.compares_bus(left, right) {
            return self.bus_equality(binary, left, right);
        }
        // 01: 'A comparison of numbers and IN become true or false'.
        Ok(Formula::constant(self.values.truth(binary, left, right)?))
    }

    // 01: 'words folded with `||`. `!=` puts `!` above.'
    fn bus_equality(&mut self, binary: Binary, left: ExprId, right: ExprId) -> Worked<Formula> {
        let (bus, words) = self.values.compared(left, right)?;
        let equal = self.one_of(bus, &words);
        Ok(match binary {
            Binary::Unequal => Formula::unary(Node::NOT, &equal),
            _ => equal,
        })
    }

    fn one_of(&self, bus: usize, words: &[Vec<u8>]) -> Formula {
        let words = words.iter().map(|word| self.word(bus, word));
        Formula::fold(Node::OR, words, false)
    }

    // 01: 'per word the literals of its unstarred marks, bit 0 first, folded with `&&`'.
    fn word(&self, bus: usize, word: &[u8]) -> Formula {
        let literals = word.iter().enumerate().filter_map(|(bit, mark)| {
            let signal = self.bit(bus, bit);
            match mark {
                b'1' => Some(signal),
                b'0' => Some(Formula::unary(Node::NOT, &signal)),
                _ => None,
            }
        });
        Formula::fold(Node::AND, literals, true)
    }

    // E2, E3: nested folds to the left; over nothing `&&` is true, `||` false.
    fn big(&mut self, operator: Big, binders: &[Binder], body: ExprId) -> Worked<Formula> {
        let Some((binder, rest)) = binders.split_first() else {
            return self.formula(body);
        };
        let kind = match operator {
            Big::And => Node::AND,
            Big::Or => Node::OR,
            other => unreachable!("types were checked: {other:?}"),
        };
        let mut folded = None;
        for element in self.values.elements(binder)?.iter() {
            self.values.bind(binder, *element);
            let next = self.big(operator, rest, body)?;
            folded = Some(match folded {
                None => next,
                Some(before) => Formula::binary(kind, &before, &next),
            });
        }
        Ok(folded.unwrap_or_else(|| Formula::constant(operator == Big::And)))
    }

    // 01: 'to REQUIRE for inputs, to ASSERT for outputs, after the written lines, in signal order'.
    fn add_implied_lines(&self, sections: &mut Sections) {
        for (number, signal) in self.values.syntax.signals.iter().enumerate() {
            let Shape::Enumerated(type_name) = signal.shape else {
                continue;
            };
            let enumeration = self.values.enumeration_of(type_name);
            let words = enumeration::all_words(self.values.syntax, enumeration);
            if enumeration::leaves_some_unnamed(&words) {
                let kind = if signal.output {
                    SectionKind::Assert
                } else {
                    SectionKind::Require
                };
                let line = self.one_of(number, &words);
                let lines = sections.lines.entry(section_slot(kind)).or_default();
                lines.push(line);
            }
        }
    }
}

fn unary_kind(unary: Unary) -> u32 {
    match unary {
        Unary::Not => Node::NOT,
        Unary::Next => Node::NEXT,
        Unary::Finally => Node::FINALLY,
        Unary::Globally => Node::GLOBALLY,
    }
}

fn window_join(unary: Unary) -> u32 {
    match unary {
        Unary::Finally => Node::OR,
        Unary::Globally => Node::AND,
        other => unreachable!("the grammar has no window of {other:?}"),
    }
}

fn binary_kind(binary: Binary) -> Option<u32> {
    Some(match binary {
        Binary::And => Node::AND,
        Binary::Or => Node::OR,
        Binary::Implies => Node::IMPLIES,
        Binary::Equivalent => Node::EQUIVALENT,
        Binary::WeakUntil => Node::WEAK_UNTIL,
        Binary::Until => Node::UNTIL,
        Binary::Release => Node::RELEASE,
        _ => return None,
    })
}

#[derive(Default)]
struct Sections {
    lines: HashMap<usize, Vec<Formula>>,
}

fn section_slot(kind: SectionKind) -> usize {
    kind as usize
}

impl Sections {
    // 01: 'A section is its lines folded with `&&`; without lines, true'.
    fn section(&self, kind: SectionKind) -> Formula {
        let lines = self.lines.get(&section_slot(kind));
        let lines = lines.into_iter().flatten().cloned();
        Formula::fold(Node::AND, lines, true)
    }

    fn join(&self, strict: bool) -> Formula {
        let initially = self.section(SectionKind::Initially);
        let promise = if strict {
            self.strict()
        } else {
            self.standard()
        };
        Formula::binary(Node::IMPLIES, &initially, &promise)
    }

    // P && ((G R && S) -> (G A && U))
    fn standard(&self) -> Formula {
        let invariant = always(&self.section(SectionKind::Assert));
        let guarantee = self.section(SectionKind::Guarantee);
        let owed = Formula::binary(Node::AND, &invariant, &guarantee);
        let granted = Formula::binary(Node::IMPLIES, &self.assumed(), &owed);
        Formula::binary(Node::AND, &self.section(SectionKind::Preset), &granted)
    }

    // (P && (A W !R)) && ((G R && S) -> U)
    fn strict(&self) -> Formula {
        let require = self.section(SectionKind::Require);
        let broken = Formula::unary(Node::NOT, &require);
        let assert = self.section(SectionKind::Assert);
        let kept = Formula::binary(Node::WEAK_UNTIL, &assert, &broken);
        let start = Formula::binary(Node::AND, &self.section(SectionKind::Preset), &kept);
        let guarantee = self.section(SectionKind::Guarantee);
        let granted = Formula::binary(Node::IMPLIES, &self.assumed(), &guarantee);
        Formula::binary(Node::AND, &start, &granted)
    }

    // G R && S
    fn assumed(&self) -> Formula {
        let required = always(&self.section(SectionKind::Require));
        Formula::binary(Node::AND, &required, &self.section(SectionKind::Assume))
    }
}

fn always(formula: &Formula) -> Formula {
    Formula::unary(Node::GLOBALLY, formula)
}
