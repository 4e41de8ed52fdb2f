//! The source's own meaning on a lasso word, worked out from the text and without nodes.

use crate::answer::Refusal;
use crate::enumeration;
use crate::names::Referent;
use crate::reader;
use crate::recording::Lasso;
use crate::stack;
use crate::syntax::*;
use crate::values::Values;
use std::collections::HashMap;
use std::rc::Rc;

/// Where something holds: one truth value per position of the lasso.
type Where = Rc<Vec<bool>>;
type Meant<T> = Result<T, Refusal>;

/// At which positions of the lasso a text holds; refusals 1 to 13 are handed up.
pub fn meaning(text: &[u8], word: &Lasso) -> Meant<Vec<bool>> {
    let sections = sections(text, word)?;
    let positions = 0..word.positions();
    Ok(positions.map(|t| sections.holds_at(word, t)).collect())
}

/// Where each line of the text holds; refusals 1 to 13 are handed up.
pub fn sections(text: &[u8], word: &Lasso) -> Meant<Sections> {
    stack::deep(|| {
        let (syntax, names) = reader::check_text(text)?;
        let values = Values::of(&syntax, &names)?;
        let mut meaning = Meaning {
            values,
            word,
            definitions: HashMap::new(),
        };
        meaning.sections()
    })
}

/// The lines of a section, in their order: for each position whether it holds there.
pub type Lines = Vec<Vec<bool>>;

/// Where the lines of all sections hold.
pub struct Sections {
    pub strict: bool,
    pub initially: Lines,
    pub preset: Lines,
    pub require: Lines,
    pub assert: Lines,
    pub assume: Lines,
    pub guarantee: Lines,
}

/// 01: a section 'holds where all its lines do'.
pub fn all_hold(lines: &Lines, t: usize) -> bool {
    lines.iter().all(|line| line[t])
}

impl Sections {
    /// 01: 'The text holds at t if INITIALLY fails there, or PRESET holds at t and, should REQUIRE hold at each
    /// position from t on and ASSUME at t, ASSERT holds at each from t on and GUARANTEE at t.'
    pub fn holds_at(&self, word: &Lasso, t: usize) -> bool {
        let each = |lines: &Lines| positions_from(word, t).all(|p| all_hold(lines, p));
        let asked = each(&self.require) && all_hold(&self.assume, t);
        let guaranteed = all_hold(&self.guarantee, t);
        let promised = if self.strict {
            self.owed_strictly(word, t) && (!asked || guaranteed)
        } else {
            !asked || each(&self.assert) && guaranteed
        };
        !all_hold(&self.initially, t) || all_hold(&self.preset, t) && promised
    }

    // 01: 'ASSERT is owed at each p from t on with REQUIRE true at t to p'.
    fn owed_strictly(&self, word: &Lasso, t: usize) -> bool {
        positions_from(word, t)
            .take_while(|p| all_hold(&self.require, *p))
            .all(|p| all_hold(&self.assert, p))
    }
}

/// The positions met from t on: from t to the end, and round the loop once.
fn positions_from(word: &Lasso, t: usize) -> impl Iterator<Item = usize> + '_ {
    let count = 2 * word.positions();
    std::iter::successors(Some(t), |p| Some(word.after(*p))).take(count)
}

struct Meaning<'s> {
    values: Values<'s>,
    word: &'s Lasso,
    definitions: HashMap<usize, Where>,
}

// Sections.
impl Meaning<'_> {
    fn sections(&mut self) -> Meant<Sections> {
        Ok(Sections {
            strict: self.values.syntax.info.strict,
            initially: self.lines(SectionKind::Initially)?,
            preset: self.lines(SectionKind::Preset)?,
            require: self.lines(SectionKind::Require)?,
            assert: self.lines(SectionKind::Assert)?,
            assume: self.lines(SectionKind::Assume)?,
            guarantee: self.lines(SectionKind::Guarantee)?,
        })
    }

    // 01: 'An implied bus line counts as a line of its section'; 02, F-7: 'implied ones after the written'.
    fn lines(&mut self, kind: SectionKind) -> Meant<Lines> {
        let syntax = self.values.syntax;
        let mut lines = Vec::new();
        for section in &syntax.sections {
            if section.kind == kind {
                for line in &section.lines {
                    lines.push(self.holds(*line)?);
                }
            }
        }
        lines.extend(self.implied_lines(kind));
        Ok(lines.iter().map(|line| line.to_vec()).collect())
    }

    fn implied_lines(&self, kind: SectionKind) -> Vec<Where> {
        let mut lines = Vec::new();
        for (number, signal) in self.values.syntax.signals.iter().enumerate() {
            let owner = if signal.output {
                SectionKind::Assert
            } else {
                SectionKind::Require
            };
            if let (Shape::Enumerated(type_name), true) = (signal.shape, owner == kind) {
                let enumeration = self.values.enumeration_of(type_name);
                let words = enumeration::all_words(self.values.syntax, enumeration);
                // F7.5: one for each bus whose enumeration leaves some word unnamed.
                if enumeration::leaves_some_unnamed(&words) {
                    lines.push(self.matches_one(number, &words));
                }
            }
        }
        lines
    }

    fn positions_from(&self, t: usize) -> impl Iterator<Item = usize> + '_ {
        positions_from(self.word, t)
    }

    fn at_each_from(&self, row: &Where, t: usize) -> bool {
        self.positions_from(t).all(|p| row[p])
    }

    fn each_position(&self, holds: impl Fn(usize) -> bool) -> Where {
        Rc::new((0..self.word.positions()).map(holds).collect())
    }
}

// Expressions.
impl Meaning<'_> {
    fn holds(&mut self, id: ExprId) -> Meant<Where> {
        let syntax = self.values.syntax;
        let expr = &syntax.exprs[id];
        match &expr.form {
            Form::True => Ok(self.each_position(|_| true)),
            Form::False => Ok(self.each_position(|_| false)),
            Form::Name => self.named(expr.first),
            Form::Index(index) => self.bus_bit(expr.first, *index),
            Form::Parenthesis(inner) => self.holds(*inner),
            Form::Unary(unary, operand) => {
                let operand = self.holds(*operand)?;
                Ok(self.unary(*unary, &operand))
            }
            Form::NextBy { steps, operand } => {
                let steps = self.values.number(*steps)? as usize;
                let operand = self.holds(*operand)?;
                Ok(self.each_position(|t| operand[self.word.later(t, steps)]))
            }
            Form::Window {
                unary,
                from,
                to,
                operand,
            } => {
                let window = self.values.window(*from, *to, expr.sign)?;
                let operand = self.holds(*operand)?;
                Ok(self.window(*unary, window, &operand))
            }
            Form::Binary(binary, left, right) => self.binary(*binary, *left, *right),
            Form::Big {
                operator,
                binders,
                body,
            } => self.big(*operator, binders, *body),
            other => unreachable!("types were checked: {other:?}"),
        }
    }

    fn named(&mut self, name: TokenId) -> Meant<Where> {
        match self.values.names.referent(name) {
            Referent::Signal(signal) => Ok(self.bit(signal, 0)),
            Referent::Definition(definition) => self.defined(definition),
            other => unreachable!("types were checked: {other:?}"),
        }
    }

    // 01: 'a definition means what its body does'.
    fn defined(&mut self, definition: usize) -> Meant<Where> {
        if let Some(row) = self.definitions.get(&definition) {
            return Ok(row.clone());
        }
        let row = self.holds(self.values.syntax.definitions[definition].value)?;
        self.definitions.insert(definition, row.clone());
        Ok(row)
    }

    // 01: 'a signal or bus bit holds where it is present'.
    fn bus_bit(&mut self, name: TokenId, index: ExprId) -> Meant<Where> {
        let index = self.values.index(name, index)? as usize;
        Ok(self.bit(self.values.declared(name), index))
    }

    // 02, F-2: 'For a converted file, the source's meaning reads the shifted signals one position later'.
    fn bit(&self, declared: usize, index: usize) -> Where {
        let syntax = self.values.syntax;
        let number = self.values.first_number(declared) + index;
        match syntax.info.is_late(syntax.signals[declared].output) {
            true => self.each_position(|t| self.word.present(self.word.after(t), number)),
            false => self.each_position(|t| self.word.present(t, number)),
        }
    }

    fn unary(&self, unary: Unary, operand: &Where) -> Where {
        match unary {
            Unary::Not => self.each_position(|t| !operand[t]),
            Unary::Next => self.each_position(|t| operand[self.word.after(t)]),
            Unary::Finally => self.each_position(|t| self.positions_from(t).any(|p| operand[p])),
            Unary::Globally => self.each_position(|t| self.at_each_from(operand, t)),
        }
    }

    // 01: '`F[n:m] e` if e holds at some position n to m later, `G[n:m] e` if at each'. As many
    // positions in a row as the word has are all that can be met.
    fn window(&self, unary: Unary, (from, to): (u32, u32), operand: &Where) -> Where {
        let count = (to - from) as usize + 1;
        let met = count.min(self.word.positions());
        let later = |t: usize, step: usize| operand[self.word.later(t, from as usize + step)];
        match unary {
            Unary::Globally => self.each_position(|t| (0..met).all(|step| later(t, step))),
            _ => self.each_position(|t| (0..met).any(|step| later(t, step))),
        }
    }

    fn binary(&mut self, binary: Binary, left: ExprId, right: ExprId) -> Meant<Where> {
        use Binary::*;
        match binary {
            And | Or | Implies | Equivalent | WeakUntil | Until | Release => {
                let left = self.holds(left)?;
                let right = self.holds(right)?;
                Ok(self.connected(binary, &left, &right))
            }
            Equal | Unequal if self.values.compares_bus(left, right) => {
                let (bus, words) = self.values.compared(left, right)?;
                let equal = self.matches_one(bus, &words);
                Ok(self.each_position(|t| equal[t] == (binary == Equal)))
            }
            _ => {
                let truth = self.values.truth(binary, left, right)?;
                Ok(self.each_position(|_| truth))
            }
        }
    }

    // Boolean operators, and Appendix A.1's U, R and W.
    fn connected(&self, binary: Binary, a: &Where, b: &Where) -> Where {
        match binary {
            Binary::And => self.each_position(|t| a[t] && b[t]),
            Binary::Or => self.each_position(|t| a[t] || b[t]),
            Binary::Implies => self.each_position(|t| !a[t] || b[t]),
            Binary::Equivalent => self.each_position(|t| a[t] == b[t]),
            Binary::Until => self.each_position(|t| self.until(|p| a[p], |p| b[p], t)),
            Binary::WeakUntil => {
                self.each_position(|t| self.until(|p| a[p], |p| b[p], t) || self.at_each_from(a, t))
            }
            Binary::Release => self.each_position(|t| !self.until(|p| !a[p], |p| !b[p], t)),
            other => unreachable!("types were checked: {other:?}"),
        }
    }

    // A.1: some n from t on where b holds, and a at all before it.
    fn until(&self, a: impl Fn(usize) -> bool, b: impl Fn(usize) -> bool, t: usize) -> bool {
        for p in self.positions_from(t) {
            if b(p) {
                return true;
            }
            if !a(p) {
                return false;
            }
        }
        false
    }

    // 01: 'a bus equals a value if its bits match one of the value's words'.
    fn matches_one(&self, bus: usize, words: &[Vec<u8>]) -> Where {
        let width = self.values.taken(bus);
        let bits: Vec<Where> = (0..width).map(|bit| self.bit(bus, bit)).collect();
        self.each_position(|t| {
            let bit = |bit: usize| bits[bit][t];
            words.iter().any(|word| enumeration::matches(word, bit))
        })
    }

    // 01: '`&&[i IN M] e` holds if e does for each i in M, `||[i IN M] e` if for some'.
    fn big(&mut self, operator: Big, binders: &[Binder], body: ExprId) -> Meant<Where> {
        let Some((binder, rest)) = binders.split_first() else {
            return self.holds(body);
        };
        let mut each = Vec::new();
        for element in self.values.elements(binder)?.iter() {
            self.values.bind(binder, *element);
            each.push(self.big(operator, rest, body)?);
        }
        Ok(match operator {
            Big::And => self.each_position(|t| each.iter().all(|row| row[t])),
            Big::Or => self.each_position(|t| each.iter().any(|row| row[t])),
            other => unreachable!("types were checked: {other:?}"),
        })
    }
}
