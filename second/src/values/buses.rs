//! Buses where they are used: refusal 13.

use super::*;

impl Values<'_> {
    /// The token of a bus name, inside parentheses if any, and the declared bus.
    pub fn bus(&self, expr: ExprId) -> (TokenId, usize) {
        let name = self.syntax.exprs[self.syntax.inside_parentheses(expr)].first;
        (name, self.declared(name))
    }

    /// The declared signal or bus that a name stands for.
    pub fn declared(&self, name: TokenId) -> usize {
        match self.names.referent(name) {
            Referent::Signal(signal) => signal,
            other => unreachable!("types were checked: {other:?}"),
        }
    }

    // 01: 'SIZEOF of a bus not yet sized', refusal 13 at the bus name.
    pub(super) fn size_of(&self, expr: ExprId) -> Worked<u32> {
        let (name, bus) = self.bus(expr);
        match self.widths[bus] {
            Some(width) => Ok(width),
            None => self.syntax.refusal(13, name),
        }
    }

    /// E4: the index is worked out, then 'index too large' is 13 at the bus name.
    pub fn index(&mut self, name: TokenId, index: ExprId) -> Worked<u32> {
        let index = self.number(index)?;
        let width = self.widths[self.declared(name)].expect("formulas come after the widths");
        if index >= width {
            return self.syntax.refusal(13, name);
        }
        Ok(index)
    }

    /// The bus and the words of the value that are compared; 'unequal widths' is 13.
    pub fn compared(&self, left: ExprId, right: ExprId) -> Worked<(usize, Vec<Vec<u8>>)> {
        let (bus, value) = if self.value_words(left).is_some() {
            (right, left)
        } else {
            (left, right)
        };
        let words = self.value_words(value).expect("types were checked");
        let (name, bus) = self.bus(bus);
        if self.widths[bus] != Some(words[0].len() as u32) {
            return self.syntax.refusal(13, name);
        }
        Ok((bus, words))
    }

    /// The words of an enumeration's identifier, or none if the expression is another name.
    fn value_words(&self, expr: ExprId) -> Option<Vec<Vec<u8>>> {
        let inner = &self.syntax.exprs[self.syntax.inside_parentheses(expr)];
        if !matches!(inner.form, Form::Name) {
            return None;
        }
        match self.names.referent(inner.first) {
            Referent::EnumerationValue {
                enumeration,
                identifier,
            } => Some(enumeration::identifier_words(
                self.syntax,
                enumeration,
                identifier,
            )),
            _ => None,
        }
    }

    /// Whether an equality compares a bus with a value, and no numbers.
    pub fn compares_bus(&self, left: ExprId, right: ExprId) -> bool {
        self.value_words(left).is_some() || self.value_words(right).is_some()
    }
}
