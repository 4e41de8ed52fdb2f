//! Numbers, and the truth of comparisons: refusal 11.

use super::*;

impl Values<'_> {
    pub fn number(&mut self, id: ExprId) -> Worked<u32> {
        let syntax = self.syntax;
        let expr = &syntax.exprs[id];
        match &expr.form {
            Form::Numeral => self.numeral(expr.first),
            Form::Name => self.named_number(expr.first),
            Form::Parenthesis(inner) => self.number(*inner),
            Form::Measure(measure, set) => self.measure(*measure, *set, expr.sign),
            Form::SizeOf(bus) => self.size_of(*bus),
            Form::Binary(binary, left, right) => {
                let left = self.number(*left)?;
                let right = self.number(*right)?;
                self.arithmetic(*binary, left, right, expr.sign)
            }
            Form::Big {
                operator,
                binders,
                body,
            } => self.big_number(*operator, binders, *body, expr.sign),
            other => unreachable!("types were checked: {other:?}"),
        }
    }

    // 01: 'Values are decimal, 0 to 1,000,000'. Any number of digits and leading zeros.
    fn numeral(&self, token: TokenId) -> Worked<u32> {
        let mut value = 0u32;
        for digit in self.syntax.bytes(token) {
            value = value * 10 + u32::from(digit - b'0');
            if value > limits::LARGEST_NUMBER {
                return self.syntax.refusal(11, token);
            }
        }
        Ok(value)
    }

    fn named_number(&mut self, name: TokenId) -> Worked<u32> {
        match self.names.referent(name) {
            Referent::Parameter(number) => Ok(self.parameters[number]),
            Referent::Bound(binder) => Ok(self.bound[binder]),
            Referent::Definition(number) => self.defined_number(number),
            other => unreachable!("types were checked: {other:?}"),
        }
    }

    // E1: a definition is worked out where it is used and only there.
    fn defined_number(&mut self, definition: usize) -> Worked<u32> {
        if let Some(value) = self.number_definitions.get(&definition) {
            return Ok(*value);
        }
        let value = self.number(self.syntax.definitions[definition].value)?;
        self.number_definitions.insert(definition, value);
        Ok(value)
    }

    // 01: 'MIN, MAX of nothing', refusal 11 at the operator.
    pub(super) fn measure(&mut self, measure: Measure, set: ExprId, sign: TokenId) -> Worked<u32> {
        let set = self.set(set)?;
        let found = match measure {
            Measure::Size => Some(set.len() as u32),
            Measure::Min => set.first().copied(),
            Measure::Max => set.last().copied(),
        };
        match found {
            Some(value) => Ok(value),
            None => self.syntax.refusal(11, sign),
        }
    }

    // 01: 'value out of range, divisor 0', refusal 11 at the operator.
    fn arithmetic(&self, binary: Binary, left: u32, right: u32, sign: TokenId) -> Worked<u32> {
        let (left, right) = (u64::from(left), u64::from(right));
        let value = match binary {
            Binary::Multiply => Some(left * right),
            Binary::Divide => left.checked_div(right),
            Binary::Modulo => left.checked_rem(right),
            Binary::Add => Some(left + right),
            Binary::Subtract => left.checked_sub(right),
            other => unreachable!("types were checked: {other:?}"),
        };
        match value {
            Some(value) if value <= u64::from(limits::LARGEST_NUMBER) => Ok(value as u32),
            _ => self.syntax.refusal(11, sign),
        }
    }

    // E2, E3: nested folds to the left, in step; over nothing `+` is 0 and `*` is 1.
    fn big_number(
        &mut self,
        operator: Big,
        binders: &[Binder],
        body: ExprId,
        sign: TokenId,
    ) -> Worked<u32> {
        let Some((binder, rest)) = binders.split_first() else {
            return self.number(body);
        };
        let (step, nothing) = match operator {
            Big::Sum => (Binary::Add, 0),
            Big::Product => (Binary::Multiply, 1),
            other => unreachable!("types were checked: {other:?}"),
        };
        let mut folded = None;
        for element in self.elements(binder)?.iter() {
            self.bind(binder, *element);
            let next = self.big_number(operator, rest, body, sign)?;
            folded = Some(match folded {
                None => next,
                Some(before) => self.arithmetic(step, before, next, sign)?,
            });
        }
        Ok(folded.unwrap_or(nothing))
    }
}

// Truth of comparisons of numbers and of IN.
impl Values<'_> {
    /// 01: 'A comparison of numbers or IN is as its values say'. Left operand first.
    pub fn truth(&mut self, binary: Binary, left: ExprId, right: ExprId) -> Worked<bool> {
        let left = self.number(left)?;
        if binary == Binary::Member {
            return Ok(self.set(right)?.binary_search(&left).is_ok());
        }
        let right = self.number(right)?;
        Ok(match binary {
            Binary::Equal => left == right,
            Binary::Unequal => left != right,
            Binary::Smaller => left < right,
            Binary::SmallerOrEqual => left <= right,
            Binary::Greater => left > right,
            Binary::GreaterOrEqual => left >= right,
            other => unreachable!("types were checked: {other:?}"),
        })
    }

    /// E4: n, m, then 'm below n' is 11 at the operator.
    pub fn window(&mut self, from: ExprId, to: ExprId, sign: TokenId) -> Worked<(u32, u32)> {
        let from = self.number(from)?;
        let to = self.number(to)?;
        if to < from {
            return self.syntax.refusal(11, sign);
        }
        Ok((from, to))
    }
}
