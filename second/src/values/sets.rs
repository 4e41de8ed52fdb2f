//! Sets, and the elements over which big operators go: refusal 12.

use super::*;

impl Values<'_> {
    pub fn set(&mut self, id: ExprId) -> Worked<Set> {
        let syntax = self.syntax;
        let expr = &syntax.exprs[id];
        match &expr.form {
            Form::Name => self.named_set(expr.first),
            Form::Parenthesis(inner) => self.set(*inner),
            Form::List(elements) => self.list(elements, expr.sign),
            Form::Range { start, second, end } => self.range(*start, *second, *end, expr.sign),
            Form::Binary(binary, left, right) => {
                let left = self.set(*left)?;
                let right = self.set(*right)?;
                self.combine(*binary, &left, &right, expr.sign)
            }
            Form::Big {
                operator,
                binders,
                body,
            } => self.big_set(*operator, binders, *body, expr.sign),
            other => unreachable!("types were checked: {other:?}"),
        }
    }

    fn named_set(&mut self, name: TokenId) -> Worked<Set> {
        let Referent::Definition(definition) = self.names.referent(name) else {
            unreachable!("types were checked");
        };
        if let Some(set) = self.set_definitions.get(&definition) {
            return Ok(set.clone());
        }
        let set = self.set(self.syntax.definitions[definition].value)?;
        self.set_definitions.insert(definition, set.clone());
        Ok(set)
    }

    // 01: 'sets 256 elements'; refusal 12 at the `{`, the operator or the first sign of bounds.
    fn sized(&self, elements: Vec<u32>, place: TokenId) -> Worked<Set> {
        if elements.len() > limits::SET_ELEMENTS {
            return self.syntax.refusal(12, place);
        }
        Ok(Rc::new(elements))
    }

    // E5: all elements as written, then the size, where duplicates count once.
    fn list(&mut self, elements: &[ExprId], brace: TokenId) -> Worked<Set> {
        let mut values = Vec::new();
        for element in elements {
            values.push(self.number(*element)?);
        }
        values.sort_unstable();
        values.dedup();
        self.sized(values, brace)
    }

    // E5: x, y, z, then the step, then the size, both at `{`.
    fn range(&mut self, start: ExprId, second: ExprId, end: ExprId, brace: TokenId) -> Worked<Set> {
        let start = self.number(start)?;
        let second = self.number(second)?;
        let end = self.number(end)?;
        if second <= start {
            return self.syntax.refusal(12, brace);
        }
        let step = (second - start) as usize;
        self.sized(at_most_one_over((start..=end).step_by(step)), brace)
    }

    fn combine(&self, binary: Binary, left: &Set, right: &Set, sign: TokenId) -> Worked<Set> {
        let kept = |keep: bool| {
            let elements = left.iter().copied();
            elements.filter(move |e| right.binary_search(e).is_ok() == keep)
        };
        let elements = match binary {
            Binary::Intersection => kept(true).collect(),
            Binary::Difference => kept(false).collect(),
            Binary::Union => {
                let mut all: Vec<u32> = kept(false).chain(right.iter().copied()).collect();
                all.sort_unstable();
                all
            }
            other => unreachable!("types were checked: {other:?}"),
        };
        self.sized(elements, sign)
    }

    // E3; over nothing `(+)` is empty, and `(*)` is 11 at the operator.
    fn big_set(
        &mut self,
        operator: Big,
        binders: &[Binder],
        body: ExprId,
        sign: TokenId,
    ) -> Worked<Set> {
        let Some((binder, rest)) = binders.split_first() else {
            return self.set(body);
        };
        let mut folded: Option<Set> = None;
        for element in self.elements(binder)?.iter() {
            self.bind(binder, *element);
            let next = self.big_set(operator, rest, body, sign)?;
            folded = Some(match folded {
                None => next,
                Some(before) => self.combine(set_step(operator), &before, &next, sign)?,
            });
        }
        match folded {
            Some(set) => Ok(set),
            None if operator == Big::Union => Ok(Rc::new(Vec::new())),
            None => self.syntax.refusal(11, sign),
        }
    }

    /// The elements over which a bound name ranges, ascending.
    pub fn elements(&mut self, binder: &Binder) -> Worked<Set> {
        match &binder.range {
            BinderRange::Member(set) => self.set(*set),
            BinderRange::Bounds(bounds) => self.between(bounds),
        }
    }

    // E5: low, high, then the size at the first sign. 01: 'without working out n-1'.
    fn between(&mut self, bounds: &Bounds) -> Worked<Set> {
        let low = self.number(bounds.low)?;
        let high = self.number(bounds.high)?;
        let first = low + u32::from(!bounds.low_included);
        let past = high + u32::from(bounds.high_included);
        self.sized(at_most_one_over(first..past), bounds.low_sign)
    }

    pub fn bind(&mut self, binder: &Binder, element: u32) {
        self.bound[binder.id] = element;
    }
}

/// The elements, but no more than are needed to see that they are too many.
fn at_most_one_over(elements: impl Iterator<Item = u32>) -> Vec<u32> {
    elements.take(limits::SET_ELEMENTS + 1).collect()
}

fn set_step(operator: Big) -> Binary {
    match operator {
        Big::Intersection => Binary::Intersection,
        Big::Union => Binary::Union,
        other => unreachable!("types were checked: {other:?}"),
    }
}
