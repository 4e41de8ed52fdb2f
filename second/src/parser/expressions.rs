//! Expressions by levels.

use super::operators::*;
use super::*;

impl Parser<'_> {
    // N2: the whole expression of a parameter, definition, width or line.
    pub(super) fn outermost(&mut self) -> Parsed<ExprId> {
        let expr = self.expression(ANY_LEVEL)?;
        self.outermost.push(expr);
        Ok(expr)
    }

    // 01: 'An operand looser than its operator needs parentheses. Otherwise an expression
    // reads on from the token after the last one as far as it can.'
    pub(super) fn expression(&mut self, level: Level) -> Parsed<ExprId> {
        let mut left = self.operand(level)?;
        while let Some(infix) = self.fixed().and_then(infix_operator) {
            if infix.level > level {
                break;
            }
            let sign = self.advance();
            let loosest = infix.level - u32::from(infix.left_to_right);
            let right = self.expression(loosest)?;
            let first = self.exprs[left].first;
            left = self.push(first, sign, Form::Binary(infix.binary, left, right));
        }
        Ok(left)
    }

    // G9: a prefix operator looser than its place allows is refused at itself.
    fn operand(&mut self, level: Level) -> Parsed<ExprId> {
        let Some(sign) = self.fixed() else {
            return self.atom();
        };
        match prefix_operator(sign) {
            Some((_, own_level)) if own_level > level => self.refuse(),
            Some((prefix, own_level)) => self.prefixed(prefix, own_level),
            None => self.atom(),
        }
    }

    fn prefixed(&mut self, prefix: Prefix, level: Level) -> Parsed<ExprId> {
        let sign = self.advance();
        let form = match prefix {
            Prefix::Measure(measure) => Form::Measure(measure, self.expression(level)?),
            Prefix::SizeOf => Form::SizeOf(self.expression(level)?),
            Prefix::Unary(unary) => self.unary(unary, level)?,
            Prefix::Big(operator) => self.big(operator, level)?,
        };
        Ok(self.push(sign, sign, form))
    }

    // 001, 4.8: `X[n]`, `F[n:m]`, `G[n:m]`.
    fn unary(&mut self, unary: Unary, level: Level) -> Parsed<Form> {
        if unary == Unary::Not || !self.skip("[") {
            return Ok(Form::Unary(unary, self.expression(level)?));
        }
        let from = self.expression(ANY_LEVEL)?;
        if unary == Unary::Next {
            self.expect("]")?;
            let operand = self.expression(level)?;
            return Ok(Form::NextBy {
                steps: from,
                operand,
            });
        }
        self.expect(":")?;
        let to = self.expression(ANY_LEVEL)?;
        self.expect("]")?;
        let operand = self.expression(level)?;
        Ok(Form::Window {
            unary,
            from,
            to,
            operand,
        })
    }

    // 001, 4.7. After a sign that can open a big operator only `[` can follow.
    fn big(&mut self, operator: Big, level: Level) -> Parsed<Form> {
        self.expect("[")?;
        let mut binders = vec![self.binder()?];
        while self.skip(",") {
            binders.push(self.binder()?);
        }
        self.expect("]")?;
        let body = self.expression(level)?;
        Ok(Form::Big {
            operator,
            binders,
            body,
        })
    }

    // G6: a name followed by IN starts a membership; anything else is bounds.
    fn binder(&mut self) -> Parsed<Binder> {
        let (name, range) = if self.starts_membership() {
            let name = self.advance();
            self.advance();
            (name, BinderRange::Member(self.expression(ANY_LEVEL)?))
        } else {
            self.bounds()?
        };
        let id = self.binder_count;
        self.binder_count += 1;
        Ok(Binder {
            id,
            name,
            range,
            visible_from: self.at,
        })
    }

    fn starts_membership(&self) -> bool {
        let next = self.tokens.get(self.at + 1).map(|token| token.kind);
        self.kind() == Some(Kind::Name) && matches!(next, Some(Kind::Fixed("IN" | "ELEM" | "<-")))
    }

    // 01: 'The bounds in `0 <= i < n` bind tighter than a comparison'.
    fn bounds(&mut self) -> Parsed<(TokenId, BinderRange)> {
        let low = self.expression(BOUND_LEVEL)?;
        let low_sign = self.at;
        let low_included = self.bound_sign()?;
        let name = self.name()?;
        let high_included = self.bound_sign()?;
        let high = self.expression(BOUND_LEVEL)?;
        let bounds = Bounds {
            low,
            low_sign,
            low_included,
            high,
            high_included,
        };
        Ok((name, BinderRange::Bounds(bounds)))
    }

    // G5: `<`, `<=`, LE, LEQ; whether the bound itself is included.
    fn bound_sign(&mut self) -> Parsed<bool> {
        let included = match self.fixed() {
            Some("<" | "LE") => false,
            Some("<=" | "LEQ") => true,
            _ => return self.refuse(),
        };
        self.advance();
        Ok(included)
    }

    fn atom(&mut self) -> Parsed<ExprId> {
        match self.kind() {
            Some(Kind::Name) => self.named(),
            Some(Kind::Numeral) => Ok(self.leaf(Form::Numeral)),
            Some(Kind::Fixed("true")) => Ok(self.leaf(Form::True)),
            Some(Kind::Fixed("false")) => Ok(self.leaf(Form::False)),
            Some(Kind::Fixed("(")) => self.bracketed(")", Form::Parenthesis),
            Some(Kind::Fixed("|")) => self.bracketed("|", |e| Form::Measure(Measure::Size, e)),
            Some(Kind::Fixed("{")) => self.set(),
            _ => self.refuse(),
        }
    }

    fn leaf(&mut self, form: Form) -> ExprId {
        let token = self.advance();
        self.push(token, token, form)
    }

    fn bracketed(&mut self, close: &str, form: impl Fn(ExprId) -> Form) -> Parsed<ExprId> {
        let open = self.advance();
        let inner = self.expression(ANY_LEVEL)?;
        self.expect(close)?;
        Ok(self.push(open, open, form(inner)))
    }

    // G7: an index stands directly on a name.
    fn named(&mut self) -> Parsed<ExprId> {
        let name = self.advance();
        if !self.skip("[") {
            return Ok(self.push(name, name, Form::Name));
        }
        let index = self.expression(ANY_LEVEL)?;
        self.expect("]")?;
        Ok(self.push(name, name, Form::Index(index)))
    }

    // G10: ranges are `{x, y .. z}` only.
    fn set(&mut self) -> Parsed<ExprId> {
        let open = self.advance();
        if self.skip("}") {
            return Ok(self.push(open, open, Form::List(Vec::new())));
        }
        let mut elements = vec![self.expression(ANY_LEVEL)?];
        while self.skip(",") {
            elements.push(self.expression(ANY_LEVEL)?);
        }
        let mut form = Form::List(elements.clone());
        if elements.len() == 2 && self.skip("..") {
            form = Form::Range {
                start: elements[0],
                second: elements[1],
                end: self.expression(ANY_LEVEL)?,
            };
        }
        self.expect("}")?;
        Ok(self.push(open, open, form))
    }

    fn push(&mut self, first: TokenId, sign: TokenId, form: Form) -> ExprId {
        let levels = 1 + self.deepest(&form);
        self.exprs.push(Expr {
            first,
            sign,
            end: self.at,
            levels,
            form,
        });
        self.exprs.len() - 1
    }

    // N1: the levels below this form.
    fn deepest(&self, form: &Form) -> usize {
        operands(form)
            .into_iter()
            .map(|operand| self.exprs[operand].levels)
            .max()
            .unwrap_or(0)
    }
}

/// All expressions directly below a form.
pub fn operands(form: &Form) -> Vec<ExprId> {
    match form {
        Form::Numeral | Form::True | Form::False | Form::Name => Vec::new(),
        Form::Index(e) | Form::Parenthesis(e) | Form::Measure(_, e) => vec![*e],
        Form::SizeOf(e) | Form::Unary(_, e) => vec![*e],
        Form::List(elements) => elements.clone(),
        Form::Range { start, second, end } => vec![*start, *second, *end],
        Form::NextBy { steps, operand } => vec![*steps, *operand],
        Form::Window {
            from, to, operand, ..
        } => vec![*from, *to, *operand],
        Form::Binary(_, left, right) => vec![*left, *right],
        Form::Big { binders, body, .. } => {
            let mut below: Vec<ExprId> = binders.iter().flat_map(binder_operands).collect();
            below.push(*body);
            below
        }
    }
}

fn binder_operands(binder: &Binder) -> Vec<ExprId> {
    match &binder.range {
        BinderRange::Member(set) => vec![*set],
        BinderRange::Bounds(bounds) => vec![bounds.low, bounds.high],
    }
}
