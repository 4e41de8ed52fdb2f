//! Types: refusal 9.

use crate::answer::Refusal;
use crate::names::{Names, Referent};
use crate::syntax::*;

/// The type of an expression.
#[derive(Clone, Copy, Debug, PartialEq, Eq)]
pub enum Type {
    Number,
    Set,
    Formula,
    Bus,
    /// An enumeration's identifier.
    Value,
    /// An enumeration's type name.
    TypeName,
}

/// The types of all expressions of a text.
pub struct Types {
    pub of: Vec<Type>,
}

/// Refusal 9 at the first wrong place of the whole text; otherwise every expression's type.
pub fn check(syntax: &Syntax, names: &Names) -> Result<Types, Refusal> {
    let mut checker = Checker {
        syntax,
        names,
        of: Vec::new(),
        wrong: Vec::new(),
    };
    checker.expressions();
    checker.outermost();
    Refusal::at_first(9, checker.wrong)?;
    Ok(Types { of: checker.of })
}

struct Checker<'s> {
    syntax: &'s Syntax<'s>,
    names: &'s Names,
    of: Vec<Type>,
    wrong: Vec<usize>,
}

impl Checker<'_> {
    // N6: each operator fixes its result's type. Operands stand before their operators, and
    // definitions before their uses, so one pass in order of the arena suffices.
    fn expressions(&mut self) {
        let syntax = self.syntax;
        for expr in &syntax.exprs {
            let kind = self.expression(expr);
            self.of.push(kind);
        }
    }

    fn expression(&mut self, expr: &Expr) -> Type {
        match &expr.form {
            Form::Numeral => Type::Number,
            Form::True | Form::False => Type::Formula,
            Form::Name => self.name(expr.first),
            Form::Index(index) => self.index(expr.first, *index),
            Form::Parenthesis(inner) => self.of[*inner],
            Form::List(elements) => self.all(elements, Type::Number, Type::Set),
            Form::Range { start, second, end } => {
                self.all(&[*start, *second, *end], Type::Number, Type::Set)
            }
            Form::Measure(_, set) => self.all(&[*set], Type::Set, Type::Number),
            Form::SizeOf(bus) => self.all(&[*bus], Type::Bus, Type::Number),
            Form::Unary(_, operand) => self.all(&[*operand], Type::Formula, Type::Formula),
            Form::NextBy { steps, operand } => self.timed(&[*steps], *operand),
            Form::Window {
                from, to, operand, ..
            } => self.timed(&[*from, *to], *operand),
            Form::Binary(binary, left, right) => self.binary(*binary, *left, *right),
            Form::Big {
                operator,
                binders,
                body,
            } => self.big(*operator, binders, *body),
        }
    }

    fn expect(&mut self, expr: ExprId, wanted: Type) {
        if self.of[expr] != wanted {
            self.wrong.push(self.syntax.expr_place(expr));
        }
    }

    fn all(&mut self, exprs: &[ExprId], wanted: Type, result: Type) -> Type {
        for expr in exprs {
            self.expect(*expr, wanted);
        }
        result
    }

    fn name(&self, name: TokenId) -> Type {
        match self.names.referent(name) {
            Referent::Parameter(_) | Referent::Bound(_) => Type::Number,
            Referent::Definition(number) => self.of[self.syntax.definitions[number].value],
            Referent::EnumerationType(_) => Type::TypeName,
            Referent::EnumerationValue { .. } => Type::Value,
            Referent::Signal(number) => self.signal(number),
        }
    }

    // N6: a single signal is a formula and no bus.
    fn signal(&self, number: usize) -> Type {
        match self.syntax.signals[number].shape {
            Shape::Single => Type::Formula,
            Shape::Bus(_) | Shape::Enumerated(_) => Type::Bus,
        }
    }

    // N6: indexing anything but a bus is 9 at the name.
    fn index(&mut self, name: TokenId, index: ExprId) -> Type {
        if self.name(name) != Type::Bus {
            self.wrong.push(self.syntax.place(name));
        }
        self.all(&[index], Type::Number, Type::Formula)
    }

    fn timed(&mut self, numbers: &[ExprId], operand: ExprId) -> Type {
        self.all(numbers, Type::Number, Type::Formula);
        self.all(&[operand], Type::Formula, Type::Formula)
    }

    fn binary(&mut self, binary: Binary, left: ExprId, right: ExprId) -> Type {
        use Binary::*;
        let both = [left, right];
        match binary {
            Multiply | Divide | Modulo | Add | Subtract => {
                self.all(&both, Type::Number, Type::Number)
            }
            Difference | Intersection | Union => self.all(&both, Type::Set, Type::Set),
            Equal | Unequal => self.equality(left, right),
            Smaller | SmallerOrEqual | Greater | GreaterOrEqual => {
                self.all(&both, Type::Number, Type::Formula)
            }
            Member => {
                self.expect(left, Type::Number);
                self.all(&[right], Type::Set, Type::Formula)
            }
            And | Or | Implies | Equivalent | WeakUntil | Until | Release => {
                self.all(&both, Type::Formula, Type::Formula)
            }
        }
    }

    // N6: `==` and `!=` take numbers, or a bus and an enumeration value in either order.
    fn equality(&mut self, left: ExprId, right: ExprId) -> Type {
        let comparable = |kind| matches!(kind, Type::Number | Type::Bus | Type::Value);
        for operand in [left, right] {
            if !comparable(self.of[operand]) {
                self.wrong.push(self.syntax.expr_place(operand));
            }
        }
        let (left_type, right_type) = (self.of[left], self.of[right]);
        let fits = matches!(
            (left_type, right_type),
            (Type::Number, Type::Number) | (Type::Bus, Type::Value) | (Type::Value, Type::Bus)
        );
        // 01: 'the right operand's if two only clash'.
        if comparable(left_type) && comparable(right_type) && !fits {
            self.wrong.push(self.syntax.expr_place(right));
        }
        Type::Formula
    }

    fn big(&mut self, operator: Big, binders: &[Binder], body: ExprId) -> Type {
        for binder in binders {
            match &binder.range {
                BinderRange::Member(set) => self.expect(*set, Type::Set),
                BinderRange::Bounds(bounds) => {
                    self.expect(bounds.low, Type::Number);
                    self.expect(bounds.high, Type::Number);
                }
            }
        }
        let kind = match operator {
            Big::Sum | Big::Product => Type::Number,
            Big::Intersection | Big::Union => Type::Set,
            Big::And | Big::Or => Type::Formula,
        };
        self.all(&[body], kind, kind)
    }

    fn outermost(&mut self) {
        let syntax = self.syntax;
        for parameter in &syntax.parameters {
            self.expect(parameter.value, Type::Number);
        }
        for definition in &syntax.definitions {
            self.definition(definition.value);
        }
        for signal in &syntax.signals {
            self.declared_shape(signal.shape);
        }
        for line in syntax.sections.iter().flat_map(|section| &section.lines) {
            self.expect(*line, Type::Formula);
        }
    }

    // 01: 'a definition is a number, a set or a formula'.
    fn definition(&mut self, value: ExprId) {
        if !matches!(self.of[value], Type::Number | Type::Set | Type::Formula) {
            self.wrong.push(self.syntax.expr_place(value));
        }
    }

    fn declared_shape(&mut self, shape: Shape) {
        match shape {
            Shape::Single => {}
            Shape::Bus(width) => self.expect(width, Type::Number),
            Shape::Enumerated(type_name) => {
                if self.name(type_name) != Type::TypeName {
                    self.wrong.push(self.syntax.place(type_name));
                }
            }
        }
    }
}
