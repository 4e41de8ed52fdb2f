//! The parsed text. Expressions lie in one arena, operands before their operators.

use crate::answer::Refusal;
use crate::token::Token;

/// A token's number in the text.
pub type TokenId = usize;
/// An expression's number in the arena.
pub type ExprId = usize;

/// An expression: the tokens `first .. end`, with the sign or word of its operator.
#[derive(Clone, Debug)]
pub struct Expr {
    pub first: TokenId,
    pub sign: TokenId,
    pub end: TokenId,
    /// N1: levels of the tree.
    pub levels: usize,
    pub form: Form,
}

#[derive(Clone, Debug)]
pub enum Form {
    Numeral,
    True,
    False,
    /// A name; its token is the first.
    Name,
    /// An indexed name; its token is the first.
    Index(ExprId),
    Parenthesis(ExprId),
    /// `{..}` with its elements; none for `{}`.
    List(Vec<ExprId>),
    /// `{start, second .. end}`.
    Range {
        start: ExprId,
        second: ExprId,
        end: ExprId,
    },
    Measure(Measure, ExprId),
    SizeOf(ExprId),
    Unary(Unary, ExprId),
    /// `X[steps] operand`.
    NextBy {
        steps: ExprId,
        operand: ExprId,
    },
    /// `F[from:to] operand` or `G[from:to] operand`.
    Window {
        unary: Unary,
        from: ExprId,
        to: ExprId,
        operand: ExprId,
    },
    Binary(Binary, ExprId, ExprId),
    Big {
        operator: Big,
        binders: Vec<Binder>,
        body: ExprId,
    },
}

/// What MIN, MAX and the size bars give for a set.
#[derive(Clone, Copy, Debug, PartialEq, Eq)]
pub enum Measure {
    Size,
    Min,
    Max,
}

#[derive(Clone, Copy, Debug, PartialEq, Eq)]
pub enum Unary {
    Not,
    Next,
    Finally,
    Globally,
}

#[derive(Clone, Copy, Debug, PartialEq, Eq)]
pub enum Binary {
    Multiply,
    Divide,
    Modulo,
    Add,
    Subtract,
    Difference,
    Intersection,
    Union,
    Equal,
    Unequal,
    Smaller,
    SmallerOrEqual,
    Greater,
    GreaterOrEqual,
    Member,
    And,
    Or,
    Implies,
    Equivalent,
    WeakUntil,
    Until,
    Release,
}

#[derive(Clone, Copy, Debug, PartialEq, Eq)]
pub enum Big {
    Sum,
    Product,
    Intersection,
    Union,
    And,
    Or,
}

/// A name that a big operator binds.
#[derive(Clone, Debug)]
pub struct Binder {
    /// Its number among all bound names of the text.
    pub id: usize,
    pub name: TokenId,
    pub range: BinderRange,
    /// N3: the first token at which the name is visible.
    pub visible_from: TokenId,
}

#[derive(Clone, Debug)]
pub enum BinderRange {
    Member(ExprId),
    Bounds(Bounds),
}

/// `low <= name < high` and the like.
#[derive(Clone, Debug)]
pub struct Bounds {
    pub low: ExprId,
    pub low_sign: TokenId,
    pub low_included: bool,
    pub high: ExprId,
    pub high_included: bool,
}

#[derive(Clone, Copy, Debug, PartialEq, Eq)]
pub enum Model {
    Mealy,
    Moore,
}

#[derive(Clone, Copy, Debug)]
pub struct Info {
    pub semantics: Model,
    pub strict: bool,
    pub target: Model,
}

impl Info {
    /// 001, 3.2: 'a specification in Moore semantics can be converted into Mealy semantics by prefixing all
    /// occurrences of input atomic propositions with an additional X-operator. Similarly, we can convert from Mealy
    /// semantics to Moore semantics by prefixing outputs'. Whether an input or output is read one position later.
    pub fn is_late(&self, output: bool) -> bool {
        match (self.semantics, self.target) {
            (Model::Moore, Model::Mealy) => !output,
            (Model::Mealy, Model::Moore) => output,
            _ => false,
        }
    }
}

/// `name = expression`.
#[derive(Clone, Copy, Debug)]
pub struct Binding {
    pub name: TokenId,
    pub value: ExprId,
}

#[derive(Clone, Debug)]
pub struct Enumeration {
    pub name: TokenId,
    pub identifiers: Vec<Identifier>,
    /// The token after its line.
    pub end: TokenId,
}

/// An enumeration's identifier with the tokens of its words.
#[derive(Clone, Debug)]
pub struct Identifier {
    pub name: TokenId,
    pub words: Vec<TokenId>,
}

#[derive(Clone, Copy, Debug)]
pub struct Signal {
    pub name: TokenId,
    pub output: bool,
    pub shape: Shape,
}

#[derive(Clone, Copy, Debug, PartialEq, Eq)]
pub enum Shape {
    Single,
    Bus(ExprId),
    /// A bus declared by an enumeration; the token of the type's name.
    Enumerated(TokenId),
}

#[derive(Clone, Copy, Debug, PartialEq, Eq)]
pub enum SectionKind {
    Initially,
    Preset,
    Require,
    Assert,
    Assume,
    Guarantee,
}

#[derive(Clone, Debug)]
pub struct Section {
    pub kind: SectionKind,
    pub lines: Vec<ExprId>,
}

/// The parsed text.
#[derive(Clone, Debug)]
pub struct Syntax<'t> {
    pub text: &'t [u8],
    pub tokens: Vec<Token>,
    pub exprs: Vec<Expr>,
    pub binder_count: usize,
    pub info: Info,
    pub parameters: Vec<Binding>,
    pub definitions: Vec<Binding>,
    pub enumerations: Vec<Enumeration>,
    /// In signal order: inputs first.
    pub signals: Vec<Signal>,
    /// In text order.
    pub sections: Vec<Section>,
    /// N2: the whole expressions of parameters, definitions, widths and lines, in text order.
    pub outermost: Vec<ExprId>,
}

impl Syntax<'_> {
    pub fn bytes(&self, token: TokenId) -> &[u8] {
        let token = &self.tokens[token];
        &self.text[token.start..token.end]
    }

    /// 'a token's place is that of its first byte'.
    pub fn place(&self, token: TokenId) -> usize {
        self.tokens[token].start
    }

    /// The place of an expression: that of its first token.
    pub fn expr_place(&self, expr: ExprId) -> usize {
        self.place(self.exprs[expr].first)
    }

    pub fn refusal<T>(&self, number: u32, token: TokenId) -> Result<T, Refusal> {
        Err(Refusal::new(number, self.place(token)))
    }

    /// The expression without the parentheses around it.
    pub fn inside_parentheses(&self, mut expr: ExprId) -> ExprId {
        while let Form::Parenthesis(inner) = self.exprs[expr].form {
            expr = inner;
        }
        expr
    }

    // 01: 'expression trees 256 levels'; refusal 5 at the outermost expression's first token.
    pub fn check_levels(&self) -> Result<(), Refusal> {
        let too_deep = self
            .outermost
            .iter()
            .filter(|expr| self.exprs[**expr].levels > crate::limits::TREE_LEVELS)
            .map(|expr| self.expr_place(*expr));
        Refusal::at_first(5, too_deep)
    }
}
