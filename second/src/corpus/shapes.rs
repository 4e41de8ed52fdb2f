//! The ways in which expressions nest.

/// What an expression is, and so what a nest of it starts from and where it is used.
#[derive(Clone, Copy, Debug, PartialEq, Eq)]
pub enum Sort {
    Formula,
    Number,
    Set,
}

impl Sort {
    /// The innermost operand: a signal, a numeral, or the definition s, which is {1}.
    pub fn leaf(self) -> &'static str {
        match self {
            Sort::Formula => "a",
            Sort::Number => "1",
            Sort::Set => "s",
        }
    }

    /// A line that uses the expression.
    pub fn line(self, expression: &str) -> String {
        match self {
            Sort::Formula => expression.to_string(),
            Sort::Number => format!("{expression}==1"),
            Sort::Set => format!("1 IN {expression}"),
        }
    }
}

/// One way to nest: what stands before and after the operand, `#` being a number of its own at each
/// depth, and how many levels of the tree it makes.
#[derive(Clone, Copy, Debug)]
pub struct Shape {
    pub name: &'static str,
    pub sort: Sort,
    before: &'static str,
    after: &'static str,
    pub levels: usize,
}

const fn shape(
    sort: Sort,
    name: &'static str,
    before: &'static str,
    after: &'static str,
    levels: usize,
) -> Shape {
    Shape {
        name,
        sort,
        before,
        after,
        levels,
    }
}

pub const SHAPES: [Shape; 36] = [
    shape(Sort::Formula, "negations", "!", "", 1),
    shape(Sort::Formula, "X", "X ", "", 1),
    shape(Sort::Formula, "G", "G ", "", 1),
    shape(Sort::Formula, "formulas in parentheses", "(", ")", 1),
    shape(Sort::Formula, "X[1]", "X[1]", "", 1),
    shape(Sort::Formula, "F[0:0]", "F[0:0]", "", 1),
    shape(Sort::Formula, "conjunctions", "", "&&a", 1),
    shape(Sort::Formula, "disjunctions", "", "||a", 1),
    shape(Sort::Formula, "implications", "a->", "", 1),
    shape(Sort::Formula, "equivalences", "a<->", "", 1),
    shape(Sort::Formula, "U", "a U ", "", 1),
    shape(Sort::Formula, "W", "a W ", "", 1),
    shape(Sort::Formula, "R", "", " R a", 1),
    shape(Sort::Formula, "big conjunctions", "&&[i# IN s]", "", 1),
    shape(Sort::Formula, "big disjunctions", "||[0<i#<2]", "", 1),
    shape(Sort::Number, "numbers in parentheses", "(", ")", 1),
    shape(Sort::Number, "divisions", "1/", "", 1),
    shape(Sort::Number, "products", "", "*1", 1),
    shape(Sort::Number, "sums", "", "+0", 1),
    shape(Sort::Number, "differences", "", "-0", 1),
    shape(Sort::Number, "MIN {", "MIN{", "}", 2),
    shape(Sort::Number, "MAX {", "MAX{", "}", 2),
    shape(Sort::Number, "SIZE {", "SIZE{", "}", 2),
    shape(Sort::Number, "bars", "|{", "}|", 2),
    shape(Sort::Number, "big sums", "+[i# IN s]", "", 1),
    shape(Sort::Number, "big products", "*[0<i#<2]", "", 1),
    shape(Sort::Number, "sets of big sums", "+[i# IN{", "}]i#", 2),
    shape(Sort::Number, "bounds of big sums", "+[0<i#<=", "]i#", 1),
    shape(Sort::Set, "sets in parentheses", "(", ")", 1),
    shape(Sort::Set, "unions", "", "(+)s", 1),
    shape(Sort::Set, "intersections", "", "(*)s", 1),
    shape(Sort::Set, "set differences", "s(\\)", "", 1),
    shape(Sort::Set, "sets of sizes", "{SIZE ", "}", 2),
    shape(Sort::Set, "ranges", "{MIN ", ",2..1}", 2),
    shape(Sort::Set, "big unions", "(+)[i# IN s]", "", 1),
    shape(Sort::Set, "big intersections", "(*)[i# IN s]", "", 1),
];

/// The definition of t, the set of all numbers below 256.
pub const FULL: &str = "t={0,1..255};";

/// Left operands that are sets of 256 elements, each worked out and held while the right one is: in
/// parentheses, and as many as tokens allow.
pub const HELD: [Shape; 2] = [
    shape(Sort::Set, "held sets in parentheses", "(t(*)t)(+)(", ")", 2),
    shape(Sort::Set, "held sets", "t(*)t(+)(", ")", 2),
];

impl Shape {
    /// The innermost operand under so many of the shape.
    pub fn nest(&self, depth: usize, innermost: &str) -> String {
        let numbered = |part: &str, number: usize| part.replace('#', &number.to_string());
        let before: String = (0..depth).map(|i| numbered(self.before, i)).collect();
        let after: String = (0..depth).rev().map(|i| numbered(self.after, i)).collect();
        format!("{before}{innermost}{after}")
    }
}
