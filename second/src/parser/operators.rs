//! The operators of Table 1 with their levels and alternative names.

use crate::syntax::{Big, Binary, Measure, Unary};

/// The levels of Table 1.
pub(super) type Level = u32;
pub(super) const ANY_LEVEL: Level = 17;
/// G5: bounds are of level 8 at most.
pub(super) const BOUND_LEVEL: Level = 8;

/// A sign or word that may stand before its operand.
pub(super) enum Prefix {
    Measure(Measure),
    SizeOf,
    Unary(Unary),
    Big(Big),
}

/// A binary operator of Table 1.
pub(super) struct Infix {
    pub(super) binary: Binary,
    pub(super) level: Level,
    pub(super) left_to_right: bool,
}

// Table 1, levels 1, 5 and 11. G8: big operators only under the names printed with brackets.
pub(super) fn prefix_operator(sign: &str) -> Option<(Prefix, Level)> {
    Some(match sign {
        "+" | "SUM" => (Prefix::Big(Big::Sum), 1),
        "*" | "PROD" => (Prefix::Big(Big::Product), 1),
        "SIZE" => (Prefix::Measure(Measure::Size), 1),
        "MIN" => (Prefix::Measure(Measure::Min), 1),
        "MAX" => (Prefix::Measure(Measure::Max), 1),
        "SIZEOF" => (Prefix::SizeOf, 1),
        "(*)" | "CAP" => (Prefix::Big(Big::Intersection), 5),
        "(+)" | "CUP" => (Prefix::Big(Big::Union), 5),
        "!" | "NOT" => (Prefix::Unary(Unary::Not), 11),
        "X" => (Prefix::Unary(Unary::Next), 11),
        "F" => (Prefix::Unary(Unary::Finally), 11),
        "G" => (Prefix::Unary(Unary::Globally), 11),
        "&&" | "AND" | "FORALL" => (Prefix::Big(Big::And), 11),
        "||" | "OR" | "EXISTS" => (Prefix::Big(Big::Or), 11),
        _ => return None,
    })
}

// Table 1, the binary operators with their alternative names.
pub(super) fn infix_operator(sign: &str) -> Option<Infix> {
    let (binary, level, left_to_right) = match sign {
        "*" | "MUL" => (Binary::Multiply, 2, true),
        "/" | "DIV" => (Binary::Divide, 3, false),
        "%" | "MOD" => (Binary::Modulo, 3, false),
        "+" | "PLUS" => (Binary::Add, 4, true),
        "-" | "MINUS" => (Binary::Subtract, 4, true),
        "(\\)" | "(-)" | "SETMINUS" => (Binary::Difference, 6, false),
        "(*)" | "CAP" => (Binary::Intersection, 7, true),
        "(+)" | "CUP" => (Binary::Union, 8, true),
        "==" | "EQ" => (Binary::Equal, 9, true),
        "!=" | "/=" | "NEQ" => (Binary::Unequal, 9, true),
        "<" | "LE" => (Binary::Smaller, 9, true),
        "<=" | "LEQ" => (Binary::SmallerOrEqual, 9, true),
        ">" | "GE" => (Binary::Greater, 9, true),
        ">=" | "GEG" | "GEQ" => (Binary::GreaterOrEqual, 9, true),
        "IN" | "ELEM" | "<-" => (Binary::Member, 10, true),
        "&&" | "AND" => (Binary::And, 12, true),
        "||" | "OR" => (Binary::Or, 13, true),
        "->" | "IMPLIES" => (Binary::Implies, 14, false),
        "<->" | "EQUIV" => (Binary::Equivalent, 14, false),
        "W" => (Binary::WeakUntil, 15, false),
        "U" => (Binary::Until, 16, false),
        "R" => (Binary::Release, 17, true),
        _ => return None,
    };
    Some(Infix {
        binary,
        level,
        left_to_right,
    })
}
