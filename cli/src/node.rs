//! A node's fields: 4 bits kind, 14 first operand, 14 second.

pub const TRUE: u32 = 0;
pub const FALSE: u32 = 1;
pub const SIGNAL: u32 = 2;
pub const NOT: u32 = 3;
pub const AND: u32 = 4;
pub const OR: u32 = 5;
pub const IMPLIES: u32 = 6;
pub const EQUIVALENT: u32 = 7;
pub const NEXT: u32 = 8;
pub const GLOBALLY: u32 = 9;
pub const FINALLY: u32 = 10;
pub const UNTIL: u32 = 11;
pub const RELEASE: u32 = 12;
pub const WEAK_UNTIL: u32 = 13;

/// Document 01's name of each kind.
pub const NAMES: [&str; 14] = [
    "true", "false", "signal", "!", "&&", "||", "->", "<->", "X", "G", "F", "U", "R", "W",
];

pub fn kind(node: u32) -> u32 {
    node >> 28
}

pub fn first(node: u32) -> usize {
    (node >> 14 & 0x3fff) as usize
}

pub fn second(node: u32) -> usize {
    (node & 0x3fff) as usize
}

pub fn name(node: u32) -> &'static str {
    NAMES.get(kind(node) as usize).copied().unwrap_or("?")
}

pub fn is_unary(node: u32) -> bool {
    matches!(kind(node), NOT | NEXT | GLOBALLY | FINALLY)
}

pub fn is_binary(node: u32) -> bool {
    matches!(kind(node), AND..=EQUIVALENT | UNTIL..=WEAK_UNTIL)
}

pub fn signal(number: usize) -> u32 {
    SIGNAL << 28 | (number as u32) << 14
}
