//! Document 01: 'A node is 32 bits, most significant first: 4 kind, 14 first operand, 14 second'.

/// A node's 32 bits.
#[derive(Clone, Copy, Debug, PartialEq, Eq)]
pub struct Node(pub u32);

impl Node {
    pub const TRUE: u32 = 0;
    pub const FALSE: u32 = 1;
    pub const SIGNAL: u32 = 2;
    pub const NOT: u32 = 3;
    pub const AND: u32 = 4;
    pub const OR: u32 = 5;
    pub const IMPLIES: u32 = 6;
    pub const EQUIVALENT: u32 = 7;
    pub const NEXT: u32 = 8;
    pub const GLOBALLY: u32 = 9;
    pub const FINALLY: u32 = 10;
    pub const UNTIL: u32 = 11;
    pub const RELEASE: u32 = 12;
    pub const WEAK_UNTIL: u32 = 13;

    pub fn pack(kind: u32, first: usize, second: usize) -> Node {
        assert!(kind < 16 && first < 1 << 14 && second < 1 << 14);
        Node(kind << 28 | (first as u32) << 14 | second as u32)
    }

    pub fn kind(self) -> u32 {
        self.0 >> 28
    }

    pub fn first(self) -> usize {
        (self.0 >> 14 & 0x3fff) as usize
    }

    pub fn second(self) -> usize {
        (self.0 & 0x3fff) as usize
    }

    /// The operands of a node of this kind: none, one or two; none for kinds 14 and 15.
    pub fn arity(self) -> Option<usize> {
        match self.kind() {
            Node::TRUE | Node::FALSE | Node::SIGNAL => Some(0),
            Node::NOT | Node::NEXT | Node::GLOBALLY | Node::FINALLY => Some(1),
            kind if kind <= Node::WEAK_UNTIL => Some(2),
            _ => None,
        }
    }
}
