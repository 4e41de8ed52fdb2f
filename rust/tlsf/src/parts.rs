//! Results taken apart: nodes, entries of the signal list, rows of bits.

/// A node. An operand is a node's number, lower than the node's own.
#[derive(Clone, Copy, Debug, PartialEq, Eq)]
pub enum Node {
    /// `true`
    True,
    /// `false`
    False,
    /// The signal of this number in the signal list.
    Signal(usize),
    /// `!a`
    Not(usize),
    /// `a && b`
    And(usize, usize),
    /// `a || b`
    Or(usize, usize),
    /// `a -> b`
    Implies(usize, usize),
    /// `a <-> b`
    Iff(usize, usize),
    /// `X a`
    Next(usize),
    /// `G a`
    Globally(usize),
    /// `F a`
    Finally(usize),
    /// `a U b`
    Until(usize, usize),
    /// `a R b`
    Release(usize, usize),
    /// `a W b`
    WeakUntil(usize, usize),
}

impl Node {
    /// The node in a word of 4 bits kind, 14 first operand and 14 second; none for kinds 14 and 15, which no accepted table has.
    pub fn of(word: u32) -> Option<Node> {
        let first = (word >> 14 & 0x3fff) as usize;
        let second = (word & 0x3fff) as usize;
        Some(match word >> 28 {
            0 => Node::True,
            1 => Node::False,
            2 => Node::Signal(first),
            3 => Node::Not(first),
            4 => Node::And(first, second),
            5 => Node::Or(first, second),
            6 => Node::Implies(first, second),
            7 => Node::Iff(first, second),
            8 => Node::Next(first),
            9 => Node::Globally(first),
            10 => Node::Finally(first),
            11 => Node::Until(first, second),
            12 => Node::Release(first, second),
            13 => Node::WeakUntil(first, second),
            _ => return None,
        })
    }
}

/// An entry of the signal list: a single signal, or a bit of a bus.
#[derive(Clone, Copy, Debug, PartialEq, Eq)]
pub struct Signal {
    /// An output, or else an input.
    pub output: bool,
    /// Where its name stands in the text.
    pub offset: usize,
    /// Its index in the bus, 0 for a single signal.
    pub index: usize,
    /// The width of the bus, 0 for a single signal.
    pub width: usize,
}

impl Signal {
    /// The signal in an entry of 1 bit output flag, 15 offset, 8 index and 8 width.
    pub fn of(entry: u32) -> Signal {
        Signal {
            output: entry >> 31 == 1,
            offset: (entry >> 16 & 0x7fff) as usize,
            index: (entry >> 8 & 0xff) as usize,
            width: (entry & 0xff) as usize,
        }
    }

    /// Its name, of the text that it was read from: letters, digits, `_`, `@` and `'`.
    pub fn name<'a>(&self, text: &'a [u8]) -> &'a [u8] {
        let rest = text.get(self.offset..).unwrap_or_default();
        let is_name = |byte: &u8| byte.is_ascii_alphanumeric() || b"_@'".contains(byte);
        &rest[..rest.iter().position(|byte| !is_name(byte)).unwrap_or(rest.len())]
    }
}

/// The positions that a recording's header tells; none of a recording under 2 bytes.
pub fn positions(recording: &[u8]) -> usize {
    match recording {
        [high, low, ..] => usize::from(*high) << 4 | usize::from(*low) >> 4,
        _ => 0,
    }
}

/// The bytes of one row over so many positions.
pub fn row_bytes(positions: usize) -> usize {
    positions.div_ceil(8)
}

/// Does a node hold at a position? Of the rows that an accepted [`evaluate`](crate::evaluate) has filled, over so many positions.
///
/// # Panics
/// Where the rows have no such bit.
pub fn holds_at(rows: &[u8], positions: usize, node: usize, position: usize) -> bool {
    rows[row_bytes(positions) * node + position / 8] >> (7 - position % 8) & 1 == 1
}
