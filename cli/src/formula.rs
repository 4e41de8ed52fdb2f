//! What the library makes of a text.

use tlsf::{Answer, Fault};

/// An accepted text's nodes and signal list.
#[derive(Clone, Debug, PartialEq, Eq)]
pub struct Formula {
    pub nodes: Vec<u32>,
    pub signals: Vec<u32>,
}

/// A refusal: its number in docs/REFUSALS.md, and its place.
#[derive(Clone, Copy, Debug, PartialEq, Eq)]
pub struct Refusal {
    pub number: u32,
    pub place: usize,
}

/// All the room that the limits allow, lent to one call after the other.
pub struct Room {
    work: Vec<u8>,
    nodes: Vec<u32>,
    signals: Vec<u32>,
}

impl Room {
    pub fn new() -> Room {
        Room {
            work: vec![0; tlsf::WORK_BYTES],
            nodes: vec![0; tlsf::MOST_NODES],
            signals: vec![0; tlsf::MOST_SIGNALS],
        }
    }

    /// A text's nodes in a form, and its signal list.
    pub fn convert(&mut self, text: &[u8], form: u32) -> Result<(&[u32], &[u32]), Refusal> {
        match tlsf::convert(text, form, &mut self.work, &mut self.nodes, &mut self.signals) {
            Answer::Accepted { nodes, signals } => Ok((&self.nodes[..nodes], &self.signals[..signals])),
            Answer::Refused { number, place } => Err(Refusal { number, place }),
        }
    }

    /// The line that fails, as the library names it; nothing if the text holds on the recording, or one of the two is refused.
    pub fn diagnose(&mut self, text: &[u8], recording: &[u8]) -> Option<Fault> {
        let mut rows = vec![0; tlsf::MOST_NODES * tlsf::row_bytes(crate::recording::positions(recording))];
        tlsf::diagnose(text, recording, &mut self.work, &mut rows).result().ok().flatten()
    }

    /// The refusal of a text, if it is refused.
    pub fn answer(&mut self, text: &[u8]) -> Option<Refusal> {
        match tlsf::read(text, &mut self.work, &mut self.nodes, &mut self.signals) {
            Answer::Accepted { .. } => None,
            Answer::Refused { number, place } => Some(Refusal { number, place }),
        }
    }
}

/// The rows of all nodes over a recording.
pub fn evaluate(nodes: &[u32], signals: usize, recording: &[u8]) -> Result<Rows, Refusal> {
    let positions = crate::recording::positions(recording);
    let row_bytes = positions.div_ceil(8);
    let mut bytes = vec![0; nodes.len() * row_bytes];
    let signals = u32::try_from(signals).unwrap_or(u32::MAX);
    match tlsf::evaluate(nodes, signals, recording, &mut bytes) {
        Answer::Accepted { .. } => Ok(Rows {
            bytes,
            row_bytes,
            positions,
        }),
        Answer::Refused { number, place } => Err(Refusal { number, place }),
    }
}

/// A row of bits for every node.
pub struct Rows {
    bytes: Vec<u8>,
    row_bytes: usize,
    pub positions: usize,
}

impl Rows {
    pub fn holds(&self, node: usize, position: usize) -> bool {
        let byte = self.bytes.get(node * self.row_bytes + position / 8).copied().unwrap_or(0);
        byte & (0x80 >> (position % 8)) != 0
    }

    pub fn row(&self, node: usize) -> Vec<bool> {
        (0..self.positions).map(|position| self.holds(node, position)).collect()
    }
}
