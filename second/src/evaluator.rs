//! The evaluator: where every node of a table holds on a recorded lasso word.

use crate::answer::{Answer, Refusal};
use crate::limits;
use crate::node::Node;
use crate::recording::{self, Lasso};
use crate::table;

/// What the evaluator answers, with the rows of all nodes one after the other.
#[derive(Clone, Debug, PartialEq, Eq)]
pub struct Evaluation {
    pub answer: Answer,
    pub rows: Vec<u8>,
    pub row_bytes: usize,
}

impl Evaluation {
    /// 01: 'The verdict is the root at position 0': the top bit of the last row.
    pub fn verdict(&self) -> bool {
        self.rows[self.rows.len() - self.row_bytes] & 0x80 != 0
    }
}

/// Fills one row of bits for every node, given room for some bytes.
pub fn evaluate(nodes: &[u32], signals: usize, recording: &[u8], room: usize) -> Evaluation {
    match evaluate_in_order(nodes, signals, recording, room) {
        // R3: the evaluator answers the counts it was given.
        Ok((rows, row_bytes)) => Evaluation {
            answer: Answer::Accepted {
                nodes: nodes.len(),
                signals,
            },
            rows,
            row_bytes,
        },
        Err(refusal) => Evaluation {
            answer: Answer::Refused(refusal),
            rows: Vec::new(),
            row_bytes: 0,
        },
    }
}

// 01: 'Evaluator: 15, 19, 20, 18'; 02, F-5: 23 'directly after 20'.
fn evaluate_in_order(
    nodes: &[u32],
    signals: usize,
    recording: &[u8],
    room: usize,
) -> Result<(Vec<u8>, usize), Refusal> {
    if signals > limits::SIGNALS {
        return Err(Refusal::new(15, 0));
    }
    table::check(nodes, Some(signals))?;
    let lasso = recording::parse(recording, signals)?;
    recording::check_full(recording, signals)?;
    let row_bytes = lasso.positions().div_ceil(8);
    if nodes.len() * row_bytes > room {
        return Err(Refusal::new(18, 0));
    }
    let rows = rows(nodes, &lasso);
    let packed = rows.into_iter().flat_map(recording::pack_bits).collect();
    Ok((packed, row_bytes))
}

/// Where a formula holds: one bit per position.
pub type Row = Vec<bool>;

/// The rows of all nodes of a checked table.
pub fn rows(nodes: &[u32], lasso: &Lasso) -> Vec<Row> {
    let mut rows: Vec<Row> = Vec::with_capacity(nodes.len());
    for bits in nodes {
        let row = row(Node(*bits), &rows, lasso);
        rows.push(row);
    }
    rows
}

// Appendix A.1.
fn row(node: Node, rows: &[Row], lasso: &Lasso) -> Row {
    let positions = 0..lasso.positions();
    let a = |p: usize| rows[node.first()][p];
    let b = |p: usize| rows[node.second()][p];
    match node.kind() {
        Node::TRUE => positions.map(|_| true).collect(),
        Node::FALSE => positions.map(|_| false).collect(),
        Node::SIGNAL => positions.map(|p| lasso.present(p, node.first())).collect(),
        Node::NOT => positions.map(|p| !a(p)).collect(),
        Node::AND => positions.map(|p| a(p) && b(p)).collect(),
        Node::OR => positions.map(|p| a(p) || b(p)).collect(),
        Node::IMPLIES => positions.map(|p| !a(p) || b(p)).collect(),
        Node::EQUIVALENT => positions.map(|p| a(p) == b(p)).collect(),
        Node::NEXT => positions.map(|p| a(lasso.after(p))).collect(),
        Node::GLOBALLY => fixpoint(lasso, true, |p, later| a(p) && later),
        Node::FINALLY => fixpoint(lasso, false, |p, later| a(p) || later),
        Node::UNTIL => fixpoint(lasso, false, |p, later| b(p) || a(p) && later),
        Node::RELEASE => fixpoint(lasso, true, |p, later| b(p) && (a(p) || later)),
        Node::WEAK_UNTIL => fixpoint(lasso, true, |p, later| b(p) || a(p) && later),
        kind => unreachable!("the table was checked: {kind}"),
    }
}

/// The least (from false) or greatest (from true) row such that each position follows from the
/// one after it. Two rounds backwards suffice: the first settles the loop's start.
fn fixpoint(lasso: &Lasso, start: bool, step: impl Fn(usize, bool) -> bool) -> Row {
    let mut row = vec![start; lasso.positions()];
    for _ in 0..2 {
        for position in (0..lasso.positions()).rev() {
            row[position] = step(position, row[lasso.after(position)]);
        }
    }
    row
}
