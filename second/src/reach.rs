//! How far ahead a formula looks (02, F-3): how many letters after the first decide the root's verdict.

use crate::answer::Refusal;
use crate::node::Node;
use crate::table;

/// What lies below a node, itself included.
#[derive(Clone, Copy, Debug, PartialEq, Eq)]
struct Below {
    has_signal: bool,
    /// None stands for unbounded.
    reach: Option<usize>,
}

/// The reach of the table's root, none if it is unbounded; otherwise 19 as the rewriter gives it (F3.4).
pub fn reach(nodes: &[u32]) -> Result<Option<usize>, Refusal> {
    table::check(nodes, None)?;
    let mut known: Vec<Below> = Vec::with_capacity(nodes.len());
    for bits in nodes {
        let node = Node(*bits);
        let operands: Vec<Below> = match node.arity() {
            Some(1) => vec![known[node.first()]],
            Some(2) => vec![known[node.first()], known[node.second()]],
            _ => Vec::new(),
        };
        known.push(below(node.kind(), &operands));
    }
    let root = known.last().expect("a checked table has a root");
    Ok(root.reach)
}

fn below(kind: u32, operands: &[Below]) -> Below {
    let has_signal = kind == Node::SIGNAL || operands.iter().any(|operand| operand.has_signal);
    let reach = match kind {
        // 02: '0 for a node with no signal below it', of any kind (F3.1), 'and for a signal'.
        _ if !has_signal => Some(0),
        Node::SIGNAL => Some(0),
        // 02: '1 more than its operand for X'.
        Node::NEXT => operands[0].reach.map(|reach| reach + 1),
        // 02: 'unbounded for G, F, U, R or W above a signal'.
        Node::GLOBALLY | Node::FINALLY | Node::UNTIL | Node::RELEASE | Node::WEAK_UNTIL => None,
        // 02: 'the greater operand for the Boolean kinds'; unbounded is greater than every number (F3.2).
        _ => greatest(operands),
    };
    Below { has_signal, reach }
}

fn greatest(operands: &[Below]) -> Option<usize> {
    operands
        .iter()
        .map(|operand| operand.reach)
        .try_fold(0, |greatest, reach| Some(reach?.max(greatest)))
}
