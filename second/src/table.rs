//! Tables of nodes: refusal 19.

use crate::answer::Refusal;
use crate::limits;
use crate::node::Node;

/// Refusal 19: no nodes, more than 8,192, or the lowest node against the format (R1). Where a
/// signal count is given, a signal number not below it is against the format too.
pub fn check(nodes: &[u32], signals: Option<usize>) -> Result<(), Refusal> {
    if nodes.is_empty() {
        return Err(Refusal::new(19, 0));
    }
    if nodes.len() > limits::NODES {
        return Err(Refusal::new(19, limits::NODES));
    }
    let wrong = (0..nodes.len()).find(|number| !fits(Node(nodes[*number]), *number, signals));
    Refusal::at_first(19, wrong)
}

// 01: 'unused fields 0', 'Operands have smaller numbers'.
fn fits(node: Node, number: usize, signals: Option<usize>) -> bool {
    let (first, second) = (node.first(), node.second());
    match node.arity() {
        None => false,
        Some(0) if node.kind() == Node::SIGNAL => {
            second == 0 && signals.is_none_or(|count| first < count)
        }
        Some(0) => first == 0 && second == 0,
        Some(1) => first < number && second == 0,
        Some(_) => first < number && second < number,
    }
}
