//! Tables of nodes, sound and damaged.

use super::prng::Prng;
use crate::limits;
use crate::node::Node;

/// A table with a few nodes, often shared; one in some is damaged, and a few are large.
pub fn table(rng: &mut Prng, signals: usize) -> Vec<u32> {
    let mut nodes = match rng.below(40) {
        0 => large(rng, signals),
        1 => doubling(rng),
        _ => {
            let count = rng.between(1, 14);
            sound(rng, count, signals)
        }
    };
    if rng.one_in(4) {
        damage(rng, &mut nodes);
    }
    nodes
}

/// Some sound nodes; the operands are mostly near.
pub fn sound(rng: &mut Prng, count: usize, signals: usize) -> Vec<u32> {
    let mut nodes = Vec::new();
    while nodes.len() < count {
        let node = sound_node(rng, nodes.len(), signals);
        nodes.push(node.0);
    }
    nodes
}

fn sound_node(rng: &mut Prng, number: usize, signals: usize) -> Node {
    let leaf = number == 0 || rng.one_in(4);
    let kind = if leaf {
        *rng.pick(&[Node::SIGNAL, Node::SIGNAL, Node::TRUE, Node::FALSE])
    } else {
        rng.between(3, 13) as u32
    };
    match Node(kind << 28).arity() {
        Some(0) if kind == Node::SIGNAL && signals > 0 => Node::pack(kind, rng.below(signals), 0),
        Some(0) => Node::pack(kind.min(1), 0, 0),
        Some(1) => Node::pack(kind, near(rng, number), 0),
        _ => Node::pack(kind, near(rng, number), near(rng, number)),
    }
}

fn near(rng: &mut Prng, number: usize) -> usize {
    let back = rng.between(1, 3).min(number);
    if rng.one_in(5) {
        rng.below(number)
    } else {
        number - back
    }
}

/// A chain of one operand each, near or at the limit of nodes.
fn large(rng: &mut Prng, signals: usize) -> Vec<u32> {
    let count = rng.between(limits::NODES - 3, limits::NODES + 1);
    let mut nodes = vec![sound_node(rng, 0, signals).0];
    while nodes.len() < count {
        let kind = *rng.pick(&[Node::NOT, Node::NEXT, Node::GLOBALLY, Node::FINALLY]);
        let below = (nodes.len() - 1).min(limits::NODES - 1);
        nodes.push(Node::pack(kind, below, 0).0);
    }
    nodes
}

/// Each node joins the one before with itself.
fn doubling(rng: &mut Prng) -> Vec<u32> {
    let mut nodes = vec![Node::pack(Node::SIGNAL, 0, 0).0];
    for below in 0..rng.between(9, 20) {
        let kind = rng.between(4, 7) as u32;
        nodes.push(Node::pack(kind, below, below).0);
    }
    nodes
}

/// Breaks one node, or takes all nodes away.
fn damage(rng: &mut Prng, nodes: &mut Vec<u32>) {
    let at = rng.below(nodes.len());
    let node = Node(nodes[at]);
    match rng.below(7) {
        0 => nodes.clear(),
        1 => nodes[at] = (rng.between(14, 15) as u32) << 28 | nodes[at] & 0x0fff_ffff,
        2 => nodes[at] ^= 1 << rng.below(32),
        3 => nodes[at] = Node::pack(node.kind(), at.min(0x3fff), node.second()).0,
        4 => nodes[at] = Node::pack(node.kind(), node.first(), at.min(0x3fff)).0,
        5 => nodes[at] = Node::pack(node.kind(), node.first(), 1).0,
        _ => nodes[at] = rng.draw() as u32,
    }
}
