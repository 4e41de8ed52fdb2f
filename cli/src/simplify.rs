//! Constants taken out of a formula: `true && a`, `true -> a`, `G true`. The proved library writes them as the format has them; this is for
//! solvers that would rather not read them, and is not proved.

use crate::node::*;

/// What a node has become: a constant, or a node of the new table.
#[derive(Clone, Copy)]
enum Part {
    Constant(bool),
    Node(usize),
}

/// A table whose root holds wherever the given one's does.
pub fn simplified(nodes: &[u32]) -> Vec<u32> {
    let mut table = Table::default();
    let mut parts: Vec<Part> = Vec::with_capacity(nodes.len());
    for &node in nodes {
        let of = |number: usize| parts.get(number).copied().unwrap_or(Part::Constant(true));
        let part = table.part(node, of(first(node)), of(second(node)));
        parts.push(part);
    }
    match parts.last() {
        Some(Part::Constant(value)) => vec![if *value { TRUE } else { FALSE } << 28],
        Some(Part::Node(root)) => table.tree(*root),
        None => Vec::new(),
    }
}

#[derive(Default)]
struct Table {
    nodes: Vec<u32>,
}

impl Table {
    fn push(&mut self, kind: u32, a: usize, b: usize) -> Part {
        self.nodes.push(kind << 28 | (a as u32) << 14 | b as u32);
        Part::Node(self.nodes.len() - 1)
    }

    fn part(&mut self, node: u32, a: Part, b: Part) -> Part {
        use Part::{Constant, Node};
        match (kind(node), a, b) {
            (TRUE, _, _) => Constant(true),
            (FALSE, _, _) => Constant(false),
            (SIGNAL, _, _) => self.push(SIGNAL, first(node), 0),
            (NOT, Constant(value), _) => Constant(!value),
            (NEXT | GLOBALLY | FINALLY, Constant(value), _) => Constant(value),
            (AND, Constant(true), other) | (AND, other, Constant(true)) => other,
            (AND, Constant(false), _) | (AND, _, Constant(false)) => Constant(false),
            (OR, Constant(false), other) | (OR, other, Constant(false)) => other,
            (OR, Constant(true), _) | (OR, _, Constant(true)) => Constant(true),
            (IMPLIES, Constant(true), other) => other,
            (IMPLIES, Constant(false), _) | (IMPLIES, _, Constant(true)) => Constant(true),
            (IMPLIES, Node(a), Constant(false)) => self.push(NOT, a, 0),
            (EQUIVALENT, Constant(one), Constant(other)) => Constant(one == other),
            (EQUIVALENT, Constant(true), other) | (EQUIVALENT, other, Constant(true)) => other,
            (EQUIVALENT, Constant(false), Node(a)) | (EQUIVALENT, Node(a), Constant(false)) => self.push(NOT, a, 0),
            (UNTIL | RELEASE, _, Constant(value)) => Constant(value),
            (UNTIL | WEAK_UNTIL, Constant(false), other) | (RELEASE, Constant(true), other) => other,
            (WEAK_UNTIL, Constant(true), _) | (WEAK_UNTIL, _, Constant(true)) => Constant(true),
            (kind, a, b) => {
                let (a, b) = (self.node(a), if is_binary(node) { self.node(b) } else { 0 });
                self.push(kind, a, b)
            }
        }
    }

    /// A constant that stays: `true U a`, `false R a` and `a W false` have no shorter form of the same kind.
    fn node(&mut self, part: Part) -> usize {
        match part {
            Part::Node(number) => number,
            Part::Constant(value) => {
                self.nodes.push(if value { TRUE } else { FALSE } << 28);
                self.nodes.len() - 1
            }
        }
    }

    /// What the root needs, in the order of the table.
    fn tree(&self, root: usize) -> Vec<u32> {
        let mut needed = vec![false; root + 1];
        needed[root] = true;
        for number in (0..=root).rev() {
            let node = self.nodes[number];
            if needed[number] && (is_unary(node) || is_binary(node)) {
                needed[first(node)] = true;
                needed[second(node)] |= is_binary(node);
            }
        }
        let mut numbers = vec![0; root + 1];
        let mut tree = Vec::new();
        for number in (0..=root).filter(|&number| needed[number]) {
            let node = self.nodes[number];
            let of = |used: bool, operand: usize| if used { numbers[operand] } else { operand };
            let (a, b) = (
                of(is_unary(node) || is_binary(node), first(node)),
                of(is_binary(node), second(node)),
            );
            numbers[number] = tree.len();
            tree.push(kind(node) << 28 | (a as u32) << 14 | b as u32);
        }
        tree
    }
}

#[cfg(test)]
mod tests {
    use super::*;
    use crate::formula;

    fn node(kind: u32, a: usize, b: usize) -> u32 {
        kind << 28 | (a as u32) << 14 | b as u32
    }

    /// Tables of all kinds by a small generator, with many constants.
    fn table(seed: &mut u64) -> Vec<u32> {
        let mut draw = |below: usize| {
            *seed = seed.wrapping_mul(6_364_136_223_846_793_005).wrapping_add(1_442_695_040_888_963_407);
            (*seed >> 33) as usize % below
        };
        let mut nodes = vec![node(TRUE, 0, 0), node(SIGNAL, 0, 0), node(SIGNAL, 1, 0), node(FALSE, 0, 0)];
        while nodes.len() < 24 {
            let kind = 3 + draw(11) as u32;
            let (a, b) = (draw(nodes.len()), draw(nodes.len()));
            nodes.push(node(kind, a, if matches!(kind, NOT | NEXT | GLOBALLY | FINALLY) { 0 } else { b }));
        }
        nodes
    }

    #[test]
    fn verdicts_stay() {
        let mut seed = 26;
        let mut smaller = 0;
        for case in 0..4_000_u32 {
            let nodes = table(&mut seed);
            let simple = simplified(&nodes);
            let recording = [0x00, 0x40, (case % 4) as u8, 0x02, (seed >> 40) as u8];
            let holds = |nodes: &[u32]| {
                formula::evaluate(nodes, 2, &recording)
                    .map(|rows| rows.row(nodes.len() - 1))
                    .expect("rows")
            };
            assert_eq!(holds(&simple), holds(&nodes), "{nodes:x?}");
            smaller += usize::from(simple.len() < nodes.len());
        }
        assert!(smaller > 3_000);
    }

    #[test]
    fn the_empty_frame_goes() {
        let frame = [
            node(TRUE, 0, 0),
            node(TRUE, 0, 0),
            node(TRUE, 0, 0),
            node(GLOBALLY, 2, 0),
            node(SIGNAL, 0, 0),
            node(AND, 3, 4),
            node(AND, 1, 5),
            node(IMPLIES, 0, 6),
        ];
        assert_eq!(simplified(&frame), [node(SIGNAL, 0, 0)]);
        assert_eq!(simplified(&frame[..4]), [node(TRUE, 0, 0)]);
    }
}
