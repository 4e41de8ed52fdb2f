//! Formulas while they are built: a count that cannot overflow, and a tree that shares its
//! parts as long as the count is within the limit.

use crate::limits;
use crate::node::Node;
use std::rc::Rc;

/// A formula with its defined count of nodes (saturating), and its tree unless that count is
/// beyond the limit. Every formula that is worked out is part of the result, so a tree without
/// room in the limit is never asked for.
#[derive(Clone, Debug)]
pub struct Formula {
    count: u64,
    tree: Option<Rc<Tree>>,
}

#[derive(Debug)]
struct Tree {
    kind: u32,
    signal: usize,
    operands: Vec<Rc<Tree>>,
}

impl Formula {
    fn leaf(kind: u32, signal: usize) -> Formula {
        Formula {
            count: 1,
            tree: Some(Rc::new(Tree {
                kind,
                signal,
                operands: Vec::new(),
            })),
        }
    }

    pub fn constant(value: bool) -> Formula {
        Formula::leaf(if value { Node::TRUE } else { Node::FALSE }, 0)
    }

    pub fn signal(number: usize) -> Formula {
        Formula::leaf(Node::SIGNAL, number)
    }

    pub fn unary(kind: u32, operand: &Formula) -> Formula {
        Formula::over(kind, &[operand])
    }

    pub fn binary(kind: u32, left: &Formula, right: &Formula) -> Formula {
        Formula::over(kind, &[left, right])
    }

    fn over(kind: u32, operands: &[&Formula]) -> Formula {
        let below = operands.iter().map(|operand| operand.count);
        let count = below.fold(1, u64::saturating_add);
        let trees: Option<Vec<Rc<Tree>>> = operands.iter().map(|o| o.tree.clone()).collect();
        let fits = count <= limits::NODES as u64;
        let tree = trees.filter(|_| fits).map(|operands| {
            Rc::new(Tree {
                kind,
                signal: 0,
                operands,
            })
        });
        Formula { count, tree }
    }

    /// 01: '`X[n]` is n X nodes'.
    pub fn next_by(steps: u32, operand: &Formula) -> Formula {
        let count = operand.count.saturating_add(u64::from(steps));
        if count > limits::NODES as u64 {
            return Formula { count, tree: None };
        }
        let stack = (0..steps).fold(operand.clone(), |below, _| {
            Formula::unary(Node::NEXT, &below)
        });
        debug_assert_eq!(stack.count, count, "the count is the defined one");
        stack
    }

    /// 01: '`F[n:m] a` is n X over `a || X(a || ..)`, `G[n:m]` with `&&`'; the joining kind.
    pub fn window(join: u32, from: u32, to: u32, operand: &Formula) -> Formula {
        let more = u64::from(to - from);
        let copies = operand.count.saturating_mul(more + 1);
        let count = copies.saturating_add(2 * more + u64::from(from));
        if count > limits::NODES as u64 {
            return Formula { count, tree: None };
        }
        let chain = (0..more).fold(operand.clone(), |below, _| {
            Formula::binary(join, operand, &Formula::unary(Node::NEXT, &below))
        });
        let window = Formula::next_by(from, &chain);
        debug_assert_eq!(window.count, count, "the count is the defined one");
        window
    }

    /// Folded to the left; nothing gives the constant.
    pub fn fold(kind: u32, formulas: impl IntoIterator<Item = Formula>, nothing: bool) -> Formula {
        formulas
            .into_iter()
            .reduce(|left, right| Formula::binary(kind, &left, &right))
            .unwrap_or_else(|| Formula::constant(nothing))
    }

    /// The defined count of nodes, which saturates instead of wrapping.
    pub fn count(&self) -> u64 {
        self.count
    }

    /// 01: 'The reader's nodes stand in postorder, left first, nothing shared, nothing
    /// simplified'. None if there are more than the limit.
    pub fn nodes(&self) -> Option<Vec<u32>> {
        let tree = self.tree.as_ref()?;
        let mut nodes = Vec::new();
        write(tree, &mut nodes);
        debug_assert_eq!(nodes.len() as u64, self.count);
        Some(nodes)
    }
}

fn write(tree: &Tree, nodes: &mut Vec<u32>) -> usize {
    let mut fields = [tree.signal, 0];
    for (field, operand) in fields.iter_mut().zip(&tree.operands) {
        *field = write(operand, nodes);
    }
    nodes.push(Node::pack(tree.kind, fields[0], fields[1]).0);
    nodes.len() - 1
}
