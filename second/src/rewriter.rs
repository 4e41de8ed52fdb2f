//! The rewriter: form 0 as expanded, form 1 negation form, form 2 core form.

use crate::answer::{Answer, Refusal};
use crate::limits;
use crate::node::Node;
use crate::stack;
use crate::table;

/// What the rewriter answers, with the nodes of an accepted table's form.
#[derive(Clone, Debug, PartialEq, Eq)]
pub struct Rewriting {
    pub answer: Answer,
    pub nodes: Vec<u32>,
}

/// Writes the root's tree in the form asked for, as a postorder tree.
pub fn rewrite(nodes: &[u32], form: u32, room: usize) -> Rewriting {
    match stack::deep(|| rewrite_in_order(nodes, form, room)) {
        // R3: the rewriter is told no signals.
        Ok(nodes) => Rewriting {
            answer: Answer::Accepted {
                nodes: nodes.len(),
                signals: 0,
            },
            nodes,
        },
        Err(refusal) => Rewriting {
            answer: Answer::Refused(refusal),
            nodes: Vec::new(),
        },
    }
}

// 01: 'Rewriter: 21, 19, 16, 18'.
fn rewrite_in_order(nodes: &[u32], form: u32, room: usize) -> Result<Vec<u32>, Refusal> {
    let shape = shape_of(form)?;
    // R1: no signal count is given.
    table::check(nodes, None)?;
    let count = count(nodes, shape);
    if count > limits::NODES as u64 {
        return Err(Refusal::new(16, 0));
    }
    if count > room as u64 {
        return Err(Refusal::new(18, 0));
    }
    let mut writer = Writer {
        nodes,
        shape,
        written: Vec::new(),
    };
    writer.part(Part::Of(nodes.len() - 1, false));
    Ok(writer.written)
}

/// What a form makes of a node: a small tree over the forms of its operands.
type Shape = fn(Node, bool) -> Part;

/// A piece of a form's output.
#[derive(Clone, Debug)]
enum Part {
    /// The form of a node, or of its negation.
    Of(usize, bool),
    Constant(u32),
    Signal(usize),
    Unary(u32, Box<Part>),
    Binary(u32, Box<Part>, Box<Part>),
}

fn shape_of(form: u32) -> Result<Shape, Refusal> {
    match form {
        0 => Ok(expanded),
        1 => Ok(negation_form),
        2 => Ok(core_form),
        _ => Err(Refusal::new(21, 0)),
    }
}

fn unary(kind: u32, operand: Part) -> Part {
    Part::Unary(kind, Box::new(operand))
}

fn binary(kind: u32, left: Part, right: Part) -> Part {
    Part::Binary(kind, Box::new(left), Box::new(right))
}

fn and(left: Part, right: Part) -> Part {
    binary(Node::AND, left, right)
}

fn or(left: Part, right: Part) -> Part {
    binary(Node::OR, left, right)
}

fn not(operand: Part) -> Part {
    unary(Node::NOT, operand)
}

fn until(left: Part, right: Part) -> Part {
    binary(Node::UNTIL, left, right)
}

fn leaf(node: Node) -> Part {
    match node.kind() {
        Node::SIGNAL => Part::Signal(node.first()),
        kind => Part::Constant(kind),
    }
}

fn plain(number: usize) -> Part {
    Part::Of(number, false)
}

// Form 0: as expanded.
fn expanded(node: Node, _: bool) -> Part {
    match node.arity() {
        Some(0) => leaf(node),
        Some(1) => unary(node.kind(), plain(node.first())),
        _ => binary(node.kind(), plain(node.first()), plain(node.second())),
    }
}

// Form 1: `!` only on signals, no `->`, no `<->`.
fn negation_form(node: Node, negated: bool) -> Part {
    if negated {
        negated_side(node)
    } else {
        plain_side(node)
    }
}

fn plain_side(node: Node) -> Part {
    let a = |negated| Part::Of(node.first(), negated);
    let b = |negated| Part::Of(node.second(), negated);
    match node.kind() {
        Node::NOT => a(true),
        // a -> b gives !a || b
        Node::IMPLIES => or(a(true), b(false)),
        // a <-> b gives (a && b) || (!a && !b)
        Node::EQUIVALENT => or(and(a(false), b(false)), and(a(true), b(true))),
        _ => expanded(node, false),
    }
}

fn negated_side(node: Node) -> Part {
    let a = |negated| Part::Of(node.first(), negated);
    let b = |negated| Part::Of(node.second(), negated);
    match node.kind() {
        Node::TRUE => Part::Constant(Node::FALSE),
        Node::FALSE => Part::Constant(Node::TRUE),
        Node::SIGNAL => not(leaf(node)),
        Node::NOT => a(false),
        Node::AND => or(a(true), b(true)),
        Node::OR => and(a(true), b(true)),
        Node::IMPLIES => and(a(false), b(true)),
        // negated (a && !b) || (!a && b)
        Node::EQUIVALENT => or(and(a(false), b(true)), and(a(true), b(false))),
        Node::NEXT => unary(Node::NEXT, a(true)),
        Node::GLOBALLY => unary(Node::FINALLY, a(true)),
        Node::FINALLY => unary(Node::GLOBALLY, a(true)),
        Node::UNTIL => binary(Node::RELEASE, a(true), b(true)),
        Node::RELEASE => until(a(true), b(true)),
        // !(a W b) gives !b U (!a && !b)
        Node::WEAK_UNTIL => until(b(true), and(a(true), b(true))),
        kind => unreachable!("the table was checked: {kind}"),
    }
}

// Form 2 (R4): only true, signal, `!`, `||`, X, U, by Appendix A.1's derivations.
fn core_form(node: Node, _: bool) -> Part {
    let a = || plain(node.first());
    let b = || plain(node.second());
    let truth = || Part::Constant(Node::TRUE);
    match node.kind() {
        Node::FALSE => not(truth()),
        Node::AND => not(or(not(a()), not(b()))),
        Node::IMPLIES => or(not(a()), b()),
        Node::EQUIVALENT => not(or(not(or(not(a()), b())), not(or(not(b()), a())))),
        Node::FINALLY => until(truth(), a()),
        Node::GLOBALLY => not(until(truth(), not(a()))),
        Node::RELEASE => not(until(not(a()), not(b()))),
        Node::WEAK_UNTIL => or(until(a(), b()), not(until(truth(), not(a())))),
        _ => expanded(node, false),
    }
}

/// The defined count of a form's nodes. Operands have smaller numbers, so each node's count is
/// known before it is needed; sums saturate.
fn count(nodes: &[u32], shape: Shape) -> u64 {
    let mut counts: Vec<[u64; 2]> = Vec::with_capacity(nodes.len());
    for bits in nodes {
        let plain = part_count(&shape(Node(*bits), false), &counts);
        let negated = part_count(&shape(Node(*bits), true), &counts);
        counts.push([plain, negated]);
    }
    counts.last().map_or(0, |root| root[0])
}

fn part_count(part: &Part, counts: &[[u64; 2]]) -> u64 {
    match part {
        Part::Of(number, negated) => counts[*number][usize::from(*negated)],
        Part::Constant(_) | Part::Signal(_) => 1,
        Part::Unary(_, operand) => part_count(operand, counts).saturating_add(1),
        Part::Binary(_, left, right) => part_count(left, counts)
            .saturating_add(part_count(right, counts))
            .saturating_add(1),
    }
}

struct Writer<'n> {
    nodes: &'n [u32],
    shape: Shape,
    written: Vec<u32>,
}

impl Writer<'_> {
    /// Writes a part in postorder, left first, and gives the number of its last node.
    fn part(&mut self, part: Part) -> usize {
        match part {
            Part::Of(number, negated) => {
                let part = (self.shape)(Node(self.nodes[number]), negated);
                self.part(part)
            }
            Part::Constant(kind) => self.push(kind, 0, 0),
            Part::Signal(signal) => self.push(Node::SIGNAL, signal, 0),
            Part::Unary(kind, operand) => {
                let operand = self.part(*operand);
                self.push(kind, operand, 0)
            }
            Part::Binary(kind, left, right) => {
                let left = self.part(*left);
                let right = self.part(*right);
                self.push(kind, left, right)
            }
        }
    }

    fn push(&mut self, kind: u32, first: usize, second: usize) -> usize {
        self.written.push(Node::pack(kind, first, second).0);
        self.written.len() - 1
    }
}
