//! The basic-format writer (02, F-1): an accepted text as one of the basic format, from its nodes.

use crate::answer::Refusal;
use crate::limits;
use crate::node::Node;
use crate::reader::{self, Signal, Understood};
use crate::stack;
use crate::syntax::Model;
use std::collections::HashSet;

/// The basic text, given a work buffer and room for bytes. 02: 'the reader's refusals come before both', 22, then 18.
pub fn write(text: &[u8], work_len: usize, room: usize) -> Result<Vec<u8>, Refusal> {
    stack::deep(|| {
        let understood = reader::understand(text, work_len)?;
        let names: Vec<Vec<u8>> = understood.signals.iter().map(name).collect();
        check_names(&names)?;
        let written = basic_text(&understood, &names);
        if written.len() > room {
            return Err(Refusal::new(18, 0));
        }
        Ok(written)
    })
}

// 02: 'Bit i of bus b is called `b@i`'; F1.6: every bus, one of width 1 too.
fn name(signal: &Signal) -> Vec<u8> {
    let mut name = signal.name.clone();
    if let Some(index) = signal.index {
        name.extend(format!("@{index}").bytes());
    }
    name
}

// 02: '22, two signals would share a name, or a name passes 64 bytes, place the number of the
// first signal at fault, the later of a pair'.
fn check_names(names: &[Vec<u8>]) -> Result<(), Refusal> {
    let mut earlier = HashSet::new();
    for (number, name) in names.iter().enumerate() {
        let again = !earlier.insert(name);
        if again || name.len() > limits::NAME_BYTES {
            return Err(Refusal::new(22, number));
        }
    }
    Ok(())
}

/// 02: 'tokens parted by one blank'.
#[derive(Default)]
struct Tokens {
    text: Vec<u8>,
}

impl Tokens {
    fn put(&mut self, token: &[u8]) {
        if !self.text.is_empty() {
            self.text.push(b' ');
        }
        self.text.extend(token);
    }

    /// Tokens that are parted already.
    fn put_all(&mut self, tokens: &str) {
        tokens
            .split(' ')
            .for_each(|token| self.put(token.as_bytes()));
    }
}

// 02: 'in document 001's order, no TAGS, every `;` set'; F1.4: INPUTS and OUTPUTS even if empty.
fn basic_text(understood: &Understood, names: &[Vec<u8>]) -> Vec<u8> {
    // 'semantics and target the plain model'; F1.5: TARGET's.
    let model = match understood.target {
        Model::Mealy => "Mealy",
        Model::Moore => "Moore",
    };
    let mut tokens = Tokens::default();
    tokens.put_all("INFO { TITLE : \"converted\" DESCRIPTION : \"converted\"");
    tokens.put_all(&format!("SEMANTICS : {model} TARGET : {model} }} MAIN {{"));
    for (section, output) in [("INPUTS {", false), ("OUTPUTS {", true)] {
        tokens.put_all(section);
        for (signal, name) in understood.signals.iter().zip(names) {
            if signal.output == output {
                tokens.put(name);
                tokens.put(b";");
            }
        }
        tokens.put(b"}");
    }
    tokens.put_all("GUARANTEE {");
    put_formula(&mut tokens, &understood.nodes, names);
    tokens.put_all("; } }");
    tokens.text
}

/// What is still to be written: a node's formula, or one token.
enum Due {
    Formula(usize),
    Token(&'static str),
}

// 02: 'each node in its own parentheses'; F1.2: leaves and the root too.
fn put_formula(tokens: &mut Tokens, nodes: &[u32], names: &[Vec<u8>]) {
    // The last is due first.
    let mut due = vec![Due::Formula(nodes.len() - 1)];
    while let Some(next) = due.pop() {
        let number = match next {
            Due::Token(token) => {
                tokens.put(token.as_bytes());
                continue;
            }
            Due::Formula(number) => number,
        };
        let node = Node(nodes[number]);
        let sign = Due::Token(sign(node.kind()));
        tokens.put(b"(");
        due.push(Due::Token(")"));
        match node.arity() {
            Some(0) if node.kind() == Node::SIGNAL => tokens.put(&names[node.first()]),
            Some(0) => due.push(sign),
            Some(1) => due.extend([Due::Formula(node.first()), sign]),
            _ => due.extend([
                Due::Formula(node.second()),
                sign,
                Due::Formula(node.first()),
            ]),
        }
    }
}

// F1.3: 001's basic grammar.
fn sign(kind: u32) -> &'static str {
    match kind {
        Node::TRUE => "true",
        Node::FALSE => "false",
        Node::NOT => "!",
        Node::AND => "&&",
        Node::OR => "||",
        Node::IMPLIES => "->",
        Node::EQUIVALENT => "<->",
        Node::NEXT => "X",
        Node::GLOBALLY => "G",
        Node::FINALLY => "F",
        Node::UNTIL => "U",
        Node::RELEASE => "R",
        Node::WEAK_UNTIL => "W",
        _ => "",
    }
}

/// F1.11: what reading the basic text of these nodes back yields: the nodes of an empty specification, its GUARANTEE `true`
/// replaced by them.
pub fn read_back(nodes: &[u32]) -> Vec<u32> {
    // I -> (P && ((G R && S) -> (G A && U))), all sections but U true: nodes 0 to 7 stand before U.
    let empty = [
        (Node::TRUE, 0, 0),
        (Node::TRUE, 0, 0),
        (Node::TRUE, 0, 0),
        (Node::GLOBALLY, 2, 0),
        (Node::TRUE, 0, 0),
        (Node::AND, 3, 4),
        (Node::TRUE, 0, 0),
        (Node::GLOBALLY, 6, 0),
    ];
    let before = empty.len();
    let moved = nodes.iter().map(|bits| {
        let node = Node(*bits);
        match node.arity() {
            Some(1) => (node.kind(), node.first() + before, 0),
            Some(2) => (node.kind(), node.first() + before, node.second() + before),
            _ => (node.kind(), node.first(), node.second()),
        }
    });
    let root = before + nodes.len() - 1;
    let joined = [
        (Node::AND, 7, root),
        (Node::IMPLIES, 5, root + 1),
        (Node::AND, 1, root + 2),
        (Node::IMPLIES, 0, root + 3),
    ];
    let all = empty.into_iter().chain(moved).chain(joined);
    all.map(|(kind, first, second)| Node::pack(kind, first, second).0)
        .collect()
}

/// Whether a basic text of these nodes and signals keeps to the reader's limits. F1.11: bytes, tokens, two levels a node of
/// the tree's depth, declared names and nodes.
pub fn keeps_to_limits(written: &[u8], nodes: &[u32], signals: usize) -> bool {
    let tokens = written.split(|byte| *byte == b' ').count();
    written.len() <= limits::TEXT_BYTES
        && tokens <= limits::TOKENS
        && 2 * depth(nodes) <= limits::TREE_LEVELS
        && signals <= limits::DECLARED_NAMES
        && nodes.len() + 12 <= limits::NODES
}

/// The nodes on the longest way from the root down.
fn depth(nodes: &[u32]) -> usize {
    let mut depths: Vec<usize> = Vec::with_capacity(nodes.len());
    for bits in nodes {
        let node = Node(*bits);
        let below = match node.arity() {
            Some(1) => depths[node.first()],
            Some(2) => depths[node.first()].max(depths[node.second()]),
            _ => 0,
        };
        depths.push(below + 1);
    }
    depths.last().copied().unwrap_or(0)
}
