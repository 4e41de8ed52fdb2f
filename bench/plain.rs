//! A straightforward Rust implementation of the library's jobs: what the benchmark holds the library against.

pub fn pack(kind: u32, first: u32, second: u32) -> u32 {
    (kind << 28) | (first << 14) | second
}

pub fn kind(node: u32) -> u32 {
    node >> 28
}

pub fn first(node: u32) -> usize {
    (node >> 14 & 0x3fff) as usize
}

pub fn second(node: u32) -> usize {
    (node & 0x3fff) as usize
}

/// Is the table one of the format?
pub fn is_table(nodes: &[u32]) -> bool {
    let fits = |(n, &node): (usize, &u32)| {
        let (a, b) = (first(node), second(node));
        match kind(node) {
            0 | 1 => a == 0 && b == 0,
            2 => b == 0,
            3 | 8 | 9 | 10 => a < n && b == 0,
            4..=7 | 11..=13 => a < n && b < n,
            _ => false,
        }
    };
    (1..=8192).contains(&nodes.len()) && nodes.iter().enumerate().all(fits)
}

/// What a node looks at: no signal; signals, so many letters ahead at most; signals, without a bound.
#[derive(Clone, Copy)]
enum Span {
    Silent,
    Ahead(u32),
    Endless,
}

impl Span {
    fn wider(self, other: Span) -> Span {
        match (self, other) {
            (Span::Silent, span) | (span, Span::Silent) => span,
            (Span::Ahead(m), Span::Ahead(n)) => Span::Ahead(m.max(n)),
            _ => Span::Endless,
        }
    }

    fn later(self) -> Span {
        match self {
            Span::Ahead(n) => Span::Ahead(n + 1),
            span => span,
        }
    }

    fn forever(self) -> Span {
        match self {
            Span::Silent => Span::Silent,
            _ => Span::Endless,
        }
    }
}

/// How far ahead the root of a table of the format looks: the last letter that counts, none where there is no bound.
pub fn reach(nodes: &[u32]) -> Option<u32> {
    let mut spans: Vec<Span> = Vec::with_capacity(nodes.len());
    for &node in nodes {
        let a = || spans[first(node)];
        let b = || spans[second(node)];
        spans.push(match kind(node) {
            0 | 1 => Span::Silent,
            2 => Span::Ahead(0),
            3 => a(),
            4..=7 => a().wider(b()),
            8 => a().later(),
            9 | 10 => a().forever(),
            _ => a().wider(b()).forever(),
        });
    }
    match spans[nodes.len() - 1] {
        Span::Silent => Some(0),
        Span::Ahead(n) => Some(n),
        Span::Endless => None,
    }
}

/// A temporal operator, backwards round the loop twice.
fn temporal(code: u32, a: &[bool], b: &[bool], start: usize, row: &mut [bool]) {
    let step = |p: usize, v: bool| match code {
        9 => a[p] && v,
        10 => a[p] || v,
        11 | 13 => b[p] || (a[p] && v),
        _ => b[p] && (a[p] || v),
    };
    let mut v = matches!(code, 9 | 12 | 13);
    for p in (start..row.len()).rev() {
        v = step(p, v);
    }
    for p in (0..row.len()).rev() {
        v = step(p, v);
        row[p] = v;
    }
}

/// The straightforward evaluator: a vector of truth values for each node.
pub fn evaluate(nodes: &[u32], recording: &[u8], rows: &mut [u8]) {
    let header = u32::from_be_bytes([recording[0], recording[1], recording[2], recording[3]]);
    let (n, l, k) = (
        (header >> 20) as usize,
        (header >> 8 & 0xfff) as usize,
        (header & 0xff) as usize,
    );
    let present = |p: usize, signal: usize| {
        let bit = 32 + p * k + signal;
        signal < k && recording[bit / 8] >> (7 - bit % 8) & 1 == 1
    };
    let mut values: Vec<Vec<bool>> = Vec::with_capacity(nodes.len());
    for (&node, bytes) in nodes.iter().zip(rows.chunks_mut(n.div_ceil(8))) {
        let mut row = vec![false; n];
        let operand = |i: usize| values.get(i).map_or(&[][..], |v| v);
        let (a, b) = (operand(first(node)), operand(second(node)));
        match kind(node) {
            0 => row.fill(true),
            1 => {}
            2 => (0..n).for_each(|p| row[p] = present(p, first(node))),
            3 => (0..n).for_each(|p| row[p] = !a[p]),
            4 => (0..n).for_each(|p| row[p] = a[p] && b[p]),
            5 => (0..n).for_each(|p| row[p] = a[p] || b[p]),
            6 => (0..n).for_each(|p| row[p] = !a[p] || b[p]),
            7 => (0..n).for_each(|p| row[p] = a[p] == b[p]),
            8 => (0..n).for_each(|p| row[p] = a[if p + 1 < n { p + 1 } else { l }]),
            code => temporal(code, a, b, l, &mut row),
        }
        bytes.fill(0);
        (0..n).for_each(|p| bytes[p / 8] |= (row[p] as u8) << (7 - p % 8));
        values.push(row);
    }
}

fn put(out: &mut Vec<u32>, node: u32) -> u32 {
    out.push(node);
    out.len() as u32 - 1
}

/// Form 0 of node i: its tree.
pub fn copy(nodes: &[u32], i: usize, out: &mut Vec<u32>) -> u32 {
    let node = nodes[i];
    match kind(node) {
        0..=2 => put(out, node),
        k @ (3 | 8..=10) => {
            let a = copy(nodes, first(node), out);
            put(out, pack(k, a, 0))
        }
        k => {
            let a = copy(nodes, first(node), out);
            let b = copy(nodes, second(node), out);
            put(out, pack(k, a, b))
        }
    }
}

/// Form 1, negation form, of node i or of its negation.
pub fn negation(nodes: &[u32], i: usize, negated: bool, out: &mut Vec<u32>) -> u32 {
    let node = nodes[i];
    let (a, b) = (first(node), second(node));
    let dual = |k: u32, d: u32| if negated { d } else { k };
    let two = |out: &mut Vec<u32>, k: u32, x: (usize, bool), y: (usize, bool)| {
        let l = negation(nodes, x.0, x.1, out);
        let r = negation(nodes, y.0, y.1, out);
        put(out, pack(k, l, r))
    };
    match kind(node) {
        0 | 1 => put(out, pack(kind(node) ^ negated as u32, 0, 0)),
        2 => {
            let s = put(out, node);
            if negated {
                put(out, pack(3, s, 0))
            } else {
                s
            }
        }
        3 => negation(nodes, a, !negated, out),
        k @ 8..=10 => {
            let x = negation(nodes, a, negated, out);
            put(out, pack(dual(k, [8, 10, 9][k as usize - 8]), x, 0))
        }
        4 => two(out, dual(4, 5), (a, negated), (b, negated)),
        5 => two(out, dual(5, 4), (a, negated), (b, negated)),
        6 => two(out, dual(5, 4), (a, !negated), (b, negated)),
        7 => {
            let l = two(out, 4, (a, false), (b, negated));
            let r = two(out, 4, (a, true), (b, !negated));
            put(out, pack(5, l, r))
        }
        11 => two(out, dual(11, 12), (a, negated), (b, negated)),
        12 => two(out, dual(12, 11), (a, negated), (b, negated)),
        _ if !negated => two(out, 13, (a, false), (b, false)),
        _ => {
            let l = negation(nodes, b, true, out);
            let x = negation(nodes, a, true, out);
            let y = negation(nodes, b, true, out);
            let r = put(out, pack(4, x, y));
            put(out, pack(11, l, r))
        }
    }
}

/// Form 2, core form, of node i.
pub fn core(nodes: &[u32], i: usize, out: &mut Vec<u32>) -> u32 {
    let node = nodes[i];
    let (a, b) = (first(node), second(node));
    let not = |out: &mut Vec<u32>, x: u32| put(out, pack(3, x, 0));
    let not_core = |out: &mut Vec<u32>, i: usize| {
        let x = core(nodes, i, out);
        not(out, x)
    };
    let implies = |out: &mut Vec<u32>, a: usize, b: usize| {
        let x = not_core(out, a);
        let y = core(nodes, b, out);
        put(out, pack(5, x, y))
    };
    let globally = |out: &mut Vec<u32>, i: usize| {
        let t = put(out, pack(0, 0, 0));
        let x = not_core(out, i);
        let u = put(out, pack(11, t, x));
        not(out, u)
    };
    let two = |out: &mut Vec<u32>, k: u32| {
        let x = core(nodes, a, out);
        let y = core(nodes, b, out);
        put(out, pack(k, x, y))
    };
    let dual = |out: &mut Vec<u32>, k: u32| {
        let x = not_core(out, a);
        let y = not_core(out, b);
        let z = put(out, pack(k, x, y));
        not(out, z)
    };
    match kind(node) {
        0 | 2 => put(out, node),
        1 => {
            let t = put(out, pack(0, 0, 0));
            not(out, t)
        }
        3 => not_core(out, a),
        4 => dual(out, 5),
        5 => two(out, 5),
        6 => implies(out, a, b),
        7 => {
            let x = implies(out, a, b);
            let x = not(out, x);
            let y = implies(out, b, a);
            let y = not(out, y);
            let z = put(out, pack(5, x, y));
            not(out, z)
        }
        8 => {
            let x = core(nodes, a, out);
            put(out, pack(8, x, 0))
        }
        9 => globally(out, a),
        10 => {
            let t = put(out, pack(0, 0, 0));
            let x = core(nodes, a, out);
            put(out, pack(11, t, x))
        }
        11 => two(out, 11),
        12 => dual(out, 11),
        _ => {
            let x = two(out, 11);
            let y = globally(out, a);
            put(out, pack(5, x, y))
        }
    }
}

/// The root's tree in a form.
pub fn rewrite(nodes: &[u32], form: u32, out: &mut Vec<u32>) {
    let root = nodes.len() - 1;
    match form {
        0 => copy(nodes, root, out),
        1 => negation(nodes, root, false, out),
        _ => core(nodes, root, out),
    };
}
