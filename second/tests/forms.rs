//! The rewriter: refusals 21, 19, 16, 18, and the forms.

mod common;
use common::infix;
use second::answer::Answer;
use second::node::Node;
use second::rewriter::rewrite;

fn node(kind: u32, first: usize, second: usize) -> u32 {
    Node::pack(kind, first, second).0
}

/// A table with signals 0 and 1 and one node over them.
fn over(kind: u32) -> Vec<u32> {
    let second = if Node(kind << 28).arity() == Some(2) {
        1
    } else {
        0
    };
    vec![node(2, 0, 0), node(2, 1, 0), node(kind, 0, second)]
}

fn negated(mut nodes: Vec<u32>) -> Vec<u32> {
    nodes.push(node(3, nodes.len() - 1, 0));
    nodes
}

fn form(nodes: &[u32], form: u32) -> String {
    let written = rewrite(nodes, form, 8192).nodes;
    infix(&written, written.len() - 1)
}

#[test]
fn form_1() {
    let plain = |kind| form(&over(kind), 1);
    let contrary = |kind| form(&negated(over(kind)), 1);
    assert_eq!(plain(3), "!(s0)");
    assert_eq!(contrary(3), "s0");
    assert_eq!(plain(4), "(s0 && s1)");
    assert_eq!(contrary(4), "(!(s0) || !(s1))");
    assert_eq!(plain(5), "(s0 || s1)");
    assert_eq!(contrary(5), "(!(s0) && !(s1))");
    assert_eq!(plain(6), "(!(s0) || s1)");
    assert_eq!(contrary(6), "(s0 && !(s1))");
    assert_eq!(plain(7), "((s0 && s1) || (!(s0) && !(s1)))");
    assert_eq!(contrary(7), "((s0 && !(s1)) || (!(s0) && s1))");
    assert_eq!(contrary(8), "X(!(s0))");
    assert_eq!(contrary(9), "F(!(s0))");
    assert_eq!(contrary(10), "G(!(s0))");
    assert_eq!(plain(11), "(s0 U s1)");
    assert_eq!(contrary(11), "(!(s0) R !(s1))");
    assert_eq!(contrary(12), "(!(s0) U !(s1))");
    assert_eq!(plain(13), "(s0 W s1)");
    assert_eq!(contrary(13), "(!(s1) U (!(s0) && !(s1)))");
    assert_eq!(form(&[node(0, 0, 0), node(3, 0, 0)], 1), "false");
    assert_eq!(form(&[node(1, 0, 0), node(3, 0, 0)], 1), "true");
}

#[test]
fn form_2() {
    let core = |kind| form(&over(kind), 2);
    assert_eq!(form(&[node(1, 0, 0)], 2), "!(true)");
    assert_eq!(form(&[node(0, 0, 0)], 2), "true");
    assert_eq!(form(&negated(over(3)), 2), "!(!(s0))");
    assert_eq!(core(4), "!((!(s0) || !(s1)))");
    assert_eq!(core(5), "(s0 || s1)");
    assert_eq!(core(6), "(!(s0) || s1)");
    assert_eq!(core(7), "!((!((!(s0) || s1)) || !((!(s1) || s0))))");
    assert_eq!(core(8), "X(s0)");
    assert_eq!(core(9), "!((true U !(s0)))");
    assert_eq!(core(10), "(true U s0)");
    assert_eq!(core(11), "(s0 U s1)");
    assert_eq!(core(12), "!((!(s0) U !(s1)))");
    assert_eq!(core(13), "((s0 U s1) || !((true U !(s0))))");
}

#[test]
fn form_0_writes_out_the_roots_tree() {
    // Shared and unreached nodes: a postorder tree comes out.
    let nodes = [node(2, 3, 0), node(2, 9, 0), node(4, 0, 0), node(11, 2, 0)];
    let written = rewrite(&nodes, 0, 5).nodes;
    assert_eq!(
        written,
        [
            node(2, 3, 0),
            node(2, 3, 0),
            node(4, 0, 1),
            node(2, 3, 0),
            node(11, 2, 3)
        ]
    );
    assert_eq!(rewrite(&nodes, 0, 4).answer, Answer::refused(18, 0));
    assert_eq!(
        rewrite(&nodes, 0, 5).answer,
        Answer::Accepted {
            nodes: 5,
            signals: 0
        }
    );
}

#[test]
fn refusals_in_order() {
    let good = [node(2, 16383, 0)];
    let answer = |nodes: &[u32], form, room| rewrite(nodes, form, room).answer;
    assert!(answer(&good, 0, 1).is_accepted());
    assert_eq!(answer(&[], 3, 0), Answer::refused(21, 0));
    assert_eq!(answer(&good, u32::MAX, 9), Answer::refused(21, 0));
    assert_eq!(answer(&[], 0, 9), Answer::refused(19, 0));
    assert_eq!(
        answer(&[node(0, 0, 0); 8193], 0, 0),
        Answer::refused(19, 8192)
    );
    assert!(answer(&[node(0, 0, 0); 8192], 1, 1).is_accepted());
    assert_eq!(answer(&[0, 15 << 28], 0, 0), Answer::refused(19, 1));
    assert_eq!(answer(&[0, 14 << 28, 0], 2, 0), Answer::refused(19, 1));
    for bad in [
        node(0, 1, 0),
        node(1, 0, 1),
        node(2, 5, 1),
        node(3, 0, 1),
        node(8, 1, 0),
        node(4, 0, 1),
        node(13, 1, 0),
    ] {
        assert_eq!(
            answer(&[0, bad, 15 << 28], 1, 0),
            Answer::refused(19, 1),
            "{bad:x}"
        );
    }
    assert_eq!(answer(&[node(3, 0, 0)], 1, 0), Answer::refused(19, 0));
    assert_eq!(answer(&good, 0, 0), Answer::refused(18, 0));
}

#[test]
fn counts_do_not_wrap() {
    // Each node joins the one before with itself: 2^8191 leaves.
    let mut doubling = vec![node(2, 0, 0)];
    for number in 1..8192 {
        doubling.push(node(
            if number % 2 == 0 { 7 } else { 4 },
            number - 1,
            number - 1,
        ));
    }
    for form in 0..3 {
        assert_eq!(
            rewrite(&doubling, form, 8192).answer,
            Answer::refused(16, 0)
        );
    }
    for last in [12, 13] {
        // 2^13 - 1 nodes fit, 2^14 - 1 do not.
        let answer = rewrite(&and_chain(last), 0, 8192).answer;
        assert_eq!(answer.is_accepted(), last == 12);
    }
}

fn and_chain(last: usize) -> Vec<u32> {
    let mut nodes = vec![node(2, 0, 0)];
    nodes.extend((0..last).map(|below| node(4, below, below)));
    nodes
}

#[test]
fn long_chains() {
    let mut nots = vec![node(2, 0, 0)];
    nots.extend((0..8191).map(|below| node(3, below, 0)));
    assert_eq!(rewrite(&nots, 0, 8192).nodes, nots);
    assert_eq!(rewrite(&nots, 2, 8192).nodes, nots);
    assert_eq!(
        rewrite(&nots, 1, 8192).nodes,
        [node(2, 0, 0), node(3, 0, 0)]
    );
    // One beyond by the definition: F a has one node more in form 2.
    let mut finally = vec![node(2, 0, 0)];
    finally.extend((0..8190).map(|below| node(8, below, 0)));
    finally.push(node(10, 8190, 0));
    assert!(rewrite(&finally, 0, 8192).answer.is_accepted());
    assert!(rewrite(&finally, 1, 8192).answer.is_accepted());
    assert_eq!(rewrite(&finally, 2, 8192).answer, Answer::refused(16, 0));
    assert_eq!(
        rewrite(&finally[1..], 2, 8192).answer,
        Answer::refused(19, 0)
    );
}
