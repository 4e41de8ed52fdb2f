//! How far ahead tables look, at the limits and one beyond, and that every form keeps the reach.

use tlsf::{Answer, Reach, MOST_NODES};

const TRUE: u32 = 0;
const SIGNAL: u32 = 2 << 28;

fn node(kind: u32, first: usize, second: usize) -> u32 {
    kind << 28 | (first as u32) << 14 | second as u32
}

/// A leaf, and nodes of one operand over the node before.
fn chain(leaf: u32, kinds: &[u32]) -> Vec<u32> {
    let above = kinds.iter().enumerate().map(|(before, &kind)| node(kind, before, 0));
    std::iter::once(leaf).chain(above).collect()
}

#[test]
fn the_rules() {
    let bounded = |last| Reach::Bounded { last };
    assert_eq!(tlsf::reach(&[TRUE]), bounded(0));
    assert_eq!(tlsf::reach(&[SIGNAL]), bounded(0));
    assert_eq!(tlsf::reach(&chain(SIGNAL, &[8, 3, 8])), bounded(2));
    assert_eq!(tlsf::reach(&chain(TRUE, &[8, 8])), bounded(0));
    assert_eq!(tlsf::reach(&chain(TRUE, &[9])), bounded(0));
    assert_eq!(tlsf::reach(&chain(SIGNAL, &[9, 8])), Reach::Unbounded);
    for kind in 4..8 {
        let greater = |first, second| [SIGNAL, node(8, 0, 0), node(8, 1, 0), node(kind, first, second)];
        assert_eq!(tlsf::reach(&greater(1, 2)), bounded(2));
        assert_eq!(tlsf::reach(&greater(2, 1)), bounded(2));
    }
    for kind in 11..14 {
        assert_eq!(tlsf::reach(&[TRUE, SIGNAL, node(kind, 0, 1)]), Reach::Unbounded);
        assert_eq!(tlsf::reach(&[TRUE, SIGNAL, node(kind, 1, 0)]), Reach::Unbounded);
        assert_eq!(tlsf::reach(&[TRUE, SIGNAL, node(kind, 0, 0)]), bounded(0));
    }
    assert_eq!(tlsf::reach(&[SIGNAL, node(9, 0, 0), 1 << 28, node(4, 2, 1)]), Reach::Unbounded);
}

#[test]
fn the_limits() {
    let most = chain(SIGNAL, &[8; MOST_NODES - 1]);
    assert_eq!(tlsf::reach(&most), Reach::Bounded { last: MOST_NODES - 1 });
    assert_eq!(
        tlsf::reach(&[TRUE; MOST_NODES + 1]),
        Reach::Refused {
            number: 19,
            place: MOST_NODES
        }
    );
    assert_eq!(tlsf::reach(&[]), Reach::Refused { number: 19, place: 0 });
    assert_eq!(tlsf::reach(&[node(2, 16_383, 0)]), Reach::Bounded { last: 0 });
    assert_eq!(
        tlsf::reach(&[SIGNAL, node(3, 5, 0), SIGNAL]),
        Reach::Refused { number: 19, place: 1 }
    );
}

#[test]
fn the_stack_that_it_needs() {
    let job = || tlsf::reach(&chain(SIGNAL, &[8; MOST_NODES - 1]));
    let thread = std::thread::Builder::new().stack_size(64 << 10).spawn(job);
    assert_eq!(thread.unwrap().join().unwrap(), Reach::Bounded { last: MOST_NODES - 1 });
}

#[test]
fn a_form_keeps_the_reach() {
    for root in 3..14 {
        let second = if matches!(root, 3 | 8 | 9 | 10) { 0 } else { 2 };
        let table = [SIGNAL, node(8, 0, 0), node(7, 0, 1), node(root, 1, second)];
        for form in 0..3 {
            let mut out = [0; 64];
            let Answer::Accepted { nodes, .. } = tlsf::rewrite(&table, form, &mut out) else {
                panic!("form {form} is refused");
            };
            assert_eq!(tlsf::reach(&out[..nodes]), tlsf::reach(&table), "kind {root}, form {form}");
        }
    }
}
