//! How far ahead a formula looks: F-3's rules, its limits, its forms, and words that agree so far.

use second::answer::Refusal;
use second::evaluator;
use second::generate::prng::Prng;
use second::generate::{recordings, tables};
use second::node::Node;
use second::reach::reach;
use second::recording::Lasso;
use second::rewriter::rewrite;

fn node(kind: u32, first: usize, second: usize) -> u32 {
    Node::pack(kind, first, second).0
}

/// Nodes from triples of kind, first and second field.
fn table(fields: &[(u32, usize, usize)]) -> Vec<u32> {
    fields
        .iter()
        .map(|(kind, first, second)| node(*kind, *first, *second))
        .collect()
}

#[track_caller]
fn reaches(fields: &[(u32, usize, usize)], due: Option<usize>) {
    assert_eq!(reach(&table(fields)), Ok(due), "{fields:?}");
}

const TRUE: (u32, usize, usize) = (0, 0, 0);
const A: (u32, usize, usize) = (2, 0, 0);

#[test]
fn nothing_below_is_a_signal() {
    reaches(&[TRUE], Some(0));
    reaches(&[(1, 0, 0)], Some(0));
    for kind in [3, 8, 9, 10] {
        reaches(&[TRUE, (kind, 0, 0), (8, 1, 0)], Some(0));
    }
    for kind in [4, 5, 6, 7, 11, 12, 13] {
        reaches(&[TRUE, (1, 0, 0), (kind, 0, 1), (8, 2, 0)], Some(0));
    }
}

#[test]
fn each_kind_above_a_signal() {
    reaches(&[A], Some(0));
    reaches(&[(2, 16_383, 0)], Some(0));
    reaches(&[A, (3, 0, 0)], Some(0));
    reaches(&[A, (8, 0, 0)], Some(1));
    for kind in [4, 5, 6, 7] {
        reaches(&[A, (kind, 0, 0)], Some(0));
        // X X a beside X a, in either order.
        let nested = [A, (8, 0, 0), (8, 1, 0)];
        reaches(&[&nested[..], &[(kind, 1, 2)]].concat(), Some(2));
        reaches(&[&nested[..], &[(kind, 2, 1)]].concat(), Some(2));
    }
    for kind in [9, 10] {
        reaches(&[A, (kind, 0, 0)], None);
        reaches(&[A, (kind, 0, 0), (8, 1, 0)], None);
    }
    for kind in [11, 12, 13] {
        reaches(&[A, TRUE, (kind, 0, 1)], None);
        reaches(&[A, TRUE, (kind, 1, 0)], None);
    }
}

#[test]
fn nothing_is_simplified_and_only_the_root_counts() {
    // false && G a; a && X true; X (true && a).
    reaches(&[A, (9, 0, 0), (1, 0, 0), (4, 2, 1)], None);
    reaches(&[A, (9, 0, 0), (1, 0, 0), (4, 1, 2)], None);
    reaches(&[A, TRUE, (8, 1, 0), (4, 0, 2)], Some(0));
    reaches(&[A, TRUE, (4, 1, 0), (8, 2, 0)], Some(1));
    // G a and X a are not below the root; a node against the format is refused all the same.
    reaches(&[A, (9, 0, 0), (8, 0, 0), TRUE], Some(0));
    assert_eq!(
        reach(&[node(2, 0, 0), node(15, 0, 0), node(0, 0, 0)]),
        Err(Refusal::new(19, 1))
    );
}

#[test]
fn limits_of_the_table() {
    let chain = |bottom: u32, above: usize| -> Vec<u32> {
        let mut nodes = vec![node(bottom, 0, 0)];
        nodes.extend((0..above).map(|below| node(8, below, 0)));
        nodes
    };
    assert_eq!(reach(&chain(2, 8191)), Ok(Some(8191)));
    assert_eq!(reach(&chain(0, 8191)), Ok(Some(0)));
    let mut always = chain(2, 8190);
    always.push(node(9, 8190, 0));
    assert_eq!(reach(&always), Ok(None));
    assert_eq!(reach(&chain(2, 8192)), Err(Refusal::new(19, 8192)));
    assert_eq!(reach(&[]), Err(Refusal::new(19, 0)));
}

#[test]
fn the_same_in_all_forms() {
    let mut rng = Prng::new(6);
    let mut bounded = 0;
    for _ in 0..6000 {
        let nodes = tables::table(&mut rng, 3);
        let due = reach(&nodes);
        for form in 0..3 {
            let done = rewrite(&nodes, form, 8192);
            if done.answer.is_accepted() {
                assert_eq!(reach(&done.nodes), due, "form {form} of {nodes:x?}");
            }
        }
        bounded += usize::from(matches!(due, Ok(Some(1..))));
    }
    assert!(bounded > 100, "{bounded}");
}

/// A word that begins with the same letters up to this many, each later one different in every signal.
fn unlike_after(word: &Lasso, same: usize) -> Lasso {
    let positions = word.positions().max(same + 1);
    let letter = |position: usize| -> Vec<bool> {
        let letter = &word.letters[word.later(0, position)];
        letter
            .iter()
            .map(|present| *present == (position < same))
            .collect()
    };
    Lasso {
        loop_start: positions - 1,
        letters: (0..positions).map(letter).collect(),
    }
}

fn verdict(nodes: &[u32], word: &Lasso) -> bool {
    evaluator::rows(nodes, word)
        .pop()
        .expect("a table has nodes")[0]
}

#[test]
fn words_that_agree_so_far_have_the_same_verdict() {
    let mut rng = Prng::new(7);
    let (mut compared, mut unlike) = (0, 0);
    for _ in 0..6000 {
        let count = rng.between(1, 14);
        let nodes = tables::sound(&mut rng, count, 3);
        let Ok(Some(reach)) = reach(&nodes) else {
            continue;
        };
        let word = recordings::lasso(&mut rng, 12, 3);
        let due = verdict(&nodes, &word);
        assert_eq!(verdict(&nodes, &unlike_after(&word, reach + 1)), due);
        unlike += usize::from(verdict(&nodes, &unlike_after(&word, reach)) != due);
        compared += 1;
    }
    assert!(compared > 1000, "{compared}");
    // One letter fewer is too few for some.
    assert!(unlike > 100, "{unlike}");
}
