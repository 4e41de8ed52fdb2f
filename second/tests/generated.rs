//! Generated texts: limits, forms and meaning.

use second::answer::Answer;
use second::evaluator;
use second::generate::prng::Prng;
use second::generate::{self, limits::LIMITS, recordings, tables};
use second::meaning::meaning;
use second::node::Node;
use second::reader::read_freely;
use second::recording::Lasso;
use second::rewriter::rewrite;
use std::collections::BTreeMap;

#[test]
fn limits_at_and_beyond() {
    let mut rng = Prng::new(1);
    for limit in &LIMITS {
        for _ in 0..12 {
            let at = read_freely((limit.text)(&mut rng, false).as_bytes()).answer;
            assert!(at.is_accepted(), "{}: {at:?}", limit.name);
            let beyond = read_freely((limit.text)(&mut rng, true).as_bytes()).answer;
            let Answer::Refused(refusal) = beyond else {
                panic!("{}: {beyond:?}", limit.name);
            };
            assert_eq!(refusal.number, limit.refusal, "{}", limit.name);
        }
    }
}

#[test]
fn every_answer_occurs_and_most_texts_are_short() {
    let mut rng = Prng::new(2);
    let mut answers: BTreeMap<u32, usize> = BTreeMap::new();
    let mut short = 0;
    for _ in 0..4000 {
        let text = generate::any_text(&mut rng);
        short += usize::from(text.len() < 200);
        let number = match read_freely(&text).answer {
            Answer::Accepted { .. } => 0,
            Answer::Refused(refusal) => refusal.number,
        };
        *answers.entry(number).or_default() += 1;
    }
    // 02, F-2: '14 no longer occurs'.
    for number in 0..=16 {
        assert_eq!(answers.contains_key(&number), number != 14, "{answers:?}");
    }
    assert!(short > 2000, "{short}");
}

/// The root's row of a table on a lasso.
fn root_row(nodes: &[u32], word: &Lasso) -> Vec<bool> {
    evaluator::rows(nodes, word)
        .pop()
        .expect("a table has nodes")
}

/// The kinds that a form forbids do not occur.
fn keeps_to_form(nodes: &[u32], form: u32) -> bool {
    nodes.iter().all(|bits| {
        let node = Node(*bits);
        let kind = node.kind();
        match form {
            1 if kind == Node::NOT => Node(nodes[node.first()]).kind() == Node::SIGNAL,
            1 => kind != Node::IMPLIES && kind != Node::EQUIVALENT,
            2 => [0, 2, 3, 5, 8, 11].contains(&kind),
            _ => true,
        }
    })
}

#[test]
fn meaning_equals_the_verdicts_of_all_forms() {
    let mut rng = Prng::new(3);
    let (mut compared, mut converted) = (0, 0);
    for _ in 0..10_000 {
        let text = generate::any_text(&mut rng);
        let reading = read_freely(&text);
        if !reading.answer.is_accepted() {
            continue;
        }
        let info = second::reader::check_text(&text)
            .expect("an accepted text")
            .0
            .info;
        converted += usize::from(info.semantics != info.target);
        let forms: Vec<Vec<u32>> = (0..3)
            .map(|form| (form, rewrite(&reading.nodes, form, 8192)))
            .filter(|(_, done)| done.answer != Answer::refused(16, 0))
            .map(|(form, done)| {
                assert!(done.answer.is_accepted());
                assert!(keeps_to_form(&done.nodes, form));
                done.nodes
            })
            .collect();
        assert_eq!(forms[0], reading.nodes);
        for _ in 0..4 {
            let word = recordings::lasso(&mut rng, 6, reading.signals.len());
            let meant = meaning(&text, &word).expect("the text is accepted");
            assert_eq!(meant, root_row(&reading.nodes, &word));
            for nodes in &forms {
                let text = String::from_utf8_lossy(&text);
                assert_eq!(meant, root_row(nodes, &word), "{text} on {word:?}");
            }
        }
        compared += 1;
    }
    assert!(compared > 2500, "{compared}");
    assert!(4 * converted > compared, "{converted} of {compared}");
}

#[test]
fn forms_of_shared_tables_mean_the_same() {
    let mut rng = Prng::new(4);
    for _ in 0..3000 {
        let count = rng.between(1, 12);
        let nodes = tables::sound(&mut rng, count, 3);
        let word = recordings::lasso(&mut rng, 6, 3);
        for form in 0..3 {
            let done = rewrite(&nodes, form, 8192);
            if done.answer.is_accepted() {
                assert!(keeps_to_form(&done.nodes, form));
                assert_eq!(root_row(&nodes, &word), root_row(&done.nodes, &word));
            } else {
                assert_eq!(done.answer, Answer::refused(16, 0));
            }
        }
    }
}

#[test]
fn recordings_come_back() {
    let mut rng = Prng::new(5);
    for _ in 0..500 {
        let signals = rng.between(0, 9);
        let word = recordings::lasso(&mut rng, 20, signals);
        let parsed = second::recording::parse(&word.bytes(signals), 9);
        assert_eq!(parsed, Ok(word));
    }
}

#[test]
fn the_same_seed_gives_the_same_texts() {
    let texts = |seed| {
        let mut rng = Prng::new(seed);
        (0..50)
            .map(|_| generate::any_text(&mut rng))
            .collect::<Vec<_>>()
    };
    assert_eq!(texts(9), texts(9));
    assert_ne!(texts(9), texts(10));
}
