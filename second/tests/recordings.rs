//! The evaluator: refusals 15, 19, 20, 23, 18, and rows.

mod common;
use common::*;
use second::answer::Answer;
use second::evaluator::{evaluate, Evaluation};
use second::generate::prng::Prng;
use second::generate::{recordings, tables};
use second::node::Node;

fn node(kind: u32, first: usize, second: usize) -> u32 {
    Node::pack(kind, first, second).0
}

fn run(nodes: &[u32], signals: usize, recording: &[u8]) -> Evaluation {
    evaluate(nodes, signals, recording, 1 << 20)
}

#[test]
fn starred_recordings() {
    let text = "INFO { TITLE: \"t\" DESCRIPTION: \"d\" SEMANTICS: Mealy TARGET: Mealy } MAIN { \
                INPUTS { r; } OUTPUTS { g; } GUARANTEE { G (r -> F g); } }";
    let nodes = accepted(text).nodes;
    let good = run(&nodes, 2, &[0x00, 0x30, 0x01, 0x02, 0x90]);
    assert_eq!(
        good.answer,
        Answer::Accepted {
            nodes: 17,
            signals: 2
        }
    );
    assert!(good.verdict());
    assert!(!run(&nodes, 2, &[0x00, 0x30, 0x01, 0x02, 0x80]).verdict());
}

#[test]
fn refusals_in_order() {
    let table = [node(2, 0, 0)];
    let recording = [0x00, 0x10, 0x00, 0x01, 0x80];
    let answer = |nodes: &[u32], signals, recording: &[u8], room| {
        evaluate(nodes, signals, recording, room).answer
    };
    assert!(answer(&table, 1, &recording, 1).is_accepted());
    assert_eq!(answer(&table, 255, &recording, 1), Answer::refused(23, 0));
    assert_eq!(answer(&[], 256, &[], 0), Answer::refused(15, 0));
    assert_eq!(answer(&[], 255, &[], 0), Answer::refused(19, 0));
    assert_eq!(answer(&[0; 8193], 255, &[], 0), Answer::refused(19, 8192));
    assert_eq!(answer(&table, 0, &recording, 0), Answer::refused(19, 0));
    assert_eq!(
        answer(&[0, node(2, 1, 0)], 1, &recording, 0),
        Answer::refused(19, 1)
    );
    assert_eq!(
        answer(&table, 1, &recording[..3], 0),
        Answer::refused(20, 3)
    );
    assert_eq!(answer(&table, 1, &[], 0), Answer::refused(20, 0));
    assert_eq!(
        answer(&table, 1, &[0, 0, 0, 1, 0x80], 0),
        Answer::refused(20, 0)
    );
    assert_eq!(
        answer(&table, 1, &[0x80, 0x10, 0, 0], 0),
        Answer::refused(20, 0)
    );
    assert!(answer(&[0], 0, &[0x80, 0x00, 0, 0], 256).is_accepted());
    // L = N.
    assert_eq!(
        answer(&table, 1, &[0, 0x10, 1, 1, 0x80], 0),
        Answer::refused(20, 0)
    );
    // K above the signal count.
    assert_eq!(
        answer(&table, 1, &[0, 0x10, 0, 2, 0x80], 0),
        Answer::refused(20, 0)
    );
    assert_eq!(
        answer(&table, 1, &[0, 0x10, 0, 1, 0x80, 0], 0),
        Answer::refused(20, 6)
    );
    assert_eq!(
        answer(&table, 1, &[0, 0x10, 0, 1], 0),
        Answer::refused(20, 4)
    );
    assert_eq!(
        answer(&table, 1, &[0, 0x10, 0, 1, 0xc0], 0),
        Answer::refused(20, 4)
    );
    assert_eq!(
        answer(&table, 1, &[0, 0x90, 0, 1, 0x80, 0x01], 0),
        Answer::refused(20, 5)
    );
    assert_eq!(answer(&table, 1, &recording, 0), Answer::refused(18, 0));
    assert_eq!(
        answer(&[0, 0], 0, &[0, 0x90, 0, 0], 3),
        Answer::refused(18, 0)
    );
    assert!(answer(&[0, 0], 0, &[0, 0x90, 0, 0], 4).is_accepted());
}

#[test]
fn every_row() {
    // Positions 0 to 9, loop to 8; a at 0, 2, 9; b at 1, 8.
    let a: Vec<usize> = vec![0, 2, 9];
    let b: Vec<usize> = vec![1, 8];
    let letters = (0..10)
        .map(|p| vec![a.contains(&p), b.contains(&p)])
        .collect();
    let lasso = second::recording::Lasso {
        loop_start: 8,
        letters,
    };
    let recording = lasso.bytes(2);
    let nodes = [
        node(2, 0, 0),
        node(2, 1, 0),
        node(8, 0, 0),
        node(9, 0, 0),
        node(10, 0, 0),
        node(11, 0, 1),
        node(13, 0, 1),
        node(5, 0, 1),
        node(9, 7, 0),
        node(12, 1, 0),
        node(12, 0, 7),
        node(7, 0, 1),
        node(6, 0, 1),
        node(3, 0, 0),
        node(1, 0, 0),
        node(0, 0, 0),
    ];
    let rows = run(&nodes, 2, &recording).rows;
    let row = |number: usize| {
        let bits: String = rows[2 * number..2 * number + 2]
            .iter()
            .map(|b| format!("{b:08b}"))
            .collect();
        assert!(bits.ends_with("000000"));
        bits[..10].to_string()
    };
    assert_eq!(row(0), "1010000001");
    assert_eq!(row(1), "0100000010");
    assert_eq!(row(2), "0100000010");
    assert_eq!(row(3), "0000000000");
    assert_eq!(row(4), "1111111111");
    // U goes round the loop: at 9, a holds and b at 8.
    assert_eq!(row(5), "1100000011");
    assert_eq!(row(6), "1100000011");
    assert_eq!(row(8), "0000000011");
    assert_eq!(row(10), "1110000011");
    assert_eq!(row(11), "0001111100");
    assert_eq!(row(12), "0101111110");
    assert_eq!(row(13), "0101111110");
    assert_eq!(row(14), "0000000000");
    assert_eq!(row(15), "1111111111");
}

#[test]
fn weak_until_is_not_until() {
    let recording = [0x00, 0x10, 0x00, 0x02, 0x80];
    let nodes = [
        node(2, 0, 0),
        node(2, 1, 0),
        node(13, 0, 1),
        node(11, 0, 1),
        node(12, 1, 0),
    ];
    assert_eq!(run(&nodes, 2, &recording).rows, [0x80, 0, 0x80, 0, 0x80]);
}

/// 02, F-5: 'a recording must carry every signal of its specification'.
#[test]
fn refusal_23() {
    let table = [node(2, 0, 0)];
    let answer = |signals, recording: &[u8], room| {
        let answer = evaluate(&table, signals, recording, room).answer;
        match answer {
            Answer::Accepted { .. } => (0, 0),
            Answer::Refused(refusal) => (refusal.number, refusal.place),
        }
    };
    // Three positions and K 2 of 3: good, a byte too many, a spare bit, K above, rows short.
    assert_eq!(answer(3, &[0, 0x30, 0, 2, 0x90], 9), (23, 0));
    assert_eq!(answer(3, &[0, 0x30, 0, 2, 0x90, 0], 9), (20, 6));
    assert_eq!(answer(3, &[0, 0x30, 0, 2, 0x91], 9), (20, 4));
    assert_eq!(answer(3, &[0, 0x30, 0, 4, 0x90, 0], 9), (20, 0));
    assert_eq!(answer(3, &[0, 0x30, 0, 2, 0x90], 0), (23, 0));
    assert_eq!(answer(3, &[0, 0x30, 0, 3, 0x90, 0], 0), (18, 0));
    assert_eq!(answer(3, &[0, 0x30, 0, 3, 0x90, 0], 1), (0, 0));
    // Signals that no node uses are asked for too; without signals there is nothing to record.
    assert_eq!(answer(255, &full(1, 254), 9), (23, 0));
    assert_eq!(answer(255, &full(1, 255), 9), (0, 0));
    assert_eq!(answer(256, &full(1, 255), 9), (15, 0));
    let nothing = evaluate(&[node(0, 0, 0)], 0, &[0, 0x10, 0, 0], 1);
    assert!(nothing.answer.is_accepted() && nothing.verdict());
}

/// Some positions at which all of the signals are present.
fn full(positions: usize, signals: usize) -> Vec<u8> {
    let word = second::recording::Lasso {
        loop_start: 0,
        letters: vec![vec![true; signals]; positions],
    };
    word.bytes(signals)
}

/// 02, F-5: 'The evaluator's verdicts on full recordings are the old ones'; others are refused.
#[test]
fn full_recordings_keep_their_rows() {
    let mut rng = Prng::new(8);
    let mut seen = [0; 2];
    for _ in 0..2000 {
        let signals = rng.between(1, 5);
        let count = rng.between(1, 9);
        let nodes = tables::sound(&mut rng, count, signals);
        let recorded = rng.between(0, signals);
        let word = recordings::lasso(&mut rng, 20, recorded);
        let done = run(&nodes, signals, &word.bytes(recorded));
        if recorded < signals {
            assert_eq!(done.answer, Answer::refused(23, 0));
            assert!(done.rows.is_empty());
        } else {
            let rows = second::evaluator::rows(&nodes, &word);
            let packed = rows.into_iter().flat_map(second::recording::pack_bits);
            assert_eq!(done.rows, packed.collect::<Vec<u8>>());
        }
        seen[usize::from(recorded < signals)] += 1;
    }
    assert!(seen[0] > 300 && seen[1] > 300, "{seen:?}");
}

/// The drawn recordings: every refusal and every place of 20 occurs, and about one of twelve lacks a signal.
#[test]
fn drawn_recordings_meet_every_refusal() {
    let mut rng = Prng::new(9);
    let mut seen = std::collections::BTreeMap::new();
    for _ in 0..6000 {
        let signals = rng.between(1, 4);
        let recording = recordings::recording(&mut rng, signals);
        let answer = evaluate(&[node(0, 0, 0)], signals, &recording, 256).answer;
        let what = match answer {
            Answer::Accepted { .. } => "accepted",
            Answer::Refused(refusal) if refusal.number == 23 => "23",
            Answer::Refused(refusal) if refusal.place == 0 => "20 of the header",
            Answer::Refused(refusal) if refusal.place == recording.len() => "20 of the length",
            Answer::Refused(_) => "20 of spare bits",
        };
        *seen.entry(what).or_insert(0) += 1;
    }
    assert_eq!(seen.len(), 5, "{seen:?}");
    // A twelfth, less those that are damaged too.
    assert!((250..600).contains(&seen["23"]), "{seen:?}");
}

#[test]
fn the_largest_recording() {
    let mut nodes = vec![node(2, 0, 0)];
    nodes.extend((0..8191).map(|below| node(8, below, 0)));
    let letters = (0..2048).map(|p| vec![p == 2047]).collect();
    let recording = second::recording::Lasso {
        loop_start: 0,
        letters,
    }
    .bytes(1);
    let done = evaluate(&nodes, 1, &recording, 8192 * 256);
    assert!(done.answer.is_accepted());
    // 8,191 steps later is position 8191 - 3 * 2048 = 2047.
    assert!(done.verdict());
}
