//! Document 01's file in full, from text to formula to verdict, and refusals handed up.

use tlsf::{Answer, MOST_NODES, MOST_SIGNALS, WORK_BYTES};

const TEXT: &[u8] = b"INFO { TITLE: \"t\" DESCRIPTION: \"d\" SEMANTICS: Mealy TARGET: Mealy } MAIN { INPUTS { r; } OUTPUTS { g; } GUARANTEE { G (r -> F g); } }";

fn root_at_start(recording: &[u8]) -> bool {
    let mut work = [0; WORK_BYTES];
    let mut nodes = [0; MOST_NODES];
    let mut signals = [0; MOST_SIGNALS];
    let answer = tlsf::read(TEXT, &mut work, &mut nodes, &mut signals);
    assert_eq!(answer, Answer::Accepted { nodes: 17, signals: 2 });
    let mut rows = [0; 17];
    let answer = tlsf::evaluate(&nodes[..17], 2, recording, &mut rows);
    assert_eq!(answer, Answer::Accepted { nodes: 17, signals: 2 });
    rows[16] & 0x80 != 0
}

#[test]
fn the_two_starred_recordings() {
    assert!(root_at_start(&[0x00, 0x30, 0x01, 0x02, 0x90]));
    assert!(!root_at_start(&[0x00, 0x30, 0x01, 0x02, 0x80]));
}

#[test]
fn a_text_that_targets_the_other_model_is_converted() {
    let text = String::from_utf8_lossy(TEXT);
    for (word, changed, node) in [("SEMANTICS: Mealy", "SEMANTICS: Moore", 9), ("TARGET: Mealy", "TARGET: Moore", 10)] {
        let (mut nodes, mut signals) = ([0; MOST_NODES], [0; MOST_SIGNALS]);
        let answer = tlsf::read(text.replace(word, changed).as_bytes(), &mut [0; WORK_BYTES], &mut nodes, &mut signals);
        assert_eq!(answer, Answer::Accepted { nodes: 18, signals: 2 });
        assert_eq!(nodes[node], 8 << 28 | (node as u32 - 1) << 14);
    }
}

#[test]
fn a_form_is_written_either_way() {
    let mut work = [0; WORK_BYTES];
    let (mut nodes, mut signals) = ([0; MOST_NODES], [0; MOST_SIGNALS]);
    let _ = tlsf::read(TEXT, &mut work, &mut nodes, &mut signals);
    for form in 0..3 {
        let (mut rewritten, mut converted) = ([0; MOST_NODES], [0; MOST_NODES]);
        let Answer::Accepted { nodes: count, .. } = tlsf::rewrite(&nodes[..17], form, &mut rewritten) else {
            panic!("form {form} is refused");
        };
        let answer = tlsf::convert(TEXT, form, &mut work, &mut converted, &mut signals);
        assert_eq!(answer, Answer::Accepted { nodes: count, signals: 2 });
        assert_eq!(rewritten, converted);
    }
}

#[test]
fn refusals_come_with_their_places() {
    let (mut nodes, mut signals) = ([7; 12], [7; 2]);
    let answer = tlsf::read(TEXT, &mut [0; WORK_BYTES - 1], &mut nodes, &mut signals);
    assert_eq!(answer, Answer::Refused { number: 17, place: 0 });
    let answer = tlsf::read(TEXT, &mut [0; WORK_BYTES], &mut nodes, &mut signals);
    assert_eq!(answer, Answer::Refused { number: 18, place: 0 });
    assert_eq!((nodes, signals), ([7; 12], [7; 2]));
    let answer = tlsf::read(b"", &mut [0; WORK_BYTES], &mut [], &mut []);
    assert_eq!(answer, Answer::Refused { number: 4, place: 0 });
    assert_eq!(tlsf::rewrite(&[], 3, &mut []), Answer::Refused { number: 21, place: 0 });
    assert_eq!(tlsf::rewrite(&[15 << 28], 0, &mut [0; 1]), Answer::Refused { number: 19, place: 0 });
}
