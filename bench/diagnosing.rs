//! Which line failed, beside the plain verdict on the same text and recording: `tlsf_diagnose` beside `tlsf_read`, `tlsf_evaluate` and the root's bit.

use crate::reading::WORK;
use crate::timing::best;
use crate::{tlsf_diagnose, tlsf_evaluate, tlsf_read};
use std::hint::black_box;

/// Above this ratio the benchmark fails.
const MOST: f64 = 1.1;

const NODES: usize = 8192;
const SIGNALS: usize = 4;
const POSITIONS: usize = 2048;
const ROWS: usize = NODES * POSITIONS / 8;

/// A strict text of 8,192 nodes, most of them in the first 268 lines of ASSERT. Where `r` holds always these hold, and the last line of a section fails by one position of
/// `a` (ASSERT) or `b`.
fn text() -> Vec<u8> {
    let with = |steps: usize| {
        let held = "!a || X[24] !a; ".repeat(268);
        format!(
            "INFO {{ TITLE: \"t\" DESCRIPTION: \"d\" SEMANTICS: Mealy,Strict TARGET: Mealy }} MAIN {{ INPUTS {{ r; a; b; c; }} OUTPUTS {{ }} \
             PRESET {{ true; !b; }} REQUIRE {{ r; }} ASSERT {{ {held} !a || !r; }} GUARANTEE {{ true; G X[{steps}] !b; }} }}"
        )
        .into_bytes()
    };
    let (mut work, mut nodes, mut signals) = (vec![0; WORK], vec![0; NODES], vec![0; SIGNALS]);
    let used = plain_read(&with(1), &mut work, &mut nodes, &mut signals);
    with(1 + NODES - used)
}

/// A recording in which `r` holds always and one other signal at one position.
fn recording(position: usize, signal: usize) -> Vec<u8> {
    let header = (POSITIONS as u32) << 20 | 1000 << 8 | SIGNALS as u32;
    let mut bytes = header.to_be_bytes().to_vec();
    bytes.resize(4 + POSITIONS * SIGNALS / 8, 0x88);
    let bit = position * SIGNALS + signal;
    bytes[4 + bit / 8] |= 0x80 >> (bit % 8);
    bytes
}

fn plain_read(text: &[u8], work: &mut [u8], nodes: &mut [u32], signals: &mut [u32]) -> usize {
    let answer = unsafe {
        tlsf_read(
            text.as_ptr(),
            text.len(),
            work.as_mut_ptr(),
            work.len(),
            nodes.as_mut_ptr(),
            nodes.len(),
            signals.as_mut_ptr(),
            signals.len(),
        )
    };
    assert_eq!(answer as u32 as usize, SIGNALS, "refused: {answer:x}");
    (answer >> 32) as usize
}

/// Does the text fail?
fn plain_verdict(text: &[u8], word: &[u8], work: &mut [u8], rows: &mut [u8]) -> bool {
    let (mut nodes, mut signals) = ([0; NODES], [0; SIGNALS]);
    let count = plain_read(text, work, &mut nodes, &mut signals);
    let answer = unsafe {
        tlsf_evaluate(
            nodes.as_ptr(),
            count,
            SIGNALS as u32,
            word.as_ptr(),
            word.len(),
            rows.as_mut_ptr(),
            rows.len(),
        )
    };
    assert_eq!(answer, (count as u64) << 32 | SIGNALS as u64);
    rows[(count - 1) * POSITIONS / 8] & 0x80 == 0
}

fn diagnose(text: &[u8], word: &[u8], work: &mut [u8], rows: &mut [u8]) -> u64 {
    unsafe {
        tlsf_diagnose(
            text.as_ptr(),
            text.len(),
            word.as_ptr(),
            word.len(),
            work.as_mut_ptr(),
            work.len(),
            rows.as_mut_ptr(),
            rows.len(),
        )
    }
}

fn row(name: &str, text: &[u8], word: &[u8], section: u64, line: u64) -> f64 {
    let (mut work, mut rows) = (vec![0; WORK], vec![0; ROWS]);
    let (mut plain_work, mut plain_rows) = (vec![0; WORK], vec![0; ROWS]);
    assert_eq!(
        diagnose(text, word, &mut work, &mut rows),
        section << 32 | line
    );
    assert!(plain_verdict(text, word, &mut plain_work, &mut plain_rows));
    assert!(rows == plain_rows, "the rows differ");
    let mut named = || {
        black_box(diagnose(black_box(text), word, &mut work, &mut rows));
    };
    let mut judged = || {
        black_box(plain_verdict(
            black_box(text),
            word,
            &mut plain_work,
            &mut plain_rows,
        ));
    };
    let [named, judged] = best(1, [&mut named, &mut judged]);
    println!(
        "  {name:<44} {:8.3} {:8.3} {:6.3}",
        named * 1e3,
        judged * 1e3,
        named / judged
    );
    named / judged
}

pub fn bench() {
    println!("\nWhich line failed, ms, 8,192 nodes over 2,048 positions, beside the plain verdict");
    println!(
        "  {:<44} {:>8} {:>8} {:>6}",
        "line", "line", "verdict", "ratio"
    );
    let text = text();
    let last = POSITIONS - 1;
    let worst = [
        row("PRESET 2", &text, &recording(0, 2), 1, 2),
        row(
            "ASSERT 269, at the last position",
            &text,
            &recording(last, 1),
            2,
            269,
        ),
        row(
            "GUARANTEE 2, after every position",
            &text,
            &recording(last, 2),
            3,
            2,
        ),
    ]
    .into_iter()
    .fold(0.0, f64::max);
    assert!(
        worst <= MOST,
        "the line takes {worst:.3} of the plain verdict's time, more than {MOST}"
    );
}
