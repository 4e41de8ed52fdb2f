//! The evaluator beside a straightforward Rust one that goes bit by bit: all kinds over several numbers of positions, then kind by kind.

use crate::inputs::tables::{recording, table, table_of};
use crate::inputs::Random;
use crate::timing::best;
use crate::{plain, tlsf_evaluate};

/// Above this ratio over 2,048 positions the benchmark fails.
const MOST: f64 = 0.05;

const POSITIONS: [u32; 6] = [2048, 2047, 1000, 64, 32, 8];

const KINDS: [&str; 14] = [
    "true", "false", "signal", "!", "&&", "||", "->", "<->", "X", "G", "F", "U", "R", "W",
];

/// Best times of the library and of plain Rust, which must fill the same rows; both clear the rows before each run.
fn times(nodes: &[u32], word: &[u8], signals: u32) -> [f64; 2] {
    let positions = u16::from_be_bytes([word[0], word[1]]) >> 4;
    let size = nodes.len() * (positions as usize).div_ceil(8);
    let mut proved = vec![0u8; size];
    let mut straight = vec![0u8; size];
    let mut library = || {
        proved.fill(0);
        let answer = unsafe {
            tlsf_evaluate(
                nodes.as_ptr(),
                nodes.len(),
                signals,
                word.as_ptr(),
                word.len(),
                proved.as_mut_ptr(),
                proved.len(),
            )
        };
        assert_eq!(answer, (nodes.len() as u64) << 32 | signals as u64);
    };
    let mut straightforward = || {
        straight.fill(0);
        plain::evaluate(nodes, word, &mut straight);
    };
    let found = best(1, [&mut library, &mut straightforward]);
    assert!(proved == straight, "the rows differ");
    found
}

fn line(what: &str, [ours, theirs]: [f64; 2]) -> f64 {
    let ratio = ours / theirs;
    println!(
        "  {what:<28} library {:8.3}, straightforward Rust {:8.3}, ratio {ratio:.3}",
        ours * 1e3,
        theirs * 1e3
    );
    ratio
}

pub fn bench() {
    println!("\nEvaluator, ms, 8,192 nodes; the rows are cleared before each run");
    let random = &mut Random(0x9e37_79b9_7f4a_7c15);
    let nodes = table(random, 8192, 16);
    let mut whole = 0.0;
    for positions in POSITIONS {
        let word = recording(random, positions, positions / 2, 16);
        let ratio = line(
            &format!("all kinds, {positions} positions"),
            times(&nodes, &word, 16),
        );
        if positions == 2048 {
            whole = ratio;
        }
    }
    let word = recording(random, 2048, 1000, 16);
    for (kind, name) in KINDS.iter().enumerate() {
        let nodes = table_of(random, 8192, 16, &[kind as u32]);
        line(
            &format!("{name} only, 2048 positions"),
            times(&nodes, &word, 16),
        );
    }
    let word = recording(random, 2048, 1000, 255);
    let nodes = table_of(random, 8192, 255, &[2]);
    line("255 signals, 2048 positions", times(&nodes, &word, 255));
    assert!(
        whole <= MOST,
        "8,192 nodes over 2,048 positions take {whole:.3} of plain Rust, more than {MOST}"
    );
}
