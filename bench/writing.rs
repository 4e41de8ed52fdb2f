//! The writer beside the second converter: typical texts, and tables of the largest size, as many levels as they have nodes or as few as can be.

use crate::inputs::texts::{ARBITERS, DOORS};
use crate::reading::{KB, WORK};
use crate::timing::{best, micro};
use crate::{tlsf_read, tlsf_write_basic};
use second::basic;
use std::hint::black_box;

/// More than any written text has.
const ROOM: usize = 600_000;

struct Buffers {
    work: Vec<u8>,
    out: Vec<u8>,
    nodes: Vec<u32>,
    signals: Vec<u32>,
}

impl Buffers {
    fn new() -> Buffers {
        Buffers {
            work: vec![0; WORK],
            out: vec![0; ROOM],
            nodes: vec![0; 8192],
            signals: vec![0; 255],
        }
    }

    fn write(&mut self, text: &[u8]) -> u64 {
        let (work, out) = (self.work.as_mut_ptr(), self.out.as_mut_ptr());
        unsafe { tlsf_write_basic(text.as_ptr(), text.len(), work, WORK, out, ROOM) }
    }

    fn read(&mut self, text: &[u8]) -> u64 {
        let (work, nodes, signals) = (
            self.work.as_mut_ptr(),
            self.nodes.as_mut_ptr(),
            self.signals.as_mut_ptr(),
        );
        unsafe {
            tlsf_read(
                text.as_ptr(),
                text.len(),
                work,
                WORK,
                nodes,
                8192,
                signals,
                255,
            )
        }
    }
}

/// A text of one line.
fn full(line: &str) -> Vec<u8> {
    format!(
        "INFO {{ TITLE: \"t\" DESCRIPTION: \"d\" SEMANTICS: Mealy TARGET: Mealy }} \
         MAIN {{ INPUTS {{ a; b[16]; }} OUTPUTS {{ }} GUARANTEE {{ {line}; }} }}"
    )
    .into_bytes()
}

fn row(name: &str, text: &[u8]) {
    let (mut ours, mut reads) = (Buffers::new(), Buffers::new());
    let bytes = (ours.write(text) >> 32) as usize;
    let theirs = basic::write(text, WORK, ROOM).expect("the text is accepted");
    assert!(ours.out[..bytes] == theirs, "the texts differ");
    let nodes = reads.read(text) >> 32;
    let mut write = || {
        black_box(ours.write(black_box(text)));
    };
    let mut second = || {
        black_box(basic::write(black_box(text), WORK, ROOM)).expect("the text is accepted");
    };
    let mut read = || {
        black_box(reads.read(black_box(text)));
    };
    let batch = 1 + 4 * KB / text.len();
    let [written, second, read] = best(batch, [&mut write, &mut second, &mut read]);
    println!(
        "  {name:<44} {:>6} {:>9} {:>9} {:>6.2} {:>9}   {nodes} nodes, {bytes} bytes",
        text.len(),
        micro(written),
        micro(second),
        written / second,
        micro(read),
    );
}

pub fn bench() {
    println!("\nWriter, us a text; of it, reading");
    println!(
        "  {:<44} {:>6} {:>9} {:>9} {:>6} {:>9}",
        "text", "bytes", "library", "second", "ratio", "reading"
    );
    for kind in [DOORS, ARBITERS] {
        row(&format!("typical: {}", kind.name), &kind.text(8 * KB));
    }
    row("8,192 nodes, 8,184 levels", &full("X[8179] a"));
    row(
        "8,171 nodes, half of them bits of a bus",
        &full("&&[i IN {0,1..254}] &&[j IN {0,1..15}] b[j]"),
    );
}
