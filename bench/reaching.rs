//! How far ahead tables of 8,192 nodes look, beside a straightforward Rust that checks the table first.

use crate::inputs::tables::{chain, table, MAX_NODES};
use crate::inputs::Random;
use crate::timing::{best, micro};
use crate::{plain, tlsf_reach};
use std::hint::black_box;

/// The answer where there is no bound: 0 above 1.
const UNBOUNDED: u64 = 1;

fn bench_table(name: &str, nodes: &[u32]) {
    assert_eq!(nodes.len(), MAX_NODES);
    let expected = plain::reach(nodes).map_or(UNBOUNDED, |last| (last as u64) << 32);
    let mut library = || {
        let nodes = black_box(nodes);
        let answer = unsafe { tlsf_reach(nodes.as_ptr(), nodes.len()) };
        assert_eq!(answer, expected);
    };
    let mut checking = || {
        assert!(plain::is_table(black_box(nodes)));
        black_box(plain::reach(black_box(nodes)));
    };
    let mut trusting = || {
        black_box(plain::reach(black_box(nodes)));
    };
    let [ours, with, without] = best(10, [&mut library, &mut checking, &mut trusting]);
    println!(
        "  {name:<25} {:>9} {:>9} {:>6.2} {:>9} {:>6.2}",
        micro(ours),
        micro(with),
        ours / with,
        micro(without),
        ours / without
    );
}

pub fn bench() {
    println!("\nReach, us, 8,192 nodes: library, plain Rust that checks the table, ratio, that does not, ratio");
    let random = &mut Random(0x9e37_79b9_7f4a_7c15);
    bench_table("every kind, shared", &table(random, MAX_NODES as u32, 16));
    bench_table("8,191 X over a signal", &chain(8, 8191, false));
    bench_table("8,191 && over a signal", &chain(4, 8191, false));
    bench_table("8,191 ! over a signal", &chain(3, 8191, false));
    bench_table("<-> of a node with itself", &chain(7, 8191, true));
}
