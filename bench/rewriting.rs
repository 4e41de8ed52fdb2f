//! The rewriter beside a straightforward Rust one, what a tree of 2 to the 8,000 nodes costs, and the stack that the deepest tables need.

use crate::inputs::tables::{chain, fitting_tree, MAX_NODES};
use crate::timing::{best, micro};
use crate::{plain, tlsf_rewrite};
use std::hint::black_box;
use std::process::{Command, Stdio};

/// Node counts of the tables that are rewritten.
const SIZES: [usize; 3] = [100, 1000, 8000];

const FORMS: [u32; 3] = [0, 1, 2];

/// The answer to a refusal by 16: more than 8,192 nodes.
const TOO_MANY: u64 = 1 << 63 | 16 << 32;

fn library_rewrite(nodes: &[u32], form: u32, out: &mut [u32]) -> u64 {
    unsafe {
        tlsf_rewrite(
            nodes.as_ptr(),
            nodes.len(),
            form,
            out.as_mut_ptr(),
            out.len(),
        )
    }
}

/// Rewrites a tree of about `size` nodes.
fn bench_form(size: usize, form: u32) {
    let (source, expected) = fitting_tree(size, form);
    let mut out = vec![0u32; MAX_NODES];
    let mut checked = Vec::with_capacity(MAX_NODES);
    let mut unchecked = Vec::with_capacity(MAX_NODES);
    let mut library = || {
        let answer = library_rewrite(black_box(&source), form, &mut out);
        assert_eq!(answer, (expected.len() as u64) << 32);
    };
    let mut checking = || {
        checked.clear();
        assert!(plain::is_table(black_box(&source)));
        plain::rewrite(black_box(&source), form, &mut checked);
    };
    let mut trusting = || {
        unchecked.clear();
        plain::rewrite(black_box(&source), form, &mut unchecked);
    };
    let batch = 1 + 20_000 / source.len();
    let [ours, with, without] = best(batch, [&mut library, &mut checking, &mut trusting]);
    assert!(out[..expected.len()] == expected[..], "the nodes differ");
    assert!(checked == expected && unchecked == expected);
    println!(
        "  {form:>4} {:>6} {:>6} {:>9} {:>9} {:>6.2} {:>9} {:>6.2}",
        source.len(),
        expected.len(),
        micro(ours),
        micro(with),
        ours / with,
        micro(without),
        ours / without
    );
}

/// A table whose tree would have more than 2 to the 8,000 nodes, refused by 16: beside a table as deep whose tree has 8,192 nodes.
fn bench_refusal(form: u32) {
    let (shared, single) = (chain(7, 8000, true), chain(8, 8191, false));
    let mut buffers = [vec![0u32; MAX_NODES], vec![0u32; MAX_NODES]];
    let [left, right] = &mut buffers;
    let mut refused = || assert_eq!(library_rewrite(&shared, form, left), TOO_MANY);
    let mut accepted = || assert_eq!(library_rewrite(&single, form, right), 8192 << 32);
    let [ours, full] = best(10, [&mut refused, &mut accepted]);
    println!("  {form:>4} {:>21} {:>20}", micro(ours), micro(full));
}

/// Rewrites the deepest table of a kind, below a `!`, on a thread with a stack of so many KB; a stack that is too small ends the process.
pub fn run_on_stack(kib: usize, kind: u32, form: u32) {
    let job = move || {
        let mut source = chain(kind, 8190, false);
        source.push(plain::pack(3, 8190, 0));
        let mut out = vec![0u32; MAX_NODES];
        black_box(library_rewrite(&source, form, &mut out));
    };
    let thread = std::thread::Builder::new().stack_size(kib * 1024);
    thread.spawn(job).unwrap().join().unwrap();
}

fn fits_stack(kib: usize, kind: u32, form: u32) -> bool {
    let mut child = Command::new(std::env::current_exe().unwrap());
    let numbers = [kib as u32, kind, form].map(|n| n.to_string());
    child.arg("stack").args(numbers);
    child.stderr(Stdio::null()).status().unwrap().success()
}

/// The stack that a form of the deepest tables needs, whatever their operator, in steps of 16 KB.
fn stack_needed(form: u32) -> usize {
    let mut enough = 16;
    for kind in 3..14 {
        while !fits_stack(enough, kind, form) {
            enough += 16;
        }
    }
    enough
}

pub fn bench() {
    println!("\nRewriter, us a table, beside straightforward Rust that checks the table and that does not; the result buffers are not cleared");
    println!(
        "  {:>4} {:>6} {:>6} {:>9} {:>9} {:>6} {:>9} {:>6}",
        "form", "nodes", "to", "library", "checking", "ratio", "trusting", "ratio"
    );
    for size in SIZES {
        FORMS.into_iter().for_each(|form| bench_form(size, form));
    }
    println!("\nRewriter, us: 8,000 levels of a <-> a, refused by 16, and 8,191 levels of X, accepted with 8,192 nodes");
    println!("  {:>4} {:>21} {:>20}", "form", "refused", "accepted");
    FORMS.into_iter().for_each(bench_refusal);
}

pub fn bench_stack() {
    let [expanded, negation, core] = FORMS.map(stack_needed);
    println!("\nRewriter, stack of the deepest tables, `!` above 8,190 levels of any operator");
    println!("  {expanded} KB in form 0, {negation} KB in form 1, {core} KB in form 2");
}
