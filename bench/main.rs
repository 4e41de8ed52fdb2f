//! Times the proved library beside other implementations of the same job, on the same input, in one run: the best of many runs, in turn. Prints times, ratios, how the
//! time of a text grows, and the stack that the deepest tables need.

mod day;
mod diagnosing;
mod evaluation;
mod inputs;
mod plain;
mod reaching;
mod reading;
mod rewriting;
mod timing;
mod writing;

include!("../include/tlsf.rs");

/// Enough for the deepest text in the second converter.
const STACK_BYTES: usize = 128 << 20;

fn bench_all() {
    reading::bench();
    rewriting::bench();
    evaluation::bench();
    diagnosing::bench();
    reaching::bench();
    writing::bench();
}

fn main() {
    let words: Vec<String> = std::env::args().skip(1).collect();
    if let [word, numbers @ ..] = &words[..] {
        assert_eq!(word, "stack");
        let [kib, kind, form] = [0, 1, 2].map(|n| numbers[n].parse::<u32>().unwrap());
        return rewriting::run_on_stack(kib as usize, kind, form);
    }
    let thread = std::thread::Builder::new().stack_size(STACK_BYTES);
    thread.spawn(bench_all).unwrap().join().unwrap();
    rewriting::bench_stack();
}
