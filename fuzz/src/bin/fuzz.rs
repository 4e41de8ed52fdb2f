//! Hostile input for the proved library, through its C interface. See `fuzz/run`.

use compare::case::Case;
use compare::library::PROVED;
use fuzz::watch::Watch;
use fuzz::{faulty, worker};
use std::path::Path;

const USAGE: &str = "usage: fuzz/run SECONDS [SEED]
       fuzz/run --case SEED INDEX
       fuzz/run --self-test";

/// `--worker STATE SEED INDEX SECONDS COUNT [FAULT]`, as the watching process calls it.
fn worker(words: &[&str], numbers: &[u64]) -> Option<i32> {
    let [seed, index, seconds, count] = numbers.get(..4)?.try_into().ok()?;
    let library = match numbers.get(4) {
        Some(fault) => faulty::library(*fault as usize),
        None => PROVED,
    };
    let first = Case { seed, index };
    Some(worker::work(
        library,
        Path::new(words[1]),
        first,
        seconds,
        count,
    ))
}

fn run(words: &[&str]) -> Option<i32> {
    let numbers: Vec<u64> = words.iter().filter_map(|word| word.parse().ok()).collect();
    match (words.first()?, &numbers[..]) {
        (&"--self-test", []) => Some(faulty::report()),
        (&"--worker", numbers) => worker(words, numbers),
        (&"--case", [seed, index]) => Some(Watch::new(*seed, None).case(*index)),
        (_, [seconds]) => Some(Watch::new(1, None).run(*seconds)),
        (_, [seconds, seed]) => Some(Watch::new(*seed, None).run(*seconds)),
        _ => None,
    }
}

fn main() {
    let words: Vec<String> = std::env::args().skip(1).collect();
    let words: Vec<&str> = words.iter().map(String::as_str).collect();
    let status = run(&words).unwrap_or_else(|| {
        eprintln!("{USAGE}");
        2
    });
    std::process::exit(status);
}
