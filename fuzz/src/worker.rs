//! Runs cases one after the other until a time is over or one differs.

use crate::calls::Caller;
use crate::state::State;
use compare::case::{Case, Difference};
use compare::library::Library;
use compare::run::{kept, Found};
use second::stack;
use std::path::{Path, PathBuf};
use std::time::{Duration, Instant};

/// Where inputs of findings are kept.
pub const FOLDER: &str = "target/fuzz";

/// Where the input of a case that is run by itself is kept, a table as its nodes' bytes.
pub fn input_file(seed: u64, index: u64) -> PathBuf {
    Path::new(FOLDER).join(format!("case-{seed}-{index}.input"))
}

/// Cases from an index on; yields the exit status.
pub fn work(library: Library, state: &Path, first: Case, seconds: u64, count: u64) -> i32 {
    let end = Instant::now() + Duration::from_secs(seconds);
    let state = State::of(state);
    // Both converters run on a stack of 128 MB: what stack the library needs is measured elsewhere.
    let found = stack::deep(|| {
        let mut caller = Caller::new(library, state, count == 1);
        for index in first.index..first.index.saturating_add(count) {
            if Instant::now() >= end {
                break;
            }
            let case = Case { index, ..first };
            if let Err(difference) = caller.call(case) {
                return Some(Found { case, difference });
            }
        }
        None
    });
    match found {
        None => 0,
        Some(found) => {
            tell(&found);
            1
        }
    }
}

fn tell(found: &Found) {
    let Difference {
        job, library, due, ..
    } = &found.difference;
    let Case { seed, index } = found.case;
    let again = format!("fuzz/run --case {seed} {index}");
    let file = kept(&again, Path::new(FOLDER), found);
    println!("seed {seed}, case {index} differs: {job}\nlibrary: {library}\ndue: {due}");
    println!("kept in {}", file.display());
}
