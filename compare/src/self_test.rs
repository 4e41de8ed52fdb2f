//! That a comparison can fail: each planted fault has to be seen, and the library without one to agree.

use crate::answers::Tally;
use crate::arguments::Arguments;
use crate::case::{Case, Difference};
use crate::faults::{planted, Fault};
use crate::library::{Library, PROVED};
use crate::run;
use std::path::Path;

const SEED: u64 = 7;

/// Cases within which a fault has to be seen.
const CASES: u64 = 2_000;

/// Cases of the library without a fault.
const CONTROL: u64 = 300;

/// What compares one case with a library.
pub type Compare = fn(Case, &Library, &mut Tally) -> Result<(), Difference>;

fn arguments(from: u64, count: u64) -> Arguments {
    Arguments {
        seed: SEED,
        count,
        from,
        threads: 1,
    }
}

/// The lowest differing case of these, which must come again by itself and be kept with both answers.
fn caught(compare: Compare, library: &Library, folder: &Path) -> Option<u64> {
    let compared = |case: Case, tally: &mut Tally| compare(case, library, tally);
    let found = run::cases(&arguments(0, CASES), compared).1?;
    let again = run::cases(&arguments(found.case.index, 1), compared).1?;
    let file = run::kept("self-test", folder, &again);
    let report = std::fs::read_to_string(file).ok()?;
    let whole = ["library: ", "due: ", "in hexadecimal: "]
        .iter()
        .all(|part| report.contains(part));
    (whole && again.difference.library == found.difference.library).then_some(found.case.index)
}

/// Plants each fault in turn; yields the exit status: 0 where each was seen.
pub fn report(command: &str, faults: &'static [Fault], compare: Compare) -> i32 {
    let control = |case: Case, tally: &mut Tally| compare(case, &PROVED, tally);
    let mut missed = 0;
    if let Some(found) = run::cases(&arguments(0, CONTROL), control).1 {
        println!("without a fault: {:?} differs", found.case);
        missed += 1;
    }
    let folder = std::env::temp_dir().join(format!("compare-self-test-{}", std::process::id()));
    for fault in faults {
        match caught(compare, &planted(fault), &folder) {
            Some(index) => println!("{}: seen in case {index}", fault.name),
            None => {
                println!("{}: NOT SEEN in {CASES} cases", fault.name);
                missed += 1;
            }
        }
    }
    std::fs::remove_dir_all(&folder).unwrap_or_default();
    let library = planted(&faults[0]);
    let compared = |case: Case, tally: &mut Tally| compare(case, &library, tally);
    if run::report(command, &arguments(0, CASES), compared) != 1 {
        println!("a run that differs does not end with status 1");
        missed += 1;
    }
    let total = faults.len();
    println!("{command}: {total} planted faults, {missed} missed");
    i32::from(missed > 0)
}
