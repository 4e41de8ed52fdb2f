//! Each case: a text on a recording that fails, and the line that is named.

use compare::answers::Tally;
use compare::arguments::{self, Wanted};
use compare::case::{Case, Difference};
use compare::library::{Library, PROVED};
use compare::{diagnosing, run, self_test, spoils};

const COMMAND: &str = "compare/blame";

fn compare(case: Case, library: &Library, tally: &mut Tally) -> Result<(), Difference> {
    diagnosing::compare_failing(&mut case.rng(), library, tally)
}

fn main() {
    let words: Vec<String> = std::env::args().skip(1).collect();
    let status = match arguments::parse(COMMAND, &words) {
        Ok(Wanted::SelfTest) => self_test::report(COMMAND, &spoils::OF_LINES, compare),
        Ok(Wanted::Run(arguments)) => run::report(COMMAND, &arguments, |case, tally| {
            compare(case, &PROVED, tally)
        }),
        Err(usage) => {
            eprintln!("{usage}");
            2
        }
    };
    std::process::exit(status);
}
