//! Each case: an accepted text on some lasso words, its own meaning beside the root's rows of all three forms.

use compare::arguments::{self, Wanted};
use compare::library::PROVED;
use compare::{meaning, run, self_test, spoils};

const COMMAND: &str = "compare/meaning";

fn main() {
    let words: Vec<String> = std::env::args().skip(1).collect();
    let status = match arguments::parse(COMMAND, &words) {
        Ok(Wanted::SelfTest) => self_test::report(COMMAND, &spoils::OF_MEANING, meaning::compare),
        Ok(Wanted::Run(arguments)) => run::report(COMMAND, &arguments, |case, tally| {
            meaning::compare(case, &PROVED, tally)
        }),
        Err(usage) => {
            eprintln!("{usage}");
            2
        }
    };
    std::process::exit(status);
}
