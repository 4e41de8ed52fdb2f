//! Each case: a table to rewrite and one to look ahead from, recordings to evaluate, a text to write in the basic format, one to diagnose on a recording, and a text to read and to convert to each form.

use compare::answers::Tally;
use compare::arguments::{self, Wanted};
use compare::case::{Case, Difference};
use compare::library::{Library, PROVED};
use compare::{diagnosing, evaluation, reach, reading, rewriting, run, self_test, spoils, writing};

const COMMAND: &str = "compare/run";

fn compare(case: Case, library: &Library, tally: &mut Tally) -> Result<(), Difference> {
    let mut rng = case.rng();
    rewriting::compare(&mut rng, library, tally)?;
    reach::compare(&mut rng, library, tally)?;
    evaluation::compare(case, &mut rng, library, tally)?;
    reading::compare(case, &mut rng, library, tally)?;
    writing::compare(&mut rng, library, tally)?;
    diagnosing::compare(&mut rng, library, tally)
}

fn main() {
    let words: Vec<String> = std::env::args().skip(1).collect();
    let status = match arguments::parse(COMMAND, &words) {
        Ok(Wanted::SelfTest) => self_test::report(COMMAND, &spoils::ALL, compare),
        Ok(Wanted::Run(arguments)) => run::report(COMMAND, &arguments, |case, tally| {
            compare(case, &PROVED, tally)
        }),
        Err(usage) => {
            eprintln!("{usage}");
            2
        }
    };
    std::process::exit(status);
}
