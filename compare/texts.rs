//! Compares the program `checked_run` with the second converter on fresh texts: refusals 1 to 10 by number and place, texts that pass them by their number of tokens.
//! The first difference is printed, its text kept, and the run ends.
//!
//! usage: texts PROGRAM SEED COUNT

use second::answer::Answer;
use second::generate::{self, prng::Prng};
use second::{reader, token};
use std::collections::BTreeMap;
use std::path::Path;
use std::process::Command;

/// Texts for one run of the program.
const BATCH: u64 = 500;

/// The last refusal that stands before evaluation.
const LAST: u32 = 10;

/// How often each answer was given: 0 for texts that pass refusals 1 to 10, otherwise the refusal's number.
type Tally = BTreeMap<u32, u64>;

/// The line due up to the counts that the second converter cannot tell.
fn due(name: &str, text: &[u8], tally: &mut Tally) -> String {
    let (number, line) = match reader::read_freely(text).answer {
        Answer::Refused(refusal) if refusal.number <= LAST => (
            refusal.number,
            format!("{name}: refused {} {}", refusal.number, refusal.place),
        ),
        _ => {
            let count = token::tokens(text).map_or(0, |tokens| tokens.len());
            (0, format!("{name}: tokens {count}, "))
        }
    };
    *tally.entry(number).or_default() += 1;
    line
}

fn agrees(line: &str, due: &str) -> bool {
    line == due || (due.ends_with(", ") && line.starts_with(due))
}

fn batch(program: &str, folder: &Path, rng: &mut Prng, size: u64, tally: &mut Tally) {
    let mut names = Vec::new();
    let mut wanted = Vec::new();
    for i in 0..size {
        let text = generate::any_text(rng);
        let name = format!("text{i}");
        std::fs::write(folder.join(&name), &text).expect("a text can be written");
        wanted.push(due(&name, &text, tally));
        names.push(name);
    }
    let output = Command::new(program)
        .args(&names)
        .current_dir(folder)
        .output();
    let written = String::from_utf8_lossy(&output.expect("the program runs").stdout).into_owned();
    let mut lines = written.lines();
    for (name, due) in names.iter().zip(&wanted) {
        let line = lines.next().unwrap_or("nothing");
        if !agrees(line, due) {
            println!(
                "{}: the program writes '{line}', due is '{due}'",
                folder.join(name).display()
            );
            std::process::exit(1);
        }
    }
}

fn main() {
    let arguments: Vec<String> = std::env::args().skip(1).collect();
    let number = |at: usize| arguments.get(at).and_then(|word| word.parse::<u64>().ok());
    let (Some(program), Some(seed), Some(count)) = (arguments.first(), number(1), number(2)) else {
        eprintln!("usage: texts PROGRAM SEED COUNT");
        std::process::exit(2);
    };
    let folder = std::env::temp_dir().join(format!("compare-texts-{}", std::process::id()));
    std::fs::create_dir_all(&folder).expect("a folder for the texts");
    let mut rng = Prng::new(seed);
    let mut tally = Tally::new();
    let mut left = count;
    while left > 0 {
        let size = left.min(BATCH);
        batch(program, &folder, &mut rng, size, &mut tally);
        left -= size;
    }
    std::fs::remove_dir_all(&folder).expect("the folder goes");
    print!("texts: seed {seed}, {count} compared, 0 differences;");
    for (number, times) in &tally {
        match number {
            0 => print!(" passed {times}"),
            _ => print!(" refused {number}: {times}"),
        }
    }
    println!();
}
