//! Writes the stored cases of the crate `second_cases`: texts, tables and recordings with the answers that this converter gives, for the definitions to be computed
//! against. `stored write DIR` writes the files, `stored check DIR` tells whether they are what would be written, and `stored fresh DIR SEED COUNT` writes COUNT other
//! texts in their place.

use second::answer::Answer;
use second::generate::prng::Prng;
use second::generate::{self, recordings, tables};
use second::{evaluator, limits, reader, rewriter};
use std::collections::BTreeMap;
use std::fmt::Write;
use std::path::Path;

const SEED: u64 = 20_261_115;

/// How many texts of each answer are stored: 0 stands for accepted, another number for its refusal.
const STORED: [(u32, usize); 13] = [
    (0, 176),
    (2, 20),
    (4, 40),
    (5, 10),
    (6, 24),
    (7, 24),
    (8, 10),
    (9, 24),
    (10, 24),
    (11, 24),
    (12, 24),
    (13, 24),
    (15, 10),
];
const TABLES: usize = 72;
const RECORDINGS: usize = 72;

/// Cases in one statement, and statements in one file.
const TOGETHER: usize = 4;
const STATEMENTS: usize = 12;

/// The longest text stored: a tree too deep and too many names need long ones.
fn longest(number: u32) -> usize {
    match number {
        5 => 600,
        8 => 2_200,
        _ => 170,
    }
}

/// The longest fresh text.
const FRESH_LONGEST: usize = 300;

/// Is the text worked out in few steps? Large numerals make long stacks of X.
fn light(text: &[u8], number: u32) -> bool {
    let small = |run: &[u8]| run.len() < 4;
    let worked_out = number == 0 || number > 10;
    !matches!(number, 1 | 3 | 16)
        && (!worked_out || text.split(|byte| !byte.is_ascii_digit()).all(small))
}

fn number_of(answer: &Answer) -> u32 {
    match answer {
        Answer::Accepted { .. } => 0,
        Answer::Refused(refusal) => refusal.number,
    }
}

fn list<T: std::fmt::Display>(items: impl IntoIterator<Item = T>) -> String {
    let mut text = String::from("(");
    for item in items {
        write!(text, "{item} ∷ ").expect("a string grows");
    }
    text + "[])"
}

fn bytes(text: &[u8]) -> String {
    if text.iter().all(|byte| (32..127).contains(byte)) {
        let written: String = text.iter().map(|&byte| char::from(byte)).collect();
        let escaped = written.replace('\\', "\\\\").replace('"', "\\\"");
        return format!("(ascii \"{escaped}\")");
    }
    list(text)
}

fn expected(answer: &Answer, first: String, second: String) -> String {
    match answer {
        Answer::Accepted { .. } => format!("Accepted {first} {second}"),
        Answer::Refused(refusal) => format!("Rejected {} {}", refusal.number, refusal.place),
    }
}

fn counts(answer: &Answer) -> String {
    match answer {
        Answer::Accepted { nodes, signals } => list([nodes, signals]),
        Answer::Refused(_) => list([0; 0]),
    }
}

fn text_case(text: &[u8], reading: &reader::Reading) -> String {
    let answer = expected(
        &reading.answer,
        list(&reading.nodes),
        list(&reading.signals),
    );
    format!("record {{ bytes = {}; expected = {answer} }}", bytes(text))
}

/// Texts of any answer that is worked out in few steps.
fn fresh_texts(seed: u64, count: usize) -> Vec<String> {
    let mut rng = Prng::new(seed);
    let mut cases = Vec::new();
    while cases.len() < count {
        let text = generate::short_text(&mut rng, FRESH_LONGEST);
        let reading = reader::read_freely(&text);
        if light(&text, number_of(&reading.answer)) && reading.nodes.len() <= 600 {
            cases.push(text_case(&text, &reading));
        }
    }
    cases
}

fn texts() -> Vec<String> {
    let mut rng = Prng::new(SEED);
    let mut left = BTreeMap::from(STORED);
    let mut cases = Vec::new();
    while left.values().any(|&many| many > 0) {
        let text = generate::any_text(&mut rng);
        let reading = reader::read_freely(&text);
        let number = number_of(&reading.answer);
        let Some(many) = left.get_mut(&number) else {
            continue;
        };
        let short = text.len() <= longest(number) && reading.nodes.len() <= 60;
        if *many > 0 && short && light(&text, number) {
            *many -= 1;
            cases.push(text_case(&text, &reading));
        }
    }
    cases
}

fn form_cases() -> Vec<String> {
    let mut rng = Prng::new(SEED);
    let mut cases = Vec::new();
    while cases.len() < TABLES {
        let signals = rng.between(1, 4);
        let nodes = tables::table(&mut rng, signals);
        // Forms 1 and 2 mostly, then form 0 and a form that there is not.
        let form = [1, 2, 1, 2, 1, 2, 1, 2, 0, 3][rng.below(10)];
        let due = rewriter::rewrite(&nodes, form, limits::NODES).nodes.len();
        if nodes.len().max(due) > 40 {
            continue;
        }
        let room = if rng.one_in(8) {
            due.saturating_sub(1)
        } else {
            due + rng.below(3)
        };
        let done = rewriter::rewrite(&nodes, form, room);
        let answer = expected(&done.answer, list(&done.nodes), counts(&done.answer));
        cases.push(format!(
            "record {{ nodes = {}; form = {form}; room = {room}; expected = {answer} }}",
            list(&nodes)
        ));
    }
    cases
}

fn recording_cases() -> Vec<String> {
    let mut rng = Prng::new(SEED);
    let mut cases = Vec::new();
    while cases.len() < RECORDINGS {
        let signals = if rng.one_in(12) {
            rng.between(250, 257)
        } else {
            rng.below(5)
        };
        let nodes = tables::table(&mut rng, signals.clamp(1, 4));
        let recording = recordings::recording(&mut rng, signals.min(255));
        if nodes.len() > 14 || recording.len() > 14 {
            continue;
        }
        let due = evaluator::evaluate(&nodes, signals, &recording, usize::MAX)
            .rows
            .len();
        let room = if rng.one_in(8) {
            due.saturating_sub(1)
        } else {
            due + rng.below(3)
        };
        let done = evaluator::evaluate(&nodes, signals, &recording, room);
        let answer = expected(&done.answer, list(&done.rows), counts(&done.answer));
        cases.push(format!(
            "record {{ nodes = {}; signals = {signals}; bytes = {}; room = {room}; expected = {answer} }}",
            list(&nodes),
            list(&recording)
        ));
    }
    cases
}

/// What the files of one kind of case share.
struct Kind {
    file: &'static str,
    item: &'static str,
    test: &'static str,
    uses: &'static str,
    unfolding: &'static str,
}

const TEXTS: Kind = Kind {
    file: "Texts",
    item: "Text",
    test: "texts_held",
    uses: "use Rattle.node.specs.Postorder.{size, nodes_from}
use Rattle.node.specs.Written.{nodes_of, count}
use Rattle.node.specs.Result.{◌>>=◌, guard}
use Rattle.language.specs.Bytes.{ascii}
use Rattle.language.specs.Places.{refuse_at}
use Rattle.language.specs.Parsing.{parsed}
use Rattle.language.specs.Reading.{text_expansion, spec_expansion}
",
    unfolding: "text_expansion parsed spec_expansion ◌>>=◌ guard refuse_at nodes_of nodes_from count size",
};

const FORMS: Kind = Kind {
    file: "Tables",
    item: "Table",
    test: "tables_held",
    uses: "use Rattle.node.specs.Postorder.{size, nodes_from}
use Rattle.node.specs.Written.{nodes_of, count}
use Rattle.node.specs.Result.{◌>>=◌, guard}
use Rattle.node.specs.Table.{formulas, tree_at, scanned, checked}
use Rattle.forms.specs.Forms.{plain, negated, core}
use Rattle.rewriter.specs.Rewriting.{fitting, rewriting}
",
    unfolding: "rewriting fitting checked scanned ◌>>=◌ guard tree_at formulas plain negated core count size nodes_of nodes_from",
};

const ROWS: Kind = Kind {
    file: "Recordings",
    item: "Recording",
    test: "recordings_held",
    uses: "use Rattle.node.specs.Result.{◌>>=◌, guard}
use Rattle.node.specs.Table.{formulas, tree_at, scanned, checked}
use Rattle.recordings.specs.Limits.{told}
use Rattle.bits.specs.Bits.{bit_at, number}
use Rattle.recordings.specs.Recording.{blank, filled, readable}
use Rattle.recordings.specs.Lasso.{next}
use Rattle.rows.specs.Row.{sweep_from, around, row, tabulate, joined}
use Rattle.evaluator.specs.Evaluation.{evaluation}
",
    unfolding: "evaluation ◌>>=◌ guard checked scanned readable filled blank told tree_at formulas number bit_at next sweep_from around row tabulate joined",
};

/// One file: a statement for every few cases, each proved by computing.
fn file(kind: &Kind, cases: &[String], together: usize) -> String {
    let mut text = format!(
        "-- Written by the second converter: cases with its answers, each computed from the definitions.
use Rattle.std.specs.Prelude.{{true, List, [], ◌∷◌, ◌≡◌, refl}}
{}use Rattle.second_cases.specs.Held.{{Accepted, Rejected, {}, {}}}
",
        kind.uses, kind.item, kind.test
    );
    for (i, few) in cases.chunks(together).enumerate() {
        let listed = few.join(" ∷\n    ");
        write!(
            text,
            "
cases_{i} : List {item}
cases_{i} =
    {listed} ∷
    []

held_{i} : {test} cases_{i} ≡ true
unfolding cases_{i} {unfolding}
held_{i} = refl
",
            item = kind.item,
            test = kind.test,
            unfolding = kind.unfolding
        )
        .expect("a string grows");
    }
    text
}

/// The files of some kinds of cases by their names, and the list of them.
fn files(kinds: Vec<(&Kind, Vec<String>)>, together: usize) -> Vec<(String, String)> {
    let mut files = Vec::new();
    for (kind, cases) in kinds {
        for (i, part) in cases.chunks(together * STATEMENTS).enumerate() {
            files.push((
                format!("{}{}", kind.file, i + 1),
                file(kind, part, together),
            ));
        }
    }
    let modules: String = files
        .iter()
        .map(|(name, _)| format!("pub mod {name}\n"))
        .collect();
    files.push(("Lib".to_string(), format!("pub mod Held\n{modules}")));
    files
}

fn stored_files() -> Vec<(String, String)> {
    let kinds = vec![
        (&TEXTS, texts()),
        (&FORMS, form_cases()),
        (&ROWS, recording_cases()),
    ];
    files(kinds, TOGETHER)
}

fn write(directory: &str, files: Vec<(String, String)>) {
    for (name, text) in files {
        let path = Path::new(directory).join(format!("{name}.antt"));
        std::fs::write(&path, text).expect("the file can be written");
    }
}

fn check(directory: &str, files: Vec<(String, String)>) {
    for (name, text) in files {
        let path = Path::new(directory).join(format!("{name}.antt"));
        if std::fs::read_to_string(&path).ok().as_ref() != Some(&text) {
            println!("{} is not what would be written", path.display());
            std::process::exit(1);
        }
    }
}

fn main() {
    let words: Vec<String> = std::env::args().skip(1).collect();
    let words: Vec<&str> = words.iter().map(String::as_str).collect();
    match words[..] {
        ["write", directory] => write(directory, stored_files()),
        ["check", directory] => check(directory, stored_files()),
        ["fresh", directory, seed, count] => {
            let seed = seed.parse().expect("a seed is a number");
            let count = count.parse().expect("a count is a number");
            write(
                directory,
                files(vec![(&TEXTS, fresh_texts(seed, count))], 1),
            );
        }
        _ => {
            eprintln!("usage: stored write DIR | stored check DIR | stored fresh DIR SEED COUNT");
            std::process::exit(2);
        }
    }
}
