//! The stored texts of `reader_run` and `corpus_run`, and what the programs must write of them.

use second::answer::Answer;
use second::corpus::{cases, deep, drawn, split, File, Program, Stored, PROGRAMS};
use second::reader::read_freely;
use second::token;
use std::collections::BTreeMap;
use std::fs;
use std::path::PathBuf;

fn folder(program: &Program) -> PathBuf {
    let crates = PathBuf::from(concat!(env!("CARGO_MANIFEST_DIR"), "/../crates"));
    crates.join(program.name)
}

fn stored_text(program: &Program, name: &str) -> String {
    fs::read_to_string(folder(program).join(name)).expect("a stored file can be read")
}

/// The files that the program's arguments name.
fn stored_data(program: &Program) -> Vec<File> {
    let arguments = stored_text(program, "args");
    let file = |name: &str| {
        let path = folder(program).join("data").join(name);
        (name.to_string(), fs::read(path).expect("a stored file"))
    };
    arguments.lines().map(file).collect()
}

fn number(text: &[u8]) -> u32 {
    match read_freely(text).answer {
        Answer::Accepted { .. } => 0,
        Answer::Refused(refusal) => refusal.number,
    }
}

#[test]
fn the_stored_texts_are_made_anew() {
    for program in &PROGRAMS {
        let stored = stored_data(program);
        let count = fs::read_dir(folder(program).join("data")).expect("data");
        assert_eq!(count.count(), stored.len(), "{}", program.name);
        assert!((program.data)() == stored, "{}", program.name);
    }
}

#[test]
fn the_stored_output_is_written_of_the_stored_texts() {
    for program in &PROGRAMS {
        let due = program.output(&stored_data(program));
        let stored = stored_text(program, "stdout");
        let mut lines = due.lines().zip(stored.lines()).enumerate();
        let different = lines.find(|(_, (due, stored))| due != stored);
        assert_eq!(different, None, "{}", program.name);
        assert_eq!(due.len(), stored.len(), "{}", program.name);
    }
}

#[test]
fn texts_come_back_from_a_file() {
    let texts = vec![
        Stored::new("empty", ""),
        Stored::new("bytes", vec![0, 10, 13, 255]),
        Stored::new("a name", "a\ntext\n"),
    ];
    assert_eq!(split(&second::corpus::joined(&texts)), texts);
}

#[test]
fn drawn_texts_are_of_every_answer_and_length() {
    let texts = drawn::texts();
    let mut answers: BTreeMap<u32, usize> = BTreeMap::new();
    for stored in &texts {
        *answers.entry(number(&stored.text)).or_default() += 1;
    }
    assert!(texts.len() >= 2000, "{}", texts.len());
    assert!(answers[&0] >= 1000, "{answers:?}");
    let occurs = |number: u32| answers.contains_key(&number);
    assert!((0..=16).all(|number| occurs(number) == (number != 14)));
    let longer = |bytes: usize| texts.iter().filter(|s| s.text.len() >= bytes).count();
    assert!(texts[0].text.is_empty());
    assert!(longer(1_000) >= 100, "{}", longer(1_000));
    assert!(longer(32_768) >= 3, "{}", longer(32_768));
}

/// A name that starts with a refusal's number tells the answer.
#[test]
fn refusals_are_as_named() {
    for stored in cases::refusals() {
        let due: String = stored.name.chars().take(2).collect();
        assert_eq!(number(&stored.text).to_string(), due, "{}", stored.name);
    }
}

#[test]
fn limits_are_accepted_and_refused_one_beyond() {
    for stored in cases::limits() {
        let accepted = number(&stored.text) == 0;
        let name = stored.name.as_str();
        assert!(!name.ends_with("at the limit") || accepted, "{name}");
        assert!(!name.ends_with("one beyond") || !accepted, "{name}");
    }
}

/// The deepest texts are within the limits of tokens and levels: only their nodes may be too many.
#[test]
fn deep_texts_reach_the_expansion() {
    for stored in deep::texts() {
        let number = number(&stored.text);
        assert!([0, 16].contains(&number), "{}: {number}", stored.name);
        let tokens = token::tokens(&stored.text).map_or(0, |tokens| tokens.len());
        assert!(tokens > 7_000, "{}: {tokens}", stored.name);
    }
}
