//! The basic-format writer: the text, 22 and 18 behind the reader's refusals, and reading back.

mod common;
use common::*;
use second::answer::{Answer, Refusal};
use second::basic::{keeps_to_limits, read_back, write};
use second::generate::{self, prng::Prng};
use second::limits::{TEXT_BYTES, TOKENS, WORK_BYTES};
use second::reader::read_freely;
use second::token;

const FILE: &str =
    "INFO { TITLE: \"t\" DESCRIPTION: \"d\" SEMANTICS: Mealy TARGET: Mealy } MAIN { \
                    INPUTS { r; } OUTPUTS { g; } GUARANTEE { G (r -> F g); } }";

fn written(text: &str) -> Result<String, Refusal> {
    let bytes = write(text.as_bytes(), WORK_BYTES, usize::MAX)?;
    Ok(String::from_utf8(bytes).expect("names are of ASCII letters"))
}

/// The text between INFO's end and the first parenthesis, and the model's word.
#[track_caller]
fn lists(text: &str) -> (String, String) {
    let written = written(text).expect("the text is accepted");
    let head = "INFO { TITLE : \"converted\" DESCRIPTION : \"converted\" SEMANTICS : ";
    let rest = written.strip_prefix(head).expect("the same head for all");
    let (models, main) = rest.split_once(" } MAIN { ").expect("INFO ends");
    let (model, target) = models.split_once(" TARGET : ").expect("TARGET follows");
    assert_eq!(model, target);
    let (lists, _) = main
        .split_once(" GUARANTEE { ( ")
        .expect("GUARANTEE follows");
    (lists.to_string(), model.to_string())
}

#[test]
fn document_01s_file() {
    let due = "INFO { TITLE : \"converted\" DESCRIPTION : \"converted\" SEMANTICS : Mealy TARGET : Mealy } MAIN { \
               INPUTS { r ; } OUTPUTS { g ; } GUARANTEE { ( ( true ) -> ( ( true ) && ( ( ( G ( true ) ) && ( true ) ) \
               -> ( ( G ( true ) ) && ( G ( ( r ) -> ( F ( g ) ) ) ) ) ) ) ) ; } }";
    assert_eq!(written(FILE).as_deref(), Ok(due));
    assert_eq!(due.len(), 266);
    assert_eq!(
        token::scan(due.as_bytes()).map(|tokens| tokens.len()),
        Ok(83)
    );
    let back = reading(due);
    assert_eq!(
        back.answer,
        Answer::Accepted {
            nodes: 29,
            signals: 2
        }
    );
    assert_eq!(back.nodes, read_back(&reading(FILE).nodes));
}

#[test]
fn signals_and_models() {
    let none = after_info("MAIN { OUTPUTS { } INPUTS { } }");
    assert_eq!(
        lists(&none),
        ("INPUTS { } OUTPUTS { }".into(), "Mealy".into())
    );
    let moore = none
        .replace("Mealy", "Moore")
        .replacen("Moore", "Moore, Strict", 1);
    assert_eq!(
        lists(&moore),
        ("INPUTS { } OUTPUTS { }".into(), "Moore".into())
    );
    let buses = after_info(
        "GLOBAL { DEFINITIONS { enum T = A: 01 B: 10; } } MAIN { OUTPUTS { o; T t; } INPUTS { w[1]; i; } }",
    );
    assert_eq!(
        lists(&buses).0,
        "INPUTS { w@0 ; i ; } OUTPUTS { o ; t@0 ; t@1 ; }"
    );
}

#[test]
fn every_sign() {
    let line = "((true && false) || !a) -> ((a <-> X b) U ((G a) R ((F b) W v[2])))";
    let text = written(&lines(line)).expect("the text is accepted");
    let due = "( ( ( ( true ) && ( false ) ) || ( ! ( a ) ) ) -> ( ( ( a ) <-> ( X ( b ) ) ) U ( ( G ( a ) ) R \
               ( ( F ( b ) ) W ( v@2 ) ) ) ) )";
    assert!(text.contains(due), "{text}");
}

#[track_caller]
fn at_fault(inputs: &str, outputs: &str, signal: usize) {
    let text = signals(inputs, outputs);
    assert_eq!(written(&text), Err(Refusal::new(22, signal)), "{text}");
}

#[test]
fn refusal_22() {
    at_fault("b@0; b[1];", "", 1);
    at_fault("b[1]; b@0;", "", 1);
    at_fault("b[3];", "x; b@2; b@0;", 4);
    // OUTPUTS first in the text changes nothing.
    let text = after_info("MAIN { OUTPUTS { b@0; } INPUTS { a; b[1]; } }");
    assert_eq!(written(&text), Err(Refusal::new(22, 2)));
    // A pair (0, 5) and a long name at 3.
    let long = "n".repeat(63);
    at_fault(&format!("b@0; c; d; {long}[1]; e; b[1];"), "", 3);
    let long = "n".repeat(62);
    assert!(written(&signals(&format!("{long}[10];"), "")).is_ok());
    at_fault(&format!("{long}[11];"), "", 10);
    // Other names do not clash.
    let text =
        after_info("GLOBAL { PARAMETERS { b@0 = 1; } } MAIN { INPUTS { b[1]; } OUTPUTS { } }");
    assert!(written(&text).is_ok());
    assert!(written(&signals(&"n".repeat(64), "")).is_ok());
}

#[test]
fn refusals_in_order() {
    let clash = signals("b@0; b[1];", "");
    let room = |text: &str, work, room| write(text.as_bytes(), work, room).map(|text| text.len());
    assert_eq!(room(&clash, WORK_BYTES - 1, 0), Err(Refusal::new(17, 0)));
    assert_eq!(room("", WORK_BYTES, 0), Err(Refusal::new(4, 0)));
    assert_eq!(room(&clash, WORK_BYTES, 0), Err(Refusal::new(22, 1)));
    assert_eq!(room(FILE, WORK_BYTES, 265), Err(Refusal::new(18, 0)));
    assert_eq!(room(FILE, WORK_BYTES, 0), Err(Refusal::new(18, 0)));
    assert_eq!(room(FILE, WORK_BYTES, 266), Ok(266));
}

/// The written text of a text with these inputs and this line of GUARANTEE, and the number that reading it gives, 0 if it is accepted.
#[track_caller]
fn back(inputs: &[String], line: &str) -> (Vec<u8>, u32) {
    let text = after_info(&format!(
        "MAIN {{ INPUTS {{ {} }} OUTPUTS {{ }} GUARANTEE {{ {line} }} }}",
        inputs.join("; ")
    ));
    let written = write(text.as_bytes(), WORK_BYTES, usize::MAX).expect("the text is accepted");
    let before = reading(&text);
    let after = read_freely(&written);
    let fits = keeps_to_limits(&written, &before.nodes, before.signals.len());
    assert_eq!(fits, after.answer.is_accepted(), "{:?}", after.answer);
    match after.answer {
        Answer::Accepted { .. } => {
            assert_eq!(after.nodes, read_back(&before.nodes));
            (written, 0)
        }
        Answer::Refused(refusal) => (written, refusal.number),
    }
}

fn named(names: &[&str]) -> Vec<String> {
    names.iter().map(|name| name.to_string()).collect()
}

/// A line of so many nodes, none of them deep.
fn flat(nodes: usize) -> String {
    if nodes.is_multiple_of(2) {
        return format!("!({})", flat(nodes - 1));
    }
    let leaves = nodes.div_ceil(2);
    let groups: Vec<String> = (0..leaves)
        .collect::<Vec<_>>()
        .chunks(100)
        .map(|group| format!("({})", vec!["a"; group.len()].join("&&")))
        .collect();
    groups.join("&&")
}

#[test]
fn levels_of_the_written_text() {
    // Four nodes stand above the line: 128 nodes down are 256 levels.
    assert_eq!(back(&named(&["a"]), "X[123] a").1, 0);
    assert_eq!(back(&named(&["a"]), "X[124] a").1, 5);
    // The largest table, as deep as it can be.
    let (written, number) = back(&named(&["a"]), "X[8179] a");
    assert!(written.len() > 49_000);
    assert_eq!(number, 1);
}

#[test]
fn tokens_of_the_written_text() {
    // 28 tokens, 2 a signal and 3 a node, 12 nodes around the line.
    let tokens = |signals: &[&str], nodes: usize| {
        let (written, number) = back(&named(signals), &flat(nodes));
        assert_eq!(
            written.split(|byte| *byte == b' ').count(),
            28 + 2 * signals.len() + 3 * (nodes + 12)
        );
        (28 + 2 * signals.len() + 3 * (nodes + 12), number)
    };
    let most = ["a", "b", "c", "d", "e", "f", "g", "h"];
    assert_eq!(tokens(&most, 2704), (TOKENS, 0));
    assert_eq!(tokens(&most[..4], 2707), (TOKENS + 1, 3));
}

#[test]
fn bytes_of_the_written_text() {
    // Signals that no node uses, and two more names to the byte.
    let mut inputs: Vec<String> = vec!["a".to_string()];
    inputs.extend((0..230).map(|number| format!("n{number:062}")));
    let nodes = 2501;
    let (written, _) = back(&inputs, &flat(nodes));
    let missing = TEXT_BYTES - written.len();
    // A signal takes its name's bytes and ` ; `.
    let names = missing / 64;
    assert!(names + inputs.len() < 254, "{names}");
    inputs.extend((0..names - 1).map(|number| format!("m{number:060}")));
    let (written, number) = back(&inputs, &flat(nodes));
    assert_eq!(number, 0);
    let missing = TEXT_BYTES - written.len();
    for (more, due) in [(0, 0), (1, 1)] {
        let mut inputs = inputs.clone();
        let half = (missing + more) / 2;
        inputs.push("p".repeat(half - 3));
        inputs.push("q".repeat(missing + more - half - 3));
        let (written, number) = back(&inputs, &flat(nodes));
        assert_eq!((written.len(), number), (TEXT_BYTES + more, due));
    }
}

#[test]
fn reading_back_yields_the_nodes() {
    let mut rng = Prng::new(11);
    let (mut fitting, mut refused) = (0, 0);
    for _ in 0..8000 {
        let text = match rng.one_in(4) {
            true => generate::clashes::text(&mut rng),
            false => generate::any_text(&mut rng),
        };
        let reading = read_freely(&text);
        match write(&text, WORK_BYTES, usize::MAX) {
            Ok(written) => {
                let back = read_freely(&written);
                let fits = keeps_to_limits(&written, &reading.nodes, reading.signals.len());
                assert_eq!(fits, back.answer.is_accepted(), "{:?}", back.answer);
                if fits {
                    assert_eq!(back.nodes, read_back(&reading.nodes));
                    assert_eq!(back.signals.len(), reading.signals.len());
                    let flags =
                        |list: &[u32]| list.iter().map(|entry| entry >> 31).collect::<Vec<_>>();
                    assert_eq!(flags(&back.signals), flags(&reading.signals));
                    fitting += 1;
                }
            }
            Err(refusal) if refusal.number == 22 => {
                assert!(reading.answer.is_accepted());
                refused += 1;
            }
            Err(refusal) => assert_eq!(reading.answer, Answer::Refused(refusal)),
        }
    }
    assert!(fitting > 2000, "{fitting}");
    assert!(refused > 100, "{refused}");
}
