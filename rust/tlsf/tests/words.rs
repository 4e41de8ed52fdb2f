//! Answers in words: they are those of docs/REFUSALS.md and of tlsf.h, and formulas are written as they stand.

use std::error::Error;
use tlsf::{convert, refusal_title, Answer, Formula, Refusal, Signal, Verdict, MOST_NODES, MOST_SIGNALS, NEGATION_FORM, WORK_BYTES};

const PAGES: &str = include_str!("../../../docs/REFUSALS.md");
const HEADER: &str = include_str!("../../../include/tlsf.h");

#[test]
fn titles_are_those_of_the_pages_and_of_the_header() {
    let pages: Vec<(u32, &str)> = PAGES
        .lines()
        .filter_map(|line| line.strip_prefix("## ")?.split_once(". "))
        .map(|(number, title)| (number.parse().expect("a number"), title))
        .collect();
    assert!(pages.len() >= 21);
    // A number that is not used any more needs no title.
    for &(number, title) in pages.iter().filter(|page| !page.1.starts_with("Not used")) {
        assert_eq!(refusal_title(number), Some(title));
        assert!(HEADER.contains(&format!("\"{title}\"")), "{title}");
    }
    assert_eq!((refusal_title(0), refusal_title(pages.len() as u32 + 1)), (None, None));
    assert!(HEADER.contains(&format!("#define TLSF_VERSION \"{}\"", tlsf::VERSION)));
}

fn read(text: &[u8]) -> Result<String, Box<dyn Error>> {
    let mut work = vec![0; WORK_BYTES];
    let (mut nodes, mut signals) = (vec![0; MOST_NODES], vec![0; MOST_SIGNALS]);
    let counts = tlsf::read(text, &mut work, &mut nodes, &mut signals).result()?;
    let formula = Formula {
        nodes: &nodes[..counts.nodes],
        signals: &signals[..counts.signals],
        text,
    };
    Ok(formula.to_string())
}

fn text(line: &str) -> String {
    format!(
        "INFO {{ TITLE: \"t\" DESCRIPTION: \"d\" SEMANTICS: Mealy TARGET: Mealy }} MAIN {{ INPUTS {{ a; b[2]; }} OUTPUTS {{ c; }} INITIALLY {{ {line}; }} }}"
    )
}

#[test]
fn formulas_as_they_stand() {
    for line in [
        "a",
        "!a",
        "G F X b[1]",
        "(a -> (b[0] <-> c))",
        "((a U b[1]) W (a R c))",
        "!(a || (a && !c))",
    ] {
        let written = read(text(line).as_bytes()).expect("accepted");
        assert_eq!(written, format!("({line} -> (true && ((G true && true) -> (G true && true))))"));
    }
}

#[test]
fn the_deepest_formulas_on_a_small_stack() {
    let mut left = vec![2 << 28];
    left.extend((0..MOST_NODES as u32 - 1).map(|below| 3 << 28 | below << 14));
    let mut right: Vec<u32> = vec![2 << 28, 2 << 28];
    while right.len() < MOST_NODES {
        right.push(4 << 28 | (right.len() as u32 % 2) << 14 | (right.len() as u32 - 1));
    }
    let written = move |nodes: Vec<u32>| {
        let thread = std::thread::Builder::new().stack_size(256 << 10);
        let job = move || {
            Formula {
                nodes: &nodes,
                signals: &[],
                text: b"",
            }
            .to_string()
        };
        thread.spawn(job).expect("a thread").join().expect("a line")
    };
    assert_eq!(written(left), "!".repeat(MOST_NODES - 1) + "s0");
    assert_eq!(written(right).matches("&&").count(), MOST_NODES - 2);
}

#[test]
fn any_words_are_written() {
    for nodes in [
        &[][..],
        &[15 << 28],
        &[3 << 28],
        &[4 << 28 | 5 << 14 | 9],
        &[2 << 28 | 0x3fff << 14],
    ] {
        let _ = Formula {
            nodes,
            signals: &[],
            text: b"",
        }
        .to_string();
    }
}

#[test]
fn refusals_are_errors() {
    let refused = read(b"#").expect_err("refused");
    assert_eq!(refused.to_string(), "refused 2 at 0: What begins here is no token");
    assert_eq!(Refusal { number: 99, place: 1 }.to_string(), "refused 99 at 1");
    assert_eq!(Answer::Accepted { nodes: 17, signals: 2 }.to_string(), "accepted 17 2");
    assert_eq!(Verdict::Fails.to_string(), "fails");
    assert_eq!(
        Verdict::Refused { number: 20, place: 0 }.result(),
        Err(Refusal { number: 20, place: 0 })
    );
    let signal = Signal {
        output: false,
        offset: 2,
        index: 3,
        width: 4,
    };
    assert_eq!(signal.label(b"a b[4]").to_string(), "b[3]");
}

#[test]
fn the_least_stack() {
    let job = || read(text("a").as_bytes()).expect("accepted");
    let thread = std::thread::Builder::new().stack_size(1 << 20).spawn(job);
    assert!(thread.expect("a thread").join().is_ok());
}

fn with_definitions(definitions: &str, last: usize) -> String {
    let info = "INFO{TITLE:\"\"DESCRIPTION:\"\"SEMANTICS:Mealy TARGET:Mealy}";
    format!("{info}GLOBAL{{DEFINITIONS{{t={{0,1..255}};s0=t;{definitions}}}}}MAIN{{INPUTS{{a}}OUTPUTS{{}}ASSERT{{1 IN s{last}}}}}")
}

/// How many levels each of so many definitions has.
fn shares(levels: usize, definitions: usize) -> impl Iterator<Item = (usize, usize)> {
    (0..definitions).map(move |at| (at, levels / definitions + usize::from(at < levels % definitions)))
}

/// A text that holds so many sets of 256 elements at once: left operands, each worked out before the right one.
fn many_sets_held(held: usize, definitions: usize) -> String {
    let chain: String = shares(held, definitions)
        .map(|(last, nested)| {
            let (before, after) = ("t(*)t(+)(".repeat(nested), ")".repeat(nested));
            format!("s{}={before}s{last}{after};", last + 1)
        })
        .collect();
    with_definitions(&chain, definitions)
}

/// A text that holds two such sets for each name of a big operator, the one that the name goes through and the union so far, beside so many other definitions: at the first
/// element the next name has one element, at the second one 256. It is refused where a set would have 511.
fn two_sets_a_name(names: usize, definitions: usize, others: usize) -> String {
    let chain: String = shares(names, definitions)
        .map(|(last, names)| {
            let bound: String = (1..names).map(|i| format!(",0<=i{i}<=i{}*255", i - 1)).collect();
            format!("s{}=(+)[0<=i0<=1{bound}](t(+)(+)[0<z<=i{}]s{last});", last + 1, names - 1)
        })
        .collect();
    let others: String = (0..others).map(|other| format!("u{other}=t;")).collect();
    with_definitions(&(chain + &others), definitions)
}

/// The answer to a call in a thread with so many megabytes of stack.
fn converted_with(megabytes: usize, text: String) -> Answer {
    let job = move || {
        let (mut work, mut nodes) = (vec![0; WORK_BYTES], vec![0; MOST_NODES]);
        let mut signals = vec![0; MOST_SIGNALS];
        convert(text.as_bytes(), NEGATION_FORM, &mut work, &mut nodes, &mut signals)
    };
    let thread = std::thread::Builder::new().stack_size(megabytes << 20).spawn(job);
    thread.expect("a thread").join().expect("an answer")
}

#[test]
fn two_megabytes_for_many_sets() {
    for (held, definitions) in [(1335, 12), (1271, 126), (1188, 250)] {
        let answer = converted_with(2, many_sets_held(held, definitions));
        assert!(matches!(answer, Answer::Accepted { signals: 1, .. }), "{held}: {answer:?}");
    }
}

#[test]
fn four_megabytes_for_the_most_sets() {
    for (names, others) in [(1000, 0), (940, 110), (880, 240)] {
        let answer = converted_with(4, two_sets_a_name(names, 5, others));
        assert!(matches!(answer, Answer::Refused { number: 12, .. }), "{names}: {answer:?}");
    }
}
