//! Which line failed: F-7's order of sections, the numbers of lines, refusals, and drawn texts on drawn words.

mod common;
use common::*;
use second::answer::{Answer, Refusal};
use second::diagnosis::{diagnose, of_word, Diagnosis, Section};
use second::evaluator;
use second::generate::prng::Prng;
use second::generate::{failing, recordings};
use second::limits::WORK_BYTES;
use second::meaning::{all_hold, meaning, sections};
use second::reader::read_freely;
use second::recording::Lasso;
use std::collections::BTreeMap;
use Diagnosis::{Holds, Line};
use Section::{Assert, Guarantee, Preset};

/// A text with inputs a and b and outputs c and d.
fn text(sections: &str) -> String {
    after_info(&format!(
        "MAIN {{ INPUTS {{ a; b; }} OUTPUTS {{ c; d; }} {sections} }}"
    ))
}

fn strict(text: &str) -> String {
    text.replacen("SEMANTICS: Mealy", "SEMANTICS: Mealy, Strict", 1)
}

/// A word in which each letter names the signals that are present, among a, b, c, d, or by their numbers.
fn word(loop_start: usize, letters: &[&str]) -> Lasso {
    let letter = |present: &&str| "abcd".chars().map(|name| present.contains(name)).collect();
    Lasso {
        loop_start,
        letters: letters.iter().map(letter).collect(),
    }
}

#[track_caller]
fn says(text: &str, word: &Lasso, due: Diagnosis) {
    accepted(text);
    assert_eq!(of_word(text.as_bytes(), word), Ok(due), "{text}");
    let bytes = word.bytes(word.letters[0].len());
    assert_eq!(
        diagnose(text.as_bytes(), &bytes, WORK_BYTES, 1 << 22),
        Ok(due),
        "{text}"
    );
}

#[test]
fn each_section() {
    let all = "PRESET { a; b; } ASSERT { a || b; c; d; } GUARANTEE { true; F d; }";
    says(&text(all), &word(0, &["abcd"]), Holds);
    says(&text(all), &word(0, &["acd"]), Line(Preset, 2));
    says(&text(all), &word(0, &["cd"]), Line(Preset, 1));
    says(&text(all), &word(0, &["abcd", "abc"]), Line(Assert, 3));
    says(
        &text(all),
        &word(1, &["abcd", "ad", "abc"]),
        Line(Assert, 2),
    );
    // d is broken earlier than c.
    says(
        &text(all),
        &word(0, &["abcd", "abc", "abd"]),
        Line(Assert, 3),
    );
    let guarantee = "GUARANTEE { a; G b; X c; }";
    says(&text(guarantee), &word(0, &["ab", "b"]), Line(Guarantee, 3));
    says(&text(guarantee), &word(0, &["ab", "c"]), Line(Guarantee, 2));
    says(&text(guarantee), &word(0, &["b", "c"]), Line(Guarantee, 1));
    // ASSERT comes before GUARANTEE, PRESET before both.
    let three = "GUARANTEE { a; } ASSERT { b; } PRESET { c; }";
    says(&text(three), &word(0, &["c"]), Line(Assert, 1));
    says(&text(three), &word(0, &["bc"]), Line(Guarantee, 1));
    says(&text(three), &word(0, &["ab"]), Line(Preset, 1));
}

#[test]
fn broken_inside_the_loop_alone() {
    says(
        &text("ASSERT { c; }"),
        &word(1, &["c", "c", "c", ""]),
        Line(Assert, 1),
    );
    says(
        &text("ASSERT { X c; d; }"),
        &word(1, &["d", "d", "cd"]),
        Line(Assert, 1),
    );
}

#[test]
fn what_holds_vacuously_holds() {
    let lines = "PRESET { c; } ASSERT { c; } GUARANTEE { c; }";
    says(
        &text(&format!("INITIALLY {{ a; }} {lines}")),
        &word(0, &[""]),
        Holds,
    );
    let assert = "ASSERT { c; } GUARANTEE { c; }";
    says(
        &text(&format!("REQUIRE {{ a; }} {assert}")),
        &word(0, &["a", ""]),
        Holds,
    );
    says(
        &text(&format!("ASSUME {{ a; }} {assert}")),
        &word(0, &[""]),
        Holds,
    );
    says(
        &text(&format!("ASSUME {{ a; }} {assert}")),
        &word(0, &["a"]),
        Line(Assert, 1),
    );
    // PRESET is owed whatever REQUIRE and ASSUME say.
    says(
        &text(&format!("REQUIRE {{ a; }} ASSUME {{ a; }} {lines}")),
        &word(0, &[""]),
        Line(Preset, 1),
    );
}

#[test]
fn strict_semantics() {
    let lines = strict(&text(
        "REQUIRE { a; } ASSUME { b; } ASSERT { true; c; } GUARANTEE { d; }",
    ));
    // ASSERT is named although ASSUME fails, or REQUIRE breaks later.
    says(&lines, &word(0, &["a"]), Line(Assert, 2));
    says(&lines, &word(0, &["ac", "a", ""]), Line(Assert, 2));
    // REQUIRE breaks no later: nothing is owed.
    says(&lines, &word(0, &["ac", "", "a"]), Holds);
    says(&lines, &word(0, &["ac", "b", "a"]), Holds);
    // A GUARANTEE line only with REQUIRE for ever and ASSUME.
    says(&lines, &word(0, &["abc", "ac"]), Line(Guarantee, 1));
    says(&lines, &word(0, &["ac", "ac"]), Holds);
    says(&lines, &word(0, &["abc", "c"]), Holds);
}

#[test]
fn implied_lines_come_after_the_written() {
    let declared = "GLOBAL { DEFINITIONS { enum T = A: 10 B: 01; enum V = C: 0 D: 1; } }";
    let typed = |lines: &str| {
        after_info(&format!(
            "{declared} MAIN {{ INPUTS {{ T i; }} OUTPUTS {{ V v; T o; T p; }} {lines} }}"
        ))
    };
    // Signals: i 0 and 1, v 2, o 3 and 4, p 5 and 6.
    let letter = |present: &[usize]| Lasso {
        loop_start: 0,
        letters: vec![(0..7).map(|number| present.contains(&number)).collect()],
    };
    // v's enumeration names every word and implies no line.
    says(&typed(""), &letter(&[0, 3, 5]), Holds);
    says(&typed(""), &letter(&[0, 5]), Line(Assert, 1));
    says(&typed(""), &letter(&[0, 3, 5, 6]), Line(Assert, 2));
    says(
        &typed("ASSERT { true; v == C; }"),
        &letter(&[0, 3]),
        Line(Assert, 4),
    );
    says(
        &typed("ASSERT { true; v == C; }"),
        &letter(&[0, 2, 3]),
        Line(Assert, 2),
    );
    // The input's line is an assumption.
    says(&typed("ASSERT { false; }"), &letter(&[0, 1]), Holds);
    says(
        &strict(&typed("ASSERT { false; }")),
        &letter(&[0, 1]),
        Holds,
    );
}

#[test]
fn converted_texts() {
    let moore =
        text("ASSERT { c; } GUARANTEE { d; }").replacen("TARGET: Mealy", "TARGET: Moore", 1);
    // c is read one position later: its absence at 1 breaks the line at 0, at the loop's start the one before.
    says(&moore, &word(1, &["", "cd", "c"]), Holds);
    says(&moore, &word(1, &["cd", "c", "c"]), Line(Guarantee, 1));
    says(&moore, &word(1, &["cd", "cd", "d"]), Line(Assert, 1));
}

#[test]
fn many_lines() {
    let lines = |wrong: usize| -> String {
        (1..=2000)
            .map(|line| if line == wrong { "c;" } else { "a;" })
            .collect()
    };
    for wrong in [1, 2, 1999, 2000] {
        let assert = text(&format!("ASSERT {{ {} }}", lines(wrong)));
        says(&assert, &word(0, &["ac", "a"]), Line(Assert, wrong));
        let guarantee = text(&format!("GUARANTEE {{ {} }}", lines(wrong)));
        says(&guarantee, &word(0, &["a", "a"]), Line(Guarantee, wrong));
    }
}

#[test]
fn refusals_in_order() {
    let good = text("ASSERT { c; }");
    let nodes = accepted(&good).nodes.len();
    let full = word(0, &["", "c", "d", "", "", "", "", "", ""]).bytes(4);
    let answer =
        |text: &str, recording: &[u8], work, room| diagnose(text.as_bytes(), recording, work, room);
    let refused = |number, place| Err(Refusal::new(number, place));
    assert_eq!(answer("", &[], WORK_BYTES - 1, 0), refused(17, 0));
    assert_eq!(answer("", &[], WORK_BYTES, 0), refused(4, 0));
    assert_eq!(
        answer(&text("ASSERT { X[8192] c; }"), &[], WORK_BYTES, 0),
        refused(16, 0)
    );
    assert_eq!(answer(&good, &[1, 2], WORK_BYTES, 0), refused(20, 2));
    assert_eq!(
        answer(&good, &word(0, &[""]).bytes(5), WORK_BYTES, 0),
        refused(20, 0)
    );
    assert_eq!(
        answer(&good, &word(0, &[""]).bytes(3), WORK_BYTES, 0),
        refused(23, 0)
    );
    assert_eq!(
        answer(&good, &full, WORK_BYTES, 2 * nodes - 1),
        refused(18, 0)
    );
    assert_eq!(
        answer(&good, &full, WORK_BYTES, 2 * nodes),
        Ok(Line(Assert, 1))
    );
}

/// 02: 'Whenever a line is named, the assumptions that the semantics put before it hold.'
fn assumptions_hold(text: &[u8], word: &Lasso, section: Section) {
    let meant = sections(text, word).expect("an accepted text");
    let for_ever = (0..word.positions()).all(|p| all_hold(&meant.require, p));
    let assumed = for_ever && all_hold(&meant.assume, 0);
    assert!(all_hold(&meant.initially, 0));
    match section {
        Preset => {}
        Assert if meant.strict => {
            let broken = (0..word.positions()).find(|p| !all_hold(&meant.assert, *p));
            let broken = broken.expect("an ASSERT line is false somewhere");
            assert!((0..=broken).all(|p| all_hold(&meant.require, p)));
        }
        _ => assert!(assumed),
    }
}

#[test]
fn drawn_texts_on_drawn_words() {
    let mut rng = Prng::new(12);
    let mut seen: BTreeMap<String, usize> = BTreeMap::new();
    for _ in 0..1500 {
        let text = failing::text(&mut rng);
        let reading = read_freely(&text);
        let Answer::Accepted { signals, .. } = reading.answer else {
            panic!("{:?}", reading.answer);
        };
        for _ in 0..4 {
            let word = recordings::lasso(&mut rng, 4, signals);
            let said = of_word(&text, &word).expect("an accepted text");
            let verdict = evaluator::rows(&reading.nodes, &word)
                .pop()
                .expect("a root")[0];
            assert_eq!(said == Holds, verdict);
            assert_eq!(meaning(&text, &word).expect("an accepted text")[0], verdict);
            let strict = String::from_utf8_lossy(&text).contains("Strict");
            let name = match said {
                Holds => "holds".to_string(),
                Line(section, line) => {
                    assumptions_hold(&text, &word, section);
                    let place = if line == 1 { "first" } else { "later" };
                    format!("{section:?} {place} {strict}")
                }
            };
            *seen.entry(name).or_default() += 1;
        }
    }
    // Each section, standard and strict, the first line and a later one.
    assert_eq!(seen.len(), 13, "{seen:?}");
    assert!(seen.values().all(|times| *times > 10), "{seen:?}");
}
