//! `judge`, `record` and `show`, and the timing diagram.

mod common;

use common::drawing;
use common::{Folder, FAILS, HOLDS, STARRED};
use second::diagnosis::{self, Diagnosis, Section};
use second::generate::prng::Prng;
use second::generate::{failing, recordings};
use second::meaning::{self, all_hold};
use second::reader;
use second::recording::Lasso;
use std::collections::BTreeSet;

fn starred() -> Folder {
    let folder = Folder::new();
    folder.file("t.tlsf", STARRED);
    folder.file("holds", HOLDS);
    folder.file("fails", FAILS);
    folder
}

#[test]
fn the_starred_recordings_in_every_form() {
    let folder = starred();
    for form in ["0", "1", "2"] {
        let ran = folder.run(&["judge", "--form", form, "t.tlsf", "holds"]);
        assert_eq!((ran.status, ran.text().as_str()), (0, "holds\n"));
        let ran = folder.run(&["judge", "--form", form, "t.tlsf", "fails"]);
        let due = "fails\n  GUARANTEE line 1 is false at position 0\n    t.tlsf:1:117: G (r -> F g)\n    r holds at 0, and g nowhere from there on\n";
        assert_eq!((ran.status, ran.text().as_str()), (1, due));
    }
}

#[test]
fn rows_of_every_node() {
    let ran = starred().run(&["judge", "--rows", "t.tlsf", "holds"]);
    let lines: Vec<String> = ran.text().lines().map(str::to_string).collect();
    assert_eq!(lines.len(), 18);
    assert_eq!(lines[9], " 8 r       1(00)");
    assert_eq!(lines[10], " 9 g       0(10)");
    assert_eq!(lines[11], "10 F 9     1(11)");
    assert_eq!(lines[17], "16 -> 0 15 1(11)");
}

#[test]
fn the_text_on_standard_input() {
    let folder = starred();
    let ran = folder.run_with_input(&["judge", "-", "holds", "--form", "2", "--svg", "run.svg"], STARRED.as_bytes());
    assert_eq!((ran.status, ran.text().as_str(), ran.told.as_str()), (0, "holds\n", ""));
    assert!(String::from_utf8_lossy(&folder.read("run.svg")).contains(">standard input on holds: holds<"));
    let ran = folder.run_with_input(&["judge", "-", "./holds", "--svg", "-"], STARRED.as_bytes());
    assert!(ran.text().starts_with("<svg ") && ran.text().contains(">standard input on holds: holds<"));
    assert_eq!(ran.told, "holds\n");
}

#[test]
fn refused_or_unreadable() {
    let folder = starred();
    folder.file("bad.tlsf", "#");
    folder.file("short", [0, 0x30]);
    folder.file("long", [&HOLDS[..], &[0]].concat());
    folder.file("spare", [0x00, 0x30, 0x01, 0x02, 0x91]);
    folder.file("wide", [0x00, 0x10, 0x00, 0x03, 0x00]);
    for (recording, place) in [("short", "byte 2 of 2"), ("long", "byte 6 of 6"), ("spare", "byte 4 of 5")] {
        let ran = folder.run(&["judge", "t.tlsf", recording]);
        assert_eq!((ran.status, ran.text().as_str()), (3, ""));
        assert!(
            ran.told.contains("error[20]") && ran.told.contains(place) && ran.told.contains("To mend it"),
            "{}",
            ran.told
        );
    }
    let ran = folder.run(&["judge", "t.tlsf", "wide"]);
    assert_eq!(ran.status, 3);
    assert!(
        ran.told.starts_with("error[20]: wide: recorded for 3 signals, the text has 2\n"),
        "{}",
        ran.told
    );
    assert_eq!(folder.run(&["judge", "bad.tlsf", "holds"]).status, 3);
    assert_eq!(folder.run(&["judge", "t.tlsf", "missing"]).status, 2);
    assert_eq!(folder.run(&["judge", "missing", "holds"]).status, 2);
    let ran = folder.run(&["judge", "t.tlsf", "holds", "--svg", "no/such/folder.svg"]);
    assert_eq!((ran.status, ran.text().as_str()), (2, "holds\n"));
}

/// Lines that are conjunctions themselves, and enumerations that imply lines.
const LIFT: &str = "INFO { TITLE: \"t\" DESCRIPTION: \"d\" SEMANTICS: Mealy TARGET: Mealy }
GLOBAL { DEFINITIONS { enum Floor = GROUND: 00 UPPER: 01, 10; enum One = ONE: 1; } }
MAIN {
  INPUTS { call; Floor floor; One one; }
  OUTPUTS { open; Floor lamp; }
  GUARANTEES { G (call -> F open); open && call; }
  REQUIRE { call && one == ONE; floor == GROUND && !call; } ASSERT { open -> floor == GROUND }
  PRESET { true; !open; }
}
";
const LIFT_RUN: &str = "call,floor[0],floor[1],one[0],open,lamp[0],lamp[1]\n1,0,0,1,0,0,0\n0,0,0,0,1,0,1\n1,1,0,1,1,0,0\n";

/// A row as it is drawn: 1 for every position where it is true.
fn drawn(svg: &str, title: &str, positions: usize) -> String {
    let strips = drawing::strips(svg);
    let rows = &strips.first().expect("a strip").rows;
    let row = rows.iter().find(|row| row.title == title).expect("a row with the title");
    let bits = row.bits((row.right() - row.left()) / positions);
    bits.into_iter().map(|bit| if bit { '1' } else { '0' }).collect()
}

#[test]
fn the_diagram_has_the_texts_own_lines() {
    for strict in [false, true] {
        let folder = Folder::new();
        folder.file(
            "lift.tlsf",
            if strict {
                LIFT.replace("S: Mealy", "S: Mealy,Strict")
            } else {
                LIFT.to_string()
            },
        );
        folder.file("run.csv", LIFT_RUN);
        assert_eq!(
            folder
                .run(&["record", "--spec", "lift.tlsf", "--csv", "run.csv", "--loop", "1", "-o", "run"])
                .told,
            ""
        );
        let ran = folder.run(&["judge", "lift.tlsf", "run", "--svg", "run.svg"]);
        assert!(ran.status < 2, "{}", ran.told);
        let svg = String::from_utf8(folder.read("run.svg")).expect("UTF-8");
        for (label, bits) in [
            ("call", "101"),
            ("floor[0]", "001"),
            ("lamp[1]", "010"),
            ("G (call -> F open)", "111"),
            ("open && call", "001"),
            ("call && one == ONE", "101"),
            ("floor == GROUND && !call", "010"),
            ("open -> floor == GROUND", "110"),
            ("true", "111"),
            ("!open", "100"),
        ] {
            assert_eq!(drawn(&svg, label, 3), bits, "{label}");
        }
        assert!(svg.contains("loop: after 2 comes 1"));
    }
}

#[test]
fn a_table_becomes_a_recording_and_comes_back() {
    let folder = Folder::new();
    folder.file("lift.tlsf", LIFT);
    folder.file("run.csv", LIFT_RUN);
    assert_eq!(
        folder
            .run(&["record", "--spec", "lift.tlsf", "--csv", "run.csv", "--loop", "2", "-o", "run"])
            .status,
        0
    );
    assert_eq!(folder.read("run"), [0x00, 0x30, 0x02, 0x07, 0x90, 0x17, 0x60]);
    let turned = |line: &str| line.split(',').rev().collect::<Vec<&str>>().join(",") + "\n";
    folder.file("turned.csv", LIFT_RUN.lines().map(turned).collect::<String>());
    folder.run(&[
        "record",
        "--spec",
        "lift.tlsf",
        "--csv",
        "turned.csv",
        "--loop",
        "2",
        "-o",
        "turned",
    ]);
    assert_eq!(folder.read("turned"), folder.read("run"));
    let ran = folder.run(&["show", "run", "--spec", "lift.tlsf"]);
    assert_eq!(
        (ran.text().as_str(), ran.told.as_str()),
        (LIFT_RUN, "positions 3, loop from 2, signals 7\n")
    );
    assert!(folder
        .run(&["show", "run"])
        .text()
        .starts_with("s0,s1,s2,s3,s4,s5,s6\n1,0,0,1,0,0,0\n"));
}

#[test]
fn signals_that_were_not_recorded_are_named() {
    let folder = starred();
    folder.file("narrow", [0x00, 0x20, 0x00, 0x01, 0x80]);
    for (arguments, status) in [
        (&["judge", "t.tlsf", "narrow"][..], 3),
        (&["show", "narrow", "--spec", "t.tlsf"], 1),
    ] {
        let ran = folder.run(arguments);
        assert_eq!((ran.status, ran.text().as_str()), (status, ""));
        let title = "error[23]: narrow: recorded for 1 signal, the text has 2\n";
        assert!(
            ran.told.starts_with(title) && ran.told.contains("Not recorded: g\n"),
            "{}",
            ran.told
        );
    }
    assert_eq!(folder.run(&["show", "narrow"]).text(), "s0\n1\n0\n");
}

#[test]
fn faulty_tables_write_nothing() {
    let folder = starred();
    let long = format!("r,g\n{}", "0,0\n".repeat(2049));
    for (csv, place, told) in [
        ("r,q\n0,0\n", "t.csv:1:3", "the text has no signal \"q\""),
        ("r\n0\n", "t.csv:1:2", "the column g is missing"),
        ("r,g\r\n0,1\r\n0\r\n", "t.csv:3:1", "1 value where the header has 2 names"),
        ("\u{feff}r,g\n0,yes\n", "t.csv:2:3", "\"yes\" is neither 0 nor 1"),
        ("r,gä\n0,0\n", "t.csv:1:3", "the text has no signal \"gä\""),
        (&long, "t.csv:2050:1", "a recording has at most 2048 positions"),
        ("", "t.csv:1:1", "2 columns are missing: r, g"),
    ] {
        folder.file("t.csv", csv);
        let ran = folder.run(&["record", "--spec", "t.tlsf", "--csv", "t.csv", "--loop", "0", "-o", "made"]);
        assert_eq!(ran.status, 1);
        let lines: Vec<&str> = ran.told.lines().collect();
        assert!(lines[0].starts_with(&format!("error: {told}")), "{}", ran.told);
        assert_eq!(lines[1].trim(), format!("--> {place}"));
        let (row, column) = place[6..].split_once(':').expect("line and column");
        let row = csv
            .trim_start_matches('\u{feff}')
            .lines()
            .nth(row.parse::<usize>().expect("a line") - 1);
        assert!(lines[3].ends_with(&format!("| {}", row.unwrap_or_default())), "{}", ran.told);
        let caret = lines[4].split_once("| ").map(|(_, rest)| rest.find('^'));
        assert_eq!(caret, Some(column.parse::<usize>().ok().map(|column| column - 1)), "{}", ran.told);
        assert!(!folder.path.join("made").exists());
    }
    folder.file("t.csv", "g,r\n1,0\n");
    let loop_1 = folder.run(&["record", "--spec", "t.tlsf", "--csv", "t.csv", "--loop", "1", "-o", "made"]);
    assert_eq!(
        (loop_1.status, loop_1.told.as_str()),
        (2, "error: t.csv: --loop 1: the last position is 0\n")
    );
    assert_eq!(
        folder
            .run(&["record", "--spec", "t.tlsf", "--csv", "t.csv", "--loop", "0", "-o", "no/made"])
            .status,
        2
    );
    assert_eq!(
        folder
            .run(&["record", "--spec", "t.tlsf", "--csv", "missing", "--loop", "0", "-o", "made"])
            .status,
        2
    );
    assert_eq!(folder.names(""), ["fails", "holds", "t.csv", "t.tlsf"]);
}

/// Texts of many lines, and recordings of each.
const TEXTS: usize = 60;
const RUNS: usize = 6;

/// What is to be told: the verdict, and of a run that fails the line, and the first position where it is false.
fn due(text: &[u8], lasso: &Lasso) -> (&'static str, String) {
    let sections = meaning::sections(text, lasso).expect("an accepted text");
    let (section, lines, number) = match diagnosis::of_word(text, lasso).expect("an accepted text") {
        Diagnosis::Holds => return ("holds", String::new()),
        Diagnosis::Line(Section::Preset, number) => ("PRESET", &sections.preset, number),
        Diagnosis::Line(Section::Assert, number) => ("ASSERT", &sections.assert, number),
        Diagnosis::Line(Section::Guarantee, number) => ("GUARANTEE", &sections.guarantee, number),
    };
    let position = (0..lasso.positions()).find(|&position| section != "ASSERT" || !all_hold(lines, position));
    let (syntax, _) = reader::check_text(text).expect("an accepted text");
    let written: usize = syntax
        .sections
        .iter()
        .filter(|found| format!("{:?}", found.kind).to_uppercase() == section)
        .map(|found| found.lines.len())
        .sum();
    let implied = if number > written { ", an implied one," } else { "" };
    let position = position.expect("a position where it is false");
    ("fails", format!("{section} line {number}{implied} is false at position {position}"))
}

#[test]
fn the_line_is_the_one_that_the_second_converter_finds() {
    let folder = Folder::new();
    let mut rng = Prng::new(7);
    let mut seen = BTreeSet::new();
    for _ in 0..TEXTS {
        let text = failing::text(&mut rng);
        let signals = reader::read_freely(&text).signals.len();
        folder.file("t.tlsf", &text);
        let lassos: Vec<Lasso> = (0..RUNS).map(|_| recordings::lasso(&mut rng, 5, signals)).collect();
        let names: Vec<String> = (0..RUNS).map(|run| format!("{run}.rec")).collect();
        for (name, lasso) in names.iter().zip(&lassos) {
            folder.file(name, lasso.bytes(signals));
        }
        let names: Vec<&str> = names.iter().map(String::as_str).collect();
        let ran = folder.run(&[&["judge", "t.tlsf"], &names[..]].concat());
        let told = ran.text();
        for (name, lasso) in names.iter().zip(&lassos) {
            let (verdict, why) = due(&text, lasso);
            let mut lines = told.lines().skip_while(|line| !line.starts_with(&format!("{name}: ")));
            assert_eq!(lines.next(), Some(format!("{name}: {verdict}").as_str()), "{told}");
            if verdict == "fails" {
                let line = lines.next().unwrap_or_default().trim();
                assert_eq!(line.split(": ").next(), Some(why.as_str()), "{told}");
                let what = why.split(" is false").next().unwrap_or_default();
                seen.insert(what.trim_matches(|c: char| c.is_ascii_digit()).to_string());
            }
        }
    }
    // Each section, and implied lines.
    assert!(seen.len() > 3, "{seen:?}");
}
