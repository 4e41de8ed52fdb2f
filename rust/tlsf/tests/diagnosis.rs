//! Which line failed: a line of every section, implied lines, strict files, runs that hold, and the order of the refusals.

use tlsf::{Diagnosis, Fault, Section, MOST_NODES, WORK_BYTES};

const INFO: &str = "INFO { TITLE: \"t\" DESCRIPTION: \"d\" SEMANTICS: Mealy TARGET: Mealy } ";
const STRICT: &str = "INFO { TITLE: \"t\" DESCRIPTION: \"d\" SEMANTICS: Mealy,Strict TARGET: Mealy } ";
const LINES: &str =
    "MAIN { INPUTS { r; } OUTPUTS { g; } PRESET { r || g; !g; } ASSERT { r -> F g; !(r && g); } GUARANTEE { F g; G F r; } }";
const OWED: &str = "MAIN { INPUTS { r; } OUTPUTS { g; } REQUIRE { r; } ASSERT { true; g; } }";

fn diagnose(info: &str, main: &str, recording: &[u8]) -> Diagnosis {
    let (mut work, mut rows) = (vec![1; WORK_BYTES], vec![7; 100]);
    let found = tlsf::diagnose(format!("{info}{main}").as_bytes(), recording, &mut work, &mut rows);
    assert!(work.iter().all(|&b| b == 0));
    found
}

fn fails(section: Section, line: usize) -> Diagnosis {
    Diagnosis::Fails { section, line }
}

#[test]
fn a_line_of_every_section() {
    for (recording, found) in [
        ([0x00, 0x10, 0x00, 2, 0x00], fails(Section::Preset, 1)),
        ([0x00, 0x10, 0x00, 2, 0x40], fails(Section::Preset, 2)),
        ([0x00, 0x10, 0x00, 2, 0x80], fails(Section::Assert, 1)),
        ([0x00, 0x20, 0x00, 2, 0xb0], fails(Section::Assert, 2)),
        ([0x00, 0x20, 0x01, 2, 0x90], fails(Section::Guarantee, 2)),
        ([0x00, 0x20, 0x00, 2, 0x90], Diagnosis::Holds),
    ] {
        assert_eq!(diagnose(INFO, LINES, &recording), found);
    }
}

#[test]
fn strict_files_owe_assert_until_require_breaks() {
    let before = [0x00, 0x20, 0x00, 2, 0x90];
    assert_eq!(diagnose(INFO, OWED, &before), Diagnosis::Holds);
    assert_eq!(diagnose(STRICT, OWED, &before), fails(Section::Assert, 2));
    assert_eq!(diagnose(STRICT, OWED, &[0x00, 0x20, 0x00, 2, 0x10]), Diagnosis::Holds);
}

#[test]
fn implied_lines_come_after_the_written() {
    let main = "GLOBAL { DEFINITIONS { enum e = P: 10 Q: 01; } } MAIN { INPUTS { r; } OUTPUTS { e x; } ASSERT { r; } }";
    assert_eq!(diagnose(INFO, main, &[0x00, 0x20, 0x01, 3, 0xd0]), fails(Section::Assert, 2));
}

#[test]
fn the_lines_of_a_converted_file_have_their_x() {
    let main = "MAIN { INPUTS { r; } OUTPUTS { g; } ASSERT { r; g; } }";
    let word = [0x00, 0x20, 0x01, 2, 0xb0];
    assert_eq!(diagnose(INFO, main, &word), fails(Section::Assert, 2));
    let moore = INFO.replace("TARGET: Mealy", "TARGET: Moore");
    assert_eq!(diagnose(&moore, main, &word), Diagnosis::Holds);
}

/// A section of 2,000 lines, one of which fails: its number, whichever it is.
#[test]
fn a_section_of_many_lines() {
    for (name, section) in [
        ("PRESET", Section::Preset),
        ("ASSERT", Section::Assert),
        ("GUARANTEE", Section::Guarantee),
    ] {
        for line in [1, 2, 1000, 1999, 2000] {
            let lines: String = (1..=2000).map(|n| if n == line { "r && g; " } else { "r; " }).collect();
            let main = format!("{INFO}MAIN {{ INPUTS {{ r; }} OUTPUTS {{ g; }} {name} {{ {lines} }} }}");
            let (mut work, mut rows) = (vec![0; WORK_BYTES], vec![0; MOST_NODES]);
            let found = tlsf::diagnose(main.as_bytes(), &[0x00, 0x10, 0x00, 2, 0x80], &mut work, &mut rows);
            assert_eq!(found, fails(section, line));
        }
    }
}

#[test]
fn a_refusal_changes_nothing() {
    let text = format!("{INFO}{OWED}");
    let word = [0x00, 0x20, 0x01, 2, 0x00];
    let refused = |text: &str, recording: &[u8], work: usize, room: usize| {
        let (mut work, mut rows) = (vec![1; work], vec![7; room]);
        let found = tlsf::diagnose(text.as_bytes(), recording, &mut work, &mut rows);
        assert!(rows.iter().all(|&b| b == 7));
        let refusal = found.result().unwrap_err();
        (refusal.number, refusal.place)
    };
    assert_eq!(refused("", &[], WORK_BYTES - 1, 0), (17, 0));
    assert_eq!(refused("", &[], WORK_BYTES, 0), (4, 0));
    assert_eq!(refused(&text, &[], WORK_BYTES, 0), (20, 0));
    assert_eq!(refused(&text, &[0x00, 0x20, 0x01, 1, 0x00], WORK_BYTES, 0), (23, 0));
    let mut rows = vec![7; 100];
    let mut nodes = vec![0; 100];
    let tlsf::Answer::Accepted { nodes: n, signals } = tlsf::read(text.as_bytes(), &mut [0; WORK_BYTES], &mut nodes, &mut [0; 2]) else {
        panic!("the text is refused");
    };
    assert_eq!(refused(&text, &word, WORK_BYTES, n - 1), (18, 0));
    let found = tlsf::diagnose(text.as_bytes(), &word, &mut [0; WORK_BYTES], &mut rows);
    assert_eq!(found.result(), Ok(None));
    let mut evaluated = vec![7; 100];
    let _ = tlsf::evaluate(&nodes[..n], signals as u32, &word, &mut evaluated);
    assert_eq!(rows, evaluated);
}

#[test]
fn in_words() {
    assert_eq!(fails(Section::Assert, 2).to_string(), "ASSERT 2");
    assert_eq!(
        fails(Section::Preset, 1).result(),
        Ok(Some(Fault {
            section: Section::Preset,
            line: 1
        }))
    );
    assert_eq!(Diagnosis::Holds.to_string(), "holds");
}
