//! Which line failed (02, F-7): told from the source's own meaning of each line, without nodes.

use crate::answer::Refusal;
use crate::meaning::{self, all_hold, Lines, Sections};
use crate::reader;
use crate::recording::{self, Lasso};
use crate::stack;

/// A section that a line is named of.
#[derive(Clone, Copy, Debug, PartialEq, Eq, PartialOrd, Ord)]
pub enum Section {
    Preset,
    Assert,
    Guarantee,
}

/// What is said of a recording: it holds, or a line of a section, counted from 1.
#[derive(Clone, Copy, Debug, PartialEq, Eq)]
pub enum Diagnosis {
    Holds,
    Line(Section, usize),
}

/// The text's diagnosis on a recording, given a work buffer and room for the rows of its nodes.
// 02: 'Errors: those of reading and evaluating'; F7.7: the reader's, then 20, 23 and 18 of the evaluator.
pub fn diagnose(
    text: &[u8],
    recording: &[u8],
    work_len: usize,
    room: usize,
) -> Result<Diagnosis, Refusal> {
    stack::deep(|| {
        let understood = reader::understand(text, work_len)?;
        let signals = understood.signals.len();
        let word = recording::parse(recording, signals)?;
        recording::check_full(recording, signals)?;
        if understood.nodes.len() * word.positions().div_ceil(8) > room {
            return Err(Refusal::new(18, 0));
        }
        of_word(text, &word)
    })
}

/// What is said of a word; refusals 1 to 13 are handed up.
pub fn of_word(text: &[u8], word: &Lasso) -> Result<Diagnosis, Refusal> {
    let sections = meaning::sections(text, word)?;
    // 02: 'A recording that holds yields "holds" and no line'.
    if sections.holds_at(word, 0) {
        return Ok(Diagnosis::Holds);
    }
    let line = line(&sections, word).expect("a text that fails has a line that fails");
    Ok(line)
}

fn line(sections: &Sections, word: &Lasso) -> Option<Diagnosis> {
    // 02: 'the first PRESET line false at position 0'.
    if let Some(line) = first_false(&sections.preset, 0) {
        return Some(Diagnosis::Line(Section::Preset, line));
    }
    // 02: 'If there is none, take the smallest position where ASSERT is broken .. and the first ASSERT line false there'.
    if let Some(position) = broken(sections, word) {
        let line = first_false(&sections.assert, position)?;
        return Some(Diagnosis::Line(Section::Assert, line));
    }
    // 02: 'Failing that, it is the first GUARANTEE line false at 0'.
    let line = first_false(&sections.guarantee, 0)?;
    Some(Diagnosis::Line(Section::Guarantee, line))
}

/// 02: 'Lines count from 1 in their section'.
fn first_false(lines: &Lines, position: usize) -> Option<usize> {
    let place = lines.iter().position(|line| !line[position]);
    place.map(|before| before + 1)
}

// 02: '(under strict semantics, with REQUIRE true up to it)'; F7.2: the position itself included. Every position that
// ever comes is below N.
fn broken(sections: &Sections, word: &Lasso) -> Option<usize> {
    let required = |p: &usize| !sections.strict || all_hold(&sections.require, *p);
    (0..word.positions())
        .take_while(required)
        .find(|p| !all_hold(&sections.assert, *p))
}
