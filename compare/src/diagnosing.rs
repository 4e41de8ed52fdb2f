//! Which line failed: what the library names, and every byte of the rows and the work buffer that it leaves, beside the second converter, which looks at the meaning
//! of the lines and at no nodes.

use crate::answers::{count, in_words, packed, see, Tally};
use crate::case::Difference;
use crate::lent;
use crate::library::Library;
use crate::reading::{cleared, work_length};
use crate::rooms::room;
use second::answer::{Answer, Refusal};
use second::diagnosis::{self, Diagnosis, Section};
use second::generate::{self, failing, prng::Prng, recordings};
use second::reader::{self, Reading};
use second::syntax::SectionKind;
use second::{evaluator, limits};

/// What is due: the answer, and the evaluator's rows.
pub struct Due {
    pub answer: Answer,
    pub rows: Vec<u8>,
}

/// holds = 0; a line n of PRESET, ASSERT or GUARANTEE = 1, 2 or 3 times 2^32, and n
fn answer(said: Diagnosis) -> Answer {
    let (nodes, signals) = match said {
        Diagnosis::Holds => (0, 0),
        Diagnosis::Line(Section::Preset, line) => (1, line),
        Diagnosis::Line(Section::Assert, line) => (2, line),
        Diagnosis::Line(Section::Guarantee, line) => (3, line),
    };
    Answer::Accepted { nodes, signals }
}

/// What is due with all the room that is needed.
pub fn due(text: &[u8], reading: &Reading, recording: &[u8]) -> Due {
    match diagnosis::diagnose(text, recording, limits::WORK_BYTES, usize::MAX) {
        Ok(said) => Due {
            answer: answer(said),
            rows: evaluator::evaluate(&reading.nodes, reading.signals.len(), recording, usize::MAX)
                .rows,
        },
        Err(refusal) => refused(refusal),
    }
}

fn refused(refusal: Refusal) -> Due {
    Due {
        answer: Answer::Refused(refusal),
        rows: Vec::new(),
    }
}

/// 17 comes first, 18 last.
pub fn within(full: Due, work: usize, room: usize) -> Due {
    if work < limits::WORK_BYTES {
        return refused(Refusal::new(17, 0));
    }
    match full.answer.is_accepted() && full.rows.len() > room {
        true => refused(Refusal::new(18, 0)),
        false => full,
    }
}

pub fn compare(rng: &mut Prng, library: &Library, tally: &mut Tally) -> Result<(), Difference> {
    let text = text(rng);
    let reading = reader::read_freely(&text);
    let recording = recording(rng, reading.signals.len());
    let full = due(&text, &reading, &recording);
    let (work, room) = (work_length(rng), room(rng, full.rows.len()));
    let expected = within(full, work, room);
    compare_call(rng, library, &text, &recording, (work, room), &expected)?;
    match expected.answer {
        Answer::Accepted { nodes, signals } => see(tally, "diagnose", named(&text, nodes, signals)),
        refused => count(tally, "diagnose", refused),
    }
    Ok(())
}

/// A recording that fails, with all the room that is needed: a line is named.
pub fn compare_failing(
    rng: &mut Prng,
    library: &Library,
    tally: &mut Tally,
) -> Result<(), Difference> {
    loop {
        let text = text(rng);
        let reading = reader::read_freely(&text);
        if !reading.answer.is_accepted() {
            continue;
        }
        for _ in 0..WORDS {
            let recording = recording(rng, reading.signals.len());
            let expected = due(&text, &reading, &recording);
            let Answer::Accepted { nodes, signals } = expected.answer else {
                continue;
            };
            if nodes > 0 {
                let rooms = (limits::WORK_BYTES, expected.rows.len());
                compare_call(rng, library, &text, &recording, rooms, &expected)?;
                see(tally, "failing", named(&text, nodes, signals));
                return Ok(());
            }
        }
    }
}

/// Recordings that are tried on one text.
const WORDS: usize = 6;

/// Mostly texts of many lines.
fn text(rng: &mut Prng) -> Vec<u8> {
    match rng.below(8) {
        0 => generate::any_text(rng),
        1 => generate::sound_text(rng),
        _ => failing::text(rng),
    }
}

/// Mostly of few positions, so that a requirement may hold at each.
fn recording(rng: &mut Prng, signals: usize) -> Vec<u8> {
    let most = match rng.below(40) {
        0 => return recordings::recording(rng, signals),
        1 => 200,
        2..=4 => 40,
        _ => 4,
    };
    let recorded = match rng.one_in(40) {
        true => rng.below(signals + 1),
        false => signals,
    };
    recordings::lasso(rng, most, recorded).bytes(recorded)
}

fn compare_call(
    rng: &mut Prng,
    library: &Library,
    text: &[u8],
    recording: &[u8],
    (work_size, room): (usize, usize),
    expected: &Due,
) -> Result<(), Difference> {
    let mut work = lent::bytes().lend(rng, work_size);
    let mut rows = lent::bytes().lend(rng, room);
    let mut given = (text.to_vec(), recording.to_vec());
    let answer = unsafe {
        (library.diagnose)(
            given.0.as_mut_ptr(),
            given.0.len(),
            given.1.as_mut_ptr(),
            given.1.len(),
            work.pointer(),
            work_size,
            rows.pointer(),
            room,
        )
    };
    let named = |name: &str, misfit: Option<String>| misfit.map(|m| format!("{name}: {m}"));
    let mut wrong: Vec<String> = [
        named("work buffer", work.misfit(cleared(work_size))),
        named("rows", rows.misfit(&expected.rows)),
    ]
    .into_iter()
    .flatten()
    .collect();
    if given.0 != text || given.1 != recording {
        wrong.push("the lent text or recording was changed".to_string());
    }
    if answer == packed(expected.answer) && wrong.is_empty() {
        return Ok(());
    }
    Err(Difference {
        job: format!("diagnose, work buffer {work_size}, room {room}, recording {recording:02x?}"),
        library: format!("{} {}", in_words(answer), wrong.join("; ")),
        due: in_words(packed(expected.answer)),
        input: text.to_vec(),
    })
}

/// What is named, of which semantics, and whether the line is an implied one.
fn named(text: &[u8], section: usize, line: usize) -> &'static str {
    let (syntax, _) = reader::check_text(text).expect("the text is accepted");
    let asserts = |section: &&second::syntax::Section| section.kind == SectionKind::Assert;
    let written = syntax.sections.iter().find(asserts);
    let written = written.map_or(0, |section| section.lines.len());
    match (section, syntax.info.strict, line > written) {
        (0, ..) => "holds",
        (1, true, _) => "PRESET, strict",
        (1, false, _) => "PRESET",
        (2, true, true) => "ASSERT, strict, implied",
        (2, true, false) => "ASSERT, strict",
        (2, false, true) => "ASSERT, implied",
        (2, false, false) => "ASSERT",
        (_, true, _) => "GUARANTEE, strict",
        (_, false, _) => "GUARANTEE",
    }
}
