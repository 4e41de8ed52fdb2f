//! Texts: what the library's reader and converter answer, and every byte of the three lent buffers, beside the second converter.

use crate::answers::{count, in_words, packed, see, Seen, Tally};
use crate::case::{Case, Difference};
use crate::lent::{self, Lent};
use crate::library::{Job, Library, TextCall};
use crate::rooms::room;
use crate::texts;
use second::answer::Answer;
use second::generate::prng::Prng;
use second::reader::{self, Reading};
use second::syntax::Model;
use second::{limits, rewriter};

/// The lengths of the three lent buffers.
#[derive(Clone, Copy, Debug)]
pub struct Rooms {
    pub work: usize,
    pub nodes: usize,
    pub signals: usize,
}

struct Buffers {
    work: Lent<'static, u8>,
    nodes: Lent<'static, u32>,
    signals: Lent<'static, u32>,
}

/// A text read once and converted to each form, each time with other rooms and fillings.
pub fn compare(
    case: Case,
    rng: &mut Prng,
    library: &Library,
    tally: &mut Tally,
) -> Result<(), Difference> {
    let text = texts::text(rng, case.index);
    let due = reader::read_freely(&text);
    *tally
        .entry(("texts", length_class(&text, &due)))
        .or_default() += 1;
    if due.answer.is_accepted() {
        see(tally, "accepted texts", models(&text));
    }
    let mut jobs = vec![Job::Read, Job::Convert(0), Job::Convert(1), Job::Convert(2)];
    if rng.one_in(20) {
        jobs.push(Job::Convert(3 + rng.draw() as u32 % 5));
    }
    for job in jobs {
        let full = converted(&due, job);
        let rooms = Rooms {
            work: work_length(rng),
            nodes: room(rng, full.nodes.len()),
            signals: room(rng, full.signals.len()),
        };
        let expected = within(full, rooms);
        check_rooms(rng, &text, job, rooms, &expected)?;
        compare_call(rng, library, &text, job, rooms, &expected)?;
        count(tally, job.name(), expected.answer);
    }
    Ok(())
}

/// The models of a text that is accepted.
pub fn models(text: &[u8]) -> &'static str {
    let (syntax, _) = reader::check_text(text).expect("the text is accepted");
    match (syntax.info.semantics, syntax.info.target) {
        (Model::Moore, Model::Mealy) => "Moore to Mealy",
        (Model::Mealy, Model::Moore) => "Mealy to Moore",
        _ => "equal models",
    }
}

/// How long a text is, and whether it is accepted where there is room.
fn length_class(text: &[u8], due: &Reading) -> Seen {
    Seen::Other(match (due.answer.is_accepted(), text.len()) {
        (true, ..1_024) => "accepted under 1 KB",
        (true, 1_024..8_192) => "accepted under 8 KB",
        (true, _) => "accepted from 8 KB on",
        (false, ..1_024) => "refused under 1 KB",
        (false, 1_024..8_192) => "refused under 8 KB",
        (false, _) => "refused from 8 KB on",
    })
}

/// A work buffer: one byte short, much too short, just enough, or longer.
pub fn work_length(rng: &mut Prng) -> usize {
    match rng.below(16) {
        0 => limits::WORK_BYTES - 1,
        1 if rng.one_in(3) => rng.below(limits::WORK_BYTES),
        2..=4 => limits::WORK_BYTES + rng.between(1, 20),
        5 => limits::WORK_BYTES + rng.below(limits::WORK_BYTES),
        _ => limits::WORK_BYTES,
    }
}

fn refused(answer: Answer) -> Reading {
    Reading {
        answer,
        nodes: Vec::new(),
        signals: Vec::new(),
    }
}

/// Read, then rewritten, with all the room that is needed.
pub fn converted(read: &Reading, job: Job) -> Reading {
    let Job::Convert(form) = job else {
        return read.clone();
    };
    let Answer::Accepted { signals, .. } = read.answer else {
        return read.clone();
    };
    let written = rewriter::rewrite(&read.nodes, form, usize::MAX);
    let Answer::Accepted { nodes, .. } = written.answer else {
        return refused(written.answer);
    };
    Reading {
        answer: Answer::Accepted { nodes, signals },
        nodes: written.nodes,
        signals: read.signals.clone(),
    }
}

/// 17 comes first, 18 for either result buffer last.
pub fn within(full: Reading, rooms: Rooms) -> Reading {
    if rooms.work < limits::WORK_BYTES {
        return refused(Answer::refused(17, 0));
    }
    let short = full.nodes.len() > rooms.nodes || full.signals.len() > rooms.signals;
    match full.answer {
        Answer::Accepted { .. } if short => refused(Answer::refused(18, 0)),
        _ => full,
    }
}

/// Now and then the second converter itself is given the rooms.
fn check_rooms(
    rng: &mut Prng,
    text: &[u8],
    job: Job,
    rooms: Rooms,
    expected: &Reading,
) -> Result<(), Difference> {
    if job != Job::Read || !rng.one_in(16) {
        return Ok(());
    }
    let own = reader::read(text, rooms.work, rooms.nodes, rooms.signals);
    if own == *expected {
        return Ok(());
    }
    Err(Difference {
        job: format!("the second converter's own answer with {rooms:?}"),
        library: in_words(packed(own.answer)),
        due: in_words(packed(expected.answer)),
        input: text.to_vec(),
    })
}

fn compare_call(
    rng: &mut Prng,
    library: &Library,
    text: &[u8],
    job: Job,
    rooms: Rooms,
    expected: &Reading,
) -> Result<(), Difference> {
    let mut left = Buffers {
        work: lent::bytes().lend(rng, rooms.work),
        nodes: lent::words().lend(rng, rooms.nodes),
        signals: lent::words().lend(rng, rooms.signals),
    };
    let mut given = text.to_vec();
    let call = TextCall {
        text: (given.as_mut_ptr(), given.len()),
        work: (left.work.pointer(), rooms.work),
        nodes: (left.nodes.pointer(), rooms.nodes),
        signals: (left.signals.pointer(), rooms.signals),
    };
    let answer = unsafe { library.text(job, call) };
    let mut wrong = misfits(&left, rooms, expected);
    if given != text {
        wrong.push("the lent text was changed".to_string());
    }
    if answer == packed(expected.answer) && wrong.is_empty() {
        return Ok(());
    }
    Err(Difference {
        job: format!("{} with {rooms:?}", job.name()),
        library: format!("{} {}", in_words(answer), wrong.join("; ")),
        due: in_words(packed(expected.answer)),
        input: text.to_vec(),
    })
}

/// What is due in front of a work buffer: zeros, or nothing where it is short.
pub fn cleared(work: usize) -> &'static [u8] {
    static ZEROS: [u8; limits::WORK_BYTES] = [0; limits::WORK_BYTES];
    match work < limits::WORK_BYTES {
        true => &[],
        false => &ZEROS,
    }
}

/// What does not stand in the buffers as due: results in front, the work buffer cleared unless it is short.
fn misfits(left: &Buffers, rooms: Rooms, expected: &Reading) -> Vec<String> {
    let named = |name: &str, misfit: Option<String>| misfit.map(|m| format!("{name}: {m}"));
    [
        named("work buffer", left.work.misfit(cleared(rooms.work))),
        named("nodes", left.nodes.misfit(&expected.nodes)),
        named("signal list", left.signals.misfit(&expected.signals)),
    ]
    .into_iter()
    .flatten()
    .collect()
}
