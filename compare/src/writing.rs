//! Basic texts: what the library's writer answers, and every byte of the text and the work buffer that it leaves, beside the second converter; and what the library
//! reads in the written text.

use crate::answers::{count, in_words, packed, see, unpacked, Tally};
use crate::case::Difference;
use crate::lent;
use crate::library::{Job, Library, TextCall};
use crate::long;
use crate::reading::{cleared, work_length};
use crate::rooms::room;
use second::answer::{Answer, Refusal};
use second::generate::{self, clashes, prng::Prng};
use second::{basic, limits, reader};

/// accepted = bytes * 2^32
pub fn answer(written: &Result<Vec<u8>, Refusal>) -> Answer {
    match written {
        Ok(text) => Answer::Accepted {
            nodes: text.len(),
            signals: 0,
        },
        Err(refusal) => Answer::Refused(*refusal),
    }
}

/// 17 comes first, 18 last.
pub fn within(
    full: Result<Vec<u8>, Refusal>,
    work: usize,
    room: usize,
) -> Result<Vec<u8>, Refusal> {
    if work < limits::WORK_BYTES {
        return Err(Refusal::new(17, 0));
    }
    full.and_then(|text| match text.len() > room {
        true => Err(Refusal::new(18, 0)),
        false => Ok(text),
    })
}

pub fn compare(rng: &mut Prng, library: &Library, tally: &mut Tally) -> Result<(), Difference> {
    let text = text(rng);
    let full = basic::write(&text, limits::WORK_BYTES, usize::MAX);
    let due = full.as_ref().map_or(0, Vec::len);
    let (work, room) = (work_length(rng), room(rng, due));
    let expected = within(full, work, room);
    if rng.one_in(16) && basic::write(&text, work, room) != expected {
        return Err(difference(
            &text,
            "the second converter's own answer",
            "alike",
        ));
    }
    let written = compare_call(rng, library, &text, (work, room), &expected)?;
    count(tally, "write", answer(&expected));
    match expected {
        Ok(_) => compare_back(library, tally, &text, &written),
        Err(_) => Ok(()),
    }
}

/// Texts with names that clash or are long, sound ones, any, and now and then a long one.
fn text(rng: &mut Prng) -> Vec<u8> {
    match rng.below(12) {
        0..=3 => clashes::text(rng),
        4..=6 => generate::sound_text(rng),
        7 => {
            let length = rng.between(200, 20_000);
            long::filled(rng, length)
        }
        _ => generate::any_text(rng),
    }
}

fn difference(text: &[u8], library: impl Into<String>, due: impl Into<String>) -> Difference {
    Difference {
        job: "write".to_string(),
        library: library.into(),
        due: due.into(),
        input: text.to_vec(),
    }
}

/// Yields the bytes that stand in the lent buffer, as many as the answer says.
fn compare_call(
    rng: &mut Prng,
    library: &Library,
    text: &[u8],
    (work_size, room): (usize, usize),
    expected: &Result<Vec<u8>, Refusal>,
) -> Result<Vec<u8>, Difference> {
    let mut work = lent::bytes().lend(rng, work_size);
    let mut out = lent::bytes().lend(rng, room);
    let mut given = text.to_vec();
    let left = unsafe {
        (library.write)(
            given.as_mut_ptr(),
            given.len(),
            work.pointer(),
            work_size,
            out.pointer(),
            room,
        )
    };
    let nothing = Vec::new();
    let written = expected.as_ref().unwrap_or(&nothing);
    let named = |name: &str, misfit: Option<String>| misfit.map(|m| format!("{name}: {m}"));
    let mut wrong: Vec<String> = [
        named("work buffer", work.misfit(cleared(work_size))),
        named("written text", out.misfit(written)),
    ]
    .into_iter()
    .flatten()
    .collect();
    if given != text {
        wrong.push("the lent text was changed".to_string());
    }
    let due = packed(answer(expected));
    if left != due || !wrong.is_empty() {
        return Err(Difference {
            job: format!("write, work buffer {work_size}, room {room}"),
            library: format!("{} {}", in_words(left), wrong.join("; ")),
            due: in_words(due),
            input: text.to_vec(),
        });
    }
    let size = (left >> 32) as usize * usize::from(expected.is_ok());
    Ok(out.front(size).to_vec())
}

/// 'Where the written text keeps to the reader's limits, reading it yields the nodes of an empty specification with its GUARANTEE `true` replaced by exactly the
/// nodes written.'
fn compare_back(
    library: &Library,
    tally: &mut Tally,
    text: &[u8],
    written: &[u8],
) -> Result<(), Difference> {
    let reading = reader::read_freely(text);
    let (answer, nodes) = read(library, written);
    if basic::keeps_to_limits(written, &reading.nodes, reading.signals.len()) {
        let due = basic::read_back(&reading.nodes);
        let accepted = Answer::Accepted {
            nodes: due.len(),
            signals: reading.signals.len(),
        };
        if answer != packed(accepted) || nodes != due {
            let library = format!("the written text is read: {}", in_words(answer));
            return Err(difference(text, library, in_words(packed(accepted))));
        }
        see(tally, "written texts", "read back");
        return Ok(());
    }
    let due = reader::read_freely(written).answer;
    if answer != packed(due) || due.is_accepted() {
        let library = format!("the written text is read: {}", in_words(answer));
        return Err(difference(text, library, in_words(packed(due))));
    }
    count(tally, "written texts", due);
    Ok(())
}

/// What the library reads, and the nodes.
fn read(library: &Library, text: &[u8]) -> (u64, Vec<u32>) {
    let mut work = vec![0; limits::WORK_BYTES];
    let mut nodes = vec![0; limits::NODES];
    let mut signals = vec![0; limits::SIGNALS];
    let call = TextCall {
        text: (text.as_ptr(), text.len()),
        work: (work.as_mut_ptr(), work.len()),
        nodes: (nodes.as_mut_ptr(), nodes.len()),
        signals: (signals.as_mut_ptr(), signals.len()),
    };
    let answer = unsafe { library.text(Job::Read, call) };
    let size = match unpacked(answer) {
        Answer::Accepted { nodes, .. } => nodes,
        Answer::Refused(_) => 0,
    };
    nodes.truncate(size);
    (answer, nodes)
}
