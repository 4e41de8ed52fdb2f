//! The source's own meaning beside the library: at every position of a lasso word, whether an accepted text holds (the second converter's reading of the
//! source, without expansion) equals the root's row that `tlsf_evaluate` fills for each form that fits.

use crate::answers::{in_words, see, unpacked, Tally};
use crate::case::{Case, Difference};
use crate::library::{Job, Library, TextCall};
use crate::reading::models;
use crate::words::Word;
use crate::{long, words};
use second::answer::Answer;
use second::generate::{self, prng::Prng};
use second::reader::{self, Reading};
use second::{limits, meaning};

/// Lasso words for each text.
const WORDS: usize = 4;

/// A form's nodes and the signal list beside them.
struct Converted {
    form: u32,
    nodes: Vec<u32>,
    signals: Vec<u32>,
}

pub fn compare(case: Case, library: &Library, tally: &mut Tally) -> Result<(), Difference> {
    let mut rng = case.rng();
    let (text, reading) = accepted_text(&mut rng);
    see(tally, "texts", models(&text));
    let mut forms = Vec::new();
    for form in 0..3 {
        match converted(library, &text, form)? {
            Some(converted) => forms.push(converted),
            None => see(tally, "texts by form", FITS_NOT[form as usize]),
        }
    }
    for _ in 0..WORDS {
        let word = words::drawn(&mut rng, &text, &reading.signals);
        let lasso = word.ordered_by(&text, &reading.signals).ok_or_else(|| {
            difference(&text, "the second converter's list", "a signal is missing")
        })?;
        let meant = meaning::meaning(&text, &lasso).expect("the text is accepted");
        for converted in &forms {
            let row = root_row(library, &text, converted, &word)?;
            agree(&text, converted.form, &word, &meant, &row)?;
            see(tally, "texts by form", FITS[converted.form as usize]);
        }
        for holds in &meant {
            see(tally, "positions", if *holds { "hold" } else { "fail" });
        }
    }
    Ok(())
}

const FITS: [&str; 3] = ["form 0", "form 1", "form 2"];
const FITS_NOT: [&str; 3] = [
    "form 0 does not fit",
    "form 1 does not fit",
    "form 2 does not fit",
];

fn difference(text: &[u8], library: impl Into<String>, due: impl Into<String>) -> Difference {
    Difference {
        job: "meaning".to_string(),
        library: library.into(),
        due: due.into(),
        input: text.to_vec(),
    }
}

/// Texts until one is accepted: mostly sound ones, some that were broken and still pass, a few long ones.
fn accepted_text(rng: &mut Prng) -> (Vec<u8>, Reading) {
    loop {
        let text = match rng.below(40) {
            0 => {
                let length = rng.between(200, 6_000);
                long::filled(rng, length)
            }
            1..=9 => generate::any_text(rng),
            _ => generate::sound_text(rng),
        };
        let reading = reader::read_freely(&text);
        if reading.answer.is_accepted() {
            return (text, reading);
        }
    }
}

/// The text in a form as the library writes it; none where the form does not fit.
fn converted(library: &Library, text: &[u8], form: u32) -> Result<Option<Converted>, Difference> {
    let mut work = vec![0; limits::WORK_BYTES];
    let mut nodes = vec![0; limits::NODES];
    let mut signals = vec![0; limits::SIGNALS];
    let call = TextCall {
        text: (text.as_ptr(), text.len()),
        work: (work.as_mut_ptr(), work.len()),
        nodes: (nodes.as_mut_ptr(), nodes.len()),
        signals: (signals.as_mut_ptr(), signals.len()),
    };
    let answer = unsafe { library.text(Job::Convert(form), call) };
    match unpacked(answer) {
        Answer::Accepted {
            nodes: size,
            signals: count,
        } if size <= nodes.len() && count <= signals.len() => {
            nodes.truncate(size);
            signals.truncate(count);
            Ok(Some(Converted {
                form,
                nodes,
                signals,
            }))
        }
        refused if refused == Answer::refused(16, 0) && form > 0 => Ok(None),
        _ => Err(difference(
            text,
            in_words(answer),
            "accepted, or refused by 16 in form 1 or 2",
        )),
    }
}

/// The root's row over the word, written as a recording whose bits are ordered by the lent signal list.
fn root_row(
    library: &Library,
    text: &[u8],
    converted: &Converted,
    word: &Word,
) -> Result<Vec<bool>, Difference> {
    let count = converted.signals.len();
    let Some(lasso) = word.ordered_by(text, &converted.signals) else {
        return Err(difference(
            text,
            "the lent list",
            "each declared signal once",
        ));
    };
    let recording = lasso.bytes(count);
    let row_bytes = lasso.positions().div_ceil(8);
    let mut rows = vec![0; converted.nodes.len() * row_bytes];
    let answer = unsafe {
        (library.evaluate)(
            converted.nodes.as_ptr(),
            converted.nodes.len(),
            count as u32,
            recording.as_ptr(),
            recording.len(),
            rows.as_mut_ptr(),
            rows.len(),
        )
    };
    if !unpacked(answer).is_accepted() {
        return Err(difference(
            text,
            format!("evaluate: {}", in_words(answer)),
            "accepted",
        ));
    }
    let root = &rows[rows.len() - row_bytes..];
    let bit = |at: usize| root[at / 8] & 0x80 >> (at % 8) != 0;
    Ok((0..lasso.positions()).map(bit).collect())
}

fn agree(
    text: &[u8],
    form: u32,
    word: &Word,
    meant: &[bool],
    row: &[bool],
) -> Result<(), Difference> {
    if meant == row {
        return Ok(());
    }
    Err(Difference {
        job: format!("meaning in form {form} on {word:?}"),
        library: format!("{row:?}"),
        due: format!("{meant:?}"),
        input: text.to_vec(),
    })
}
