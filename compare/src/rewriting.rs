//! Tables: what the library's rewriter answers and leaves, beside the second converter.

use crate::answers::{count, in_words, packed, Tally};
use crate::case::Difference;
use crate::lent;
use crate::library::Library;
use crate::rooms::room;
use second::generate::{prng::Prng, tables};
use second::rewriter;

pub fn compare(rng: &mut Prng, library: &Library, tally: &mut Tally) -> Result<(), Difference> {
    let nodes = tables::table(rng, 300);
    let form = match rng.one_in(20) {
        true => rng.draw() as u32,
        false => rng.below(3) as u32,
    };
    let due = rewriter::rewrite(&nodes, form, usize::MAX).nodes.len();
    let room = room(rng, due);
    let expected = rewriter::rewrite(&nodes, form, room);
    let mut out = lent::words().lend(rng, room);
    let mut given = nodes.clone();
    let answer = unsafe {
        (library.rewrite)(
            given.as_mut_ptr(),
            given.len(),
            form,
            out.pointer(),
            out.room(),
        )
    };
    let mut wrong = out.misfit(&expected.nodes);
    if given != nodes {
        wrong = Some("the lent table was changed".to_string());
    }
    if answer != packed(expected.answer) || wrong.is_some() {
        return Err(Difference {
            job: format!("rewrite in form {form}, room {room}"),
            library: format!("{} {}", in_words(answer), wrong.unwrap_or_default()),
            due: in_words(packed(expected.answer)),
            input: bytes(&nodes),
        });
    }
    count(tally, "rewrite", expected.answer);
    Ok(())
}

/// Words as they are written down, most significant byte first.
pub fn bytes(words: &[u32]) -> Vec<u8> {
    words.iter().flat_map(|word| word.to_be_bytes()).collect()
}
