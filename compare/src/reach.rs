//! How far ahead a table looks: what the library answers beside the second converter, on the table and on its forms, and the library's verdicts on words that
//! agree so far.

use crate::answers::{in_words, see, Seen, Tally};
use crate::case::Difference;
use crate::lent::GUARD;
use crate::library::Library;
use crate::rewriting;
use second::answer::{Answer, Refusal};
use second::generate::{prng::Prng, recordings, tables};
use second::node::Node;
use second::recording::Lasso;
use second::{limits, reach, rewriter};

/// The most bits of rows that a pair of words is worth.
const MOST_ROW_BITS: usize = 4_000_000;

/// bounded = reach * 2^32; unbounded = 1; refused as everywhere.
pub fn packed(reach: Result<Option<usize>, Refusal>) -> u64 {
    match reach {
        Ok(Some(reach)) => (reach as u64) << 32,
        Ok(None) => 1,
        Err(refusal) => crate::answers::packed(Answer::Refused(refusal)),
    }
}

/// What was answered.
pub fn kind(reach: &Result<Option<usize>, Refusal>) -> Seen {
    match reach {
        Ok(Some(0)) => Seen::Other("reach 0"),
        Ok(Some(_)) => Seen::Other("reach above 0"),
        Ok(None) => Seen::Other("unbounded"),
        Err(refusal) => Seen::Refused(refusal.number),
    }
}

pub fn compare(rng: &mut Prng, library: &Library, tally: &mut Tally) -> Result<(), Difference> {
    let signals = *rng.pick(&[1, 3, 3, 3, 300]);
    let nodes = match rng.one_in(5) {
        true => bounded(rng, signals),
        false => tables::table(rng, signals),
    };
    let due = reach::reach(&nodes);
    compare_call(library, "table", &nodes, due)?;
    *tally.entry(("reach", kind(&due))).or_default() += 1;
    for form in 0..3 {
        let written = rewriter::rewrite(&nodes, form, limits::NODES);
        if written.answer.is_accepted() {
            // The form's reach is the table's.
            compare_call(library, "form", &written.nodes, due)?;
            see(tally, "reach of forms", "alike");
        }
    }
    if let Ok(Some(reach)) = due {
        compare_words(rng, library, tally, &nodes, reach)?;
    }
    compare_chain(rng, library, tally)
}

/// A table in which nothing looks further than some letters ahead.
fn bounded(rng: &mut Prng, signals: usize) -> Vec<u32> {
    let count = rng.between(1, 24);
    let mut nodes = tables::sound(rng, count, signals);
    for node in &mut nodes {
        let kind = Node(*node).kind();
        let other = match kind {
            Node::GLOBALLY | Node::FINALLY => Node::NEXT,
            Node::UNTIL | Node::RELEASE | Node::WEAK_UNTIL => rng.between(4, 7) as u32,
            _ => kind,
        };
        *node = *node & 0x0fff_ffff | other << 28;
    }
    nodes
}

fn compare_call(
    library: &Library,
    what: &str,
    nodes: &[u32],
    due: Result<Option<usize>, Refusal>,
) -> Result<(), Difference> {
    let mut given = nodes.to_vec();
    let answer = unsafe { (library.reach)(given.as_mut_ptr(), given.len()) };
    if answer == packed(due) && given == nodes {
        return Ok(());
    }
    let changed = match given == nodes {
        true => "",
        false => ", the lent table was changed",
    };
    Err(Difference {
        job: format!("reach of a {what}"),
        library: format!("{}{changed}", in_words(answer)),
        due: in_words(packed(due)),
        input: rewriting::bytes(nodes),
    })
}

/// The word whose letters are the same up to so many, and from there on different in every signal for ever.
pub fn unlike_after(word: &Lasso, same: usize) -> Lasso {
    // The second word repeats as the first does, so that each later letter differs.
    let prefix = word.loop_start.max(same);
    let round = word.positions() - word.loop_start;
    let letter = |position: usize| {
        let letter = &word.letters[word.later(0, position)];
        letter
            .iter()
            .map(|present| *present == (position < same))
            .collect()
    };
    Lasso {
        loop_start: prefix,
        letters: (0..prefix + round).map(letter).collect(),
    }
}

/// One more than the greatest number of a signal.
fn signal_count(nodes: &[u32]) -> usize {
    let nodes = nodes.iter().map(|bits| Node(*bits));
    let signals = nodes.filter(|node| node.kind() == Node::SIGNAL);
    signals.map(|node| node.first() + 1).max().unwrap_or(0)
}

/// The root at position 0, as the library's evaluator has it; none where it does not accept.
fn verdict(library: &Library, nodes: &[u32], signals: usize, word: &Lasso) -> Option<bool> {
    let recording = word.bytes(signals);
    let row_bytes = word.positions().div_ceil(8);
    let room = nodes.len() * row_bytes;
    let mut rows = vec![0; room + 2 * GUARD];
    let answer = unsafe {
        (library.evaluate)(
            nodes.as_ptr(),
            nodes.len(),
            signals as u32,
            recording.as_ptr(),
            recording.len(),
            rows[GUARD..].as_mut_ptr(),
            room,
        )
    };
    let accepted = answer == (nodes.len() as u64) << 32 | signals as u64;
    accepted.then(|| rows[GUARD + room - row_bytes] & 0x80 != 0)
}

/// 'Two words that agree on letters 0 to the reach give the same verdict, however they differ later.'
fn compare_words(
    rng: &mut Prng,
    library: &Library,
    tally: &mut Tally,
    nodes: &[u32],
    reach: usize,
) -> Result<(), Difference> {
    let signals = signal_count(nodes);
    let word = recordings::lasso(rng, 12, signals);
    let other = unlike_after(&word, reach + 1);
    let bits = nodes.len() * other.positions();
    if signals > limits::SIGNALS || other.positions() > limits::POSITIONS || bits > MOST_ROW_BITS {
        return Ok(());
    }
    let verdict = |word: &Lasso| verdict(library, nodes, signals, word);
    let due = verdict(&word);
    if due.is_none() || verdict(&other) != due {
        return Err(Difference {
            job: format!("words that agree on the letters 0 to {reach}: {word:?} and {other:?}"),
            library: format!("{due:?} and {:?}", verdict(&other)),
            due: "the same verdict".to_string(),
            input: rewriting::bytes(nodes),
        });
    }
    see(tally, "words that agree to the reach", "same verdict");
    if verdict(&unlike_after(&word, reach)) != due {
        see(
            tally,
            "words that agree on a letter fewer",
            "unlike verdicts",
        );
    } else {
        see(tally, "words that agree on a letter fewer", "same verdict");
    }
    Ok(())
}

/// k times X above a signal has reach k, and the letter k decides: agreement on one letter fewer gives unlike verdicts.
fn compare_chain(rng: &mut Prng, library: &Library, tally: &mut Tally) -> Result<(), Difference> {
    let steps = match rng.one_in(50) {
        true => rng.between(41, limits::POSITIONS - 14),
        false => rng.between(0, 40),
    };
    let mut nodes = vec![Node::pack(Node::SIGNAL, 0, 0).0];
    nodes.extend((0..steps).map(|below| Node::pack(Node::NEXT, below, 0).0));
    compare_call(library, "chain of X", &nodes, Ok(Some(steps)))?;
    let word = recordings::lasso(rng, 12, 1);
    let verdict = |same: usize| verdict(library, &nodes, 1, &unlike_after(&word, same));
    let (too_few, enough) = (verdict(steps), verdict(steps + 1));
    if too_few.is_none() || enough.is_none() || too_few == enough {
        return Err(Difference {
            job: format!("{steps} X above a signal, words from {word:?}"),
            library: format!("{too_few:?} and {enough:?}"),
            due: "unlike verdicts".to_string(),
            input: rewriting::bytes(&nodes),
        });
    }
    see(tally, "chains of X", "the last letter decides");
    Ok(())
}
