//! Recordings: what the library's evaluator answers and leaves, beside the second converter.

use crate::answers::{count, in_words, packed, see, Tally};
use crate::case::{Case, Difference};
use crate::lent::{self, Lent};
use crate::library::Library;
use crate::rewriting;
use crate::rooms::room;
use second::answer::{Answer, Refusal};
use second::evaluator::{self, Evaluation};
use second::generate::{prng::Prng, recordings, tables};
use second::limits;
use second::node::Node;
use second::recording::Lasso;

pub fn compare(
    case: Case,
    rng: &mut Prng,
    library: &Library,
    tally: &mut Tally,
) -> Result<(), Difference> {
    compare_drawn(rng, library, tally)?;
    compare_lengths(case, rng, library, tally)
}

fn compare_drawn(rng: &mut Prng, library: &Library, tally: &mut Tally) -> Result<(), Difference> {
    let signals = match rng.one_in(30) {
        true => rng.between(250, 260),
        false => rng.below(9),
    };
    let nodes = tables::table(rng, signals);
    let recording = recordings::recording(rng, signals.min(255));
    let full = evaluator::evaluate(&nodes, signals, &recording, usize::MAX);
    let room = room(rng, full.rows.len());
    let expected = if room >= full.rows.len() {
        full
    } else {
        evaluator::evaluate(&nodes, signals, &recording, room)
    };
    let rows = lent::bytes().lend(rng, room);
    compare_call(library, &nodes, signals, &recording, rows, &expected)?;
    count(tally, "evaluate", expected.answer);
    if let Answer::Refused(Refusal { number: 20, place }) = expected.answer {
        let what = match place {
            place if place == recording.len() => "the length",
            0 => "the header",
            _ => "spare bits",
        };
        see(tally, "evaluate, refused 20 for", what);
    }
    Ok(())
}

/// Every length of a row modulo 64, every loop of a short word, in a buffer full of ones that begins anywhere in a word of eight bytes.
fn compare_lengths(
    case: Case,
    rng: &mut Prng,
    library: &Library,
    tally: &mut Tally,
) -> Result<(), Difference> {
    let (positions, loop_start) = shape(rng, case.index);
    let signals = rng.between(2, 9);
    let word = Lasso {
        loop_start,
        letters: letters(rng, positions, signals),
    };
    let nodes = boolean_table(rng, signals);
    let recording = word.bytes(signals);
    let expected = evaluator::evaluate(&nodes, signals, &recording, usize::MAX);
    let room = expected.rows.len() + rng.below(2) * rng.below(20);
    let rows = match rng.one_in(4) {
        true => lent::bytes().lend(rng, room),
        false => lent::bytes().lend_ones(room, rng.below(8)),
    };
    compare_call(library, &nodes, signals, &recording, rows, &expected)?;
    let what = match positions.div_ceil(8) % 8 {
        0 => "whole words of eight bytes",
        _ if positions <= 56 => "odd bytes alone",
        _ => "words and odd bytes",
    };
    see(tally, "rows of every length", what);
    Ok(())
}

/// The longest word of which every loop is met.
const SHORT: usize = 24;

/// Positions and loop start: each pair of a short word, each length up to 256, and the 64 longest, in turn.
fn shape(rng: &mut Prng, index: u64) -> (usize, usize) {
    let turn = (index / 3) as usize;
    let positions = match index % 3 {
        0 => {
            let mut pair = turn % (SHORT * (SHORT + 1) / 2);
            let mut positions = 1;
            while pair >= positions {
                pair -= positions;
                positions += 1;
            }
            return (positions, pair);
        }
        1 => 1 + turn % 256,
        _ => limits::POSITIONS - turn % 64,
    };
    let loop_start = match rng.below(4) {
        0 => positions - 1 - rng.below(3).min(positions - 1),
        1 => {
            // Around the start of a byte or of a word of eight bytes.
            let start = *rng.pick(&[8, 64]) * rng.below(positions / 8 + 1) + rng.below(3);
            start.saturating_sub(1) % positions
        }
        _ => rng.below(positions),
    };
    (positions, loop_start)
}

/// Signals that come and go at random, seldom or often, or that stay for long so that what holds passes from word to word of a row.
fn letters(rng: &mut Prng, positions: usize, signals: usize) -> Vec<Vec<bool>> {
    if rng.one_in(2) {
        let density = *rng.pick(&[0, 1, 4, 7, 8]);
        let mut letter = |_| (0..signals).map(|_| rng.below(8) < density).collect();
        return (0..positions).map(&mut letter).collect();
    }
    let stay = *rng.pick(&[8, 40, 150, 1_000]);
    let mut present: Vec<bool> = (0..signals).map(|_| rng.one_in(2)).collect();
    let mut letters = Vec::new();
    for _ in 0..positions {
        for signal in &mut present {
            *signal ^= rng.one_in(stay);
        }
        letters.push(present.clone());
    }
    letters
}

/// Each Boolean kind over the first two signals, then some nodes of any kind over any others.
fn boolean_table(rng: &mut Prng, signals: usize) -> Vec<u32> {
    let leaf = |signal: usize| Node::pack(Node::SIGNAL, signal, 0);
    let (first, second) = (leaf(rng.below(signals)), leaf(rng.below(signals)));
    let mut nodes = vec![first, second, Node::pack(Node::NOT, 0, 0)];
    for kind in [Node::AND, Node::OR, Node::IMPLIES, Node::EQUIVALENT] {
        nodes.push(Node::pack(kind, 0, 1));
    }
    for _ in 0..rng.between(0, 20) {
        let kind = rng.between(3, 13) as u32;
        let below = rng.below(nodes.len());
        let other = match Node(kind << 28).arity() {
            Some(1) => 0,
            _ => rng.below(nodes.len()),
        };
        nodes.push(Node::pack(kind, below, other));
    }
    nodes.iter().map(|node| node.0).collect()
}

fn compare_call(
    library: &Library,
    nodes: &[u32],
    signals: usize,
    recording: &[u8],
    mut rows: Lent<u8>,
    expected: &Evaluation,
) -> Result<(), Difference> {
    let room = rows.room();
    let mut given = (nodes.to_vec(), recording.to_vec());
    let answer = unsafe {
        (library.evaluate)(
            given.0.as_mut_ptr(),
            given.0.len(),
            signals as u32,
            given.1.as_mut_ptr(),
            given.1.len(),
            rows.pointer(),
            rows.room(),
        )
    };
    let mut wrong = rows.misfit(&expected.rows);
    if given.0 != nodes || given.1 != recording {
        wrong = Some("the lent table or recording was changed".to_string());
    }
    if answer != packed(expected.answer) || wrong.is_some() {
        return Err(Difference {
            job: format!(
                "evaluate with {signals} signals, room {room}, recording {recording:02x?}"
            ),
            library: format!("{} {}", in_words(answer), wrong.unwrap_or_default()),
            due: in_words(packed(expected.answer)),
            input: rewriting::bytes(nodes),
        });
    }
    Ok(())
}
