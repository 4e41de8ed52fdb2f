//! What a hostile caller hands over: texts, tables, recordings, forms and rooms of all kinds.

use crate::{mutation, shapes};
use compare::texts;
use second::generate::{prng::Prng, recordings, tables};
use second::limits;
use second::node::Node;

/// Any text: bytes at random, of a drawn length, a good one mutated, or an extreme shape.
pub fn text(rng: &mut Prng) -> Vec<u8> {
    match rng.below(16) {
        0 => {
            let most = *rng.pick(&[4, 60, 2_000, 70_000]);
            bytes(rng, most)
        }
        1 => {
            let length = rng.below(texts::LENGTHS as usize);
            texts::of_length(rng, length)
        }
        2..=4 => shapes::shape(rng).into_bytes(),
        _ => mutation::mutated(rng),
    }
}

/// Fewer than so many bytes at random.
fn bytes(rng: &mut Prng, most: usize) -> Vec<u8> {
    (0..rng.below(most)).map(|_| rng.draw() as u8).collect()
}

pub fn form(rng: &mut Prng) -> u32 {
    match rng.below(20) {
        0 => rng.draw() as u32,
        1 => 3,
        _ => rng.below(3) as u32,
    }
}

/// Mostly long enough.
pub fn work_length(rng: &mut Prng) -> usize {
    match rng.below(20) {
        0 => limits::WORK_BYTES - 1,
        1 => rng.below(limits::WORK_BYTES),
        2 | 3 => limits::WORK_BYTES + rng.below(limits::WORK_BYTES),
        _ => limits::WORK_BYTES,
    }
}

/// Any room, mostly near what is due.
pub fn room(rng: &mut Prng, due: usize, most: usize) -> usize {
    let room = match rng.below(16) {
        0 => rng.below(most),
        1 => 0,
        2..=4 => due.saturating_sub(1),
        5..=7 => due + rng.below(9),
        _ => due,
    };
    room.min(most)
}

pub fn signal_count(rng: &mut Prng) -> u32 {
    match rng.below(16) {
        0 => rng.draw() as u32,
        1 => *rng.pick(&[255, 256, u32::MAX, 1 << 31]),
        2 => rng.below(256) as u32,
        _ => rng.below(9) as u32,
    }
}

/// Words at random, tables that keep to the format or nearly, up to and beyond the limit of nodes.
pub fn table(rng: &mut Prng, signals: usize) -> Vec<u32> {
    let mut nodes = match rng.below(12) {
        0 => {
            let most = *rng.pick(&[3, 40, 9_000]);
            (0..rng.below(most)).map(|_| rng.draw() as u32).collect()
        }
        1 => {
            let count = rng.between(1, limits::NODES);
            tables::sound(rng, count, signals)
        }
        2 => {
            let count = rng.between(limits::NODES - 2, limits::NODES + 2);
            chain(rng, count)
        }
        _ => tables::table(rng, signals),
    };
    if !nodes.is_empty() && rng.one_in(4) {
        let at = rng.below(nodes.len());
        nodes[at] = match rng.one_in(2) {
            true => nodes[at] ^ 1 << rng.below(32),
            false => rng.draw() as u32,
        };
    }
    nodes
}

/// As deep as it has nodes: each operator over the node before it, and over some other.
fn chain(rng: &mut Prng, count: usize) -> Vec<u32> {
    let binary = rng.one_in(2);
    let mut nodes = vec![Node::pack(Node::SIGNAL, 0, 0).0];
    while nodes.len() < count {
        let (kind, before) = (rng.between(3, 13) as u32, (nodes.len() - 1).min(8_191));
        let node = match Node(kind << 28).arity() {
            Some(1) => Node::pack(kind, before, 0),
            _ if !binary => Node::pack(Node::NEXT, before, 0),
            _ if rng.one_in(2) => Node::pack(kind, before, 0),
            _ => Node::pack(kind, 0, before),
        };
        nodes.push(node.0);
    }
    nodes
}

/// Bytes at random, a header at random with a fitting or nearly fitting length, or a recording that may be damaged. Rows stay within a few million bits.
pub fn recording(rng: &mut Prng, signals: u32, nodes: usize) -> Vec<u8> {
    let most = (4_000_000 / nodes.max(1)).clamp(1, limits::POSITIONS);
    match rng.below(8) {
        0 => {
            let most = *rng.pick(&[6, 60, 70_000]);
            bytes(rng, most)
        }
        1..=3 => {
            let all = signals.min(255) as usize;
            let recorded = match rng.one_in(6) {
                true => rng.below(all + 1),
                false => all,
            };
            let positions = rng.between(1, most);
            let start = rng.below(positions + 1);
            let header = (positions << 20 | start << 8 | recorded) as u32;
            let length = (positions * recorded).div_ceil(8) + usize::from(rng.one_in(8));
            let mut bytes = header.to_be_bytes().to_vec();
            bytes.extend((0..length).map(|_| rng.draw() as u8));
            let spare = positions * recorded % 8;
            if let (Some(last), false) = (bytes.last_mut(), spare == 0 || rng.one_in(8)) {
                *last &= 0xff << (8 - spare);
            }
            bytes
        }
        _ if nodes > 2_000 => {
            let recorded = signals.min(255) as usize;
            recordings::lasso(rng, 40, recorded).bytes(recorded)
        }
        _ => recordings::recording(rng, signals.min(255) as usize),
    }
}
