//! Tables, trees and recordings drawn from a seed, and the deepest tables.

use super::Random;
use crate::plain::{pack, rewrite};

pub const MAX_NODES: usize = 8192;

/// The kinds of one operand and of two.
const UNARY: [u32; 4] = [3, 8, 9, 10];

/// A shared table of `count` nodes over `signals` signals, every kind in it.
pub fn table(random: &mut Random, count: u32, signals: u32) -> Vec<u32> {
    table_of(random, count, signals, &Vec::from_iter(0..14))
}

/// The same of some kinds; its first node is signal 0.
pub fn table_of(random: &mut Random, count: u32, signals: u32, kinds: &[u32]) -> Vec<u32> {
    let mut nodes = vec![pack(2, 0, 0)];
    for n in 1..count {
        let k = kinds[random.below(kinds.len() as u64) as usize];
        let a = random.below(n as u64) as u32;
        let b = random.below(n as u64) as u32;
        nodes.push(match k {
            0 | 1 => pack(k, 0, 0),
            2 => pack(2, random.below(signals as u64) as u32, 0),
            3 | 8 | 9 | 10 => pack(k, a, 0),
            _ => pack(k, a, b),
        });
    }
    nodes
}

/// A recording of `positions` letters of `signals` bits, looping to `start`.
pub fn recording(random: &mut Random, positions: u32, start: u32, signals: u32) -> Vec<u8> {
    let header = (positions << 20) | (start << 8) | signals;
    let mut bytes = header.to_be_bytes().to_vec();
    let bits = (positions * signals) as usize;
    let mut letters = vec![0u8; bits.div_ceil(8)];
    for i in 0..bits {
        if random.below(2) == 1 {
            letters[i / 8] |= 0x80 >> (i % 8);
        }
    }
    bytes.extend(letters);
    bytes
}

/// A tree in postorder with `leaves` leaves.
fn tree(random: &mut Random, leaves: u64, nodes: &mut Vec<u32>) -> u32 {
    if leaves <= 1 {
        nodes.push(pack(2, random.below(16) as u32, 0));
    } else if random.below(4) == 0 {
        let a = tree(random, leaves, nodes);
        nodes.push(pack(UNARY[random.below(4) as usize], a, 0));
    } else {
        let left = 1 + random.below(leaves - 1);
        let a = tree(random, left, nodes);
        let b = tree(random, leaves - left, nodes);
        let k = [4, 5, 5, 5, 6, 11, 12, 13][random.below(8) as usize];
        nodes.push(pack(k, a, b));
    }
    nodes.len() as u32 - 1
}

/// The largest tree of at most `size` nodes, among those of some hundred seeds, whose form fits a table; and that form.
pub fn fitting_tree(size: usize, form: u32) -> (Vec<u32>, Vec<u32>) {
    let mut best = (Vec::new(), Vec::new());
    for leaves in (1..=size as u64 / 2).rev() {
        let (mut source, mut written) = (Vec::new(), Vec::new());
        tree(&mut Random(leaves * 7919 + 1), leaves, &mut source);
        if source.len() <= size && best.0.len() < source.len() {
            rewrite(&source, form, &mut written);
            if written.len() <= MAX_NODES {
                best = (source, written);
            }
        }
        if 2 * (leaves as usize) < best.0.len() {
            break;
        }
    }
    best
}

/// Signal 0, then `levels` nodes of a kind, each over the node before: the deepest tables. The second operand is the signal or, shared, the node before once more, which
/// makes a tree of 2 to the number of levels.
pub fn chain(kind: u32, levels: u32, shared: bool) -> Vec<u32> {
    let mut nodes = vec![pack(2, 0, 0)];
    for before in 0..levels {
        let second = if shared { before } else { 0 };
        nodes.push(match UNARY.contains(&kind) {
            true => pack(kind, before, 0),
            false => pack(kind, before, second),
        });
    }
    nodes
}
