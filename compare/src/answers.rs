//! Answers: packed as include/tlsf.h says, in words, and counted.

use second::answer::{Answer, Refusal};
use std::collections::BTreeMap;

const REFUSED: u64 = 1 << 63;

/// accepted = nodes * 2^32 + signals; refused = 2^63 + number * 2^32 + place
pub fn packed(answer: Answer) -> u64 {
    match answer {
        Answer::Accepted { nodes, signals } => (nodes as u64) << 32 | signals as u64,
        Answer::Refused(Refusal { number, place }) => {
            REFUSED | u64::from(number) << 32 | place as u64
        }
    }
}

/// What a packed answer says.
pub fn unpacked(answer: u64) -> Answer {
    let (first, second) = ((answer & !REFUSED) >> 32, answer & 0xffff_ffff);
    if answer & REFUSED == 0 {
        Answer::Accepted {
            nodes: first as usize,
            signals: second as usize,
        }
    } else {
        Answer::refused(first as u32, second as usize)
    }
}

pub fn in_words(answer: u64) -> String {
    match unpacked(answer) {
        Answer::Accepted { nodes, signals } => format!("accepted {nodes} {signals}"),
        Answer::Refused(Refusal { number, place }) => format!("refused {number} {place}"),
    }
}

/// How often something was seen, by what was compared.
pub type Tally = BTreeMap<(&'static str, Seen), u64>;

#[derive(Clone, Copy, PartialEq, Eq, PartialOrd, Ord)]
pub enum Seen {
    Accepted,
    Refused(u32),
    Other(&'static str),
}

pub fn count(tally: &mut Tally, job: &'static str, answer: Answer) {
    let seen = match answer {
        Answer::Accepted { .. } => Seen::Accepted,
        Answer::Refused(refusal) => Seen::Refused(refusal.number),
    };
    *tally.entry((job, seen)).or_default() += 1;
}

/// Counts something that is no answer.
pub fn see(tally: &mut Tally, job: &'static str, what: &'static str) {
    *tally.entry((job, Seen::Other(what))).or_default() += 1;
}

pub fn merge(into: &mut Tally, from: Tally) {
    for (key, times) in from {
        *into.entry(key).or_default() += times;
    }
}

/// A line for each thing that was compared.
pub fn lines(tally: &Tally) -> String {
    let mut lines: BTreeMap<&str, (u64, String)> = BTreeMap::new();
    for ((job, seen), times) in tally {
        let (total, line) = lines.entry(job).or_default();
        *total += times;
        line.push_str(&match seen {
            Seen::Accepted => format!(" accepted {times}"),
            Seen::Refused(number) => format!(" refused {number}: {times}"),
            Seen::Other(name) => format!(" {name} {times}"),
        });
    }
    lines
        .into_iter()
        .map(|(job, (total, line))| format!("{job}: {total} compared;{line}\n"))
        .collect()
}
