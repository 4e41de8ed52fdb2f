//! The program's listing of a reading.

use crate::answer::Answer;
use crate::node::Node;
use crate::reader::Reading;
use std::fmt::Write;

/// 01: '`accepted`, node and signal counts, then per node its number, kind, first and second
/// field; or `refused`, number, place'. P1: it ends with a line feed.
pub fn listing(reading: &Reading) -> String {
    let mut listing = answer_line(&reading.answer);
    listing.push('\n');
    for (number, bits) in reading.nodes.iter().enumerate() {
        let node = Node(*bits);
        let (kind, first, second) = (node.kind(), node.first(), node.second());
        writeln!(listing, "{number} {kind} {first} {second}").expect("a string takes all");
    }
    listing
}

/// `accepted` with its counts, or `refused` with number and place.
pub fn answer_line(answer: &Answer) -> String {
    match answer {
        Answer::Accepted { nodes, signals } => format!("accepted {nodes} {signals}"),
        Answer::Refused(refusal) => format!("refused {} {}", refusal.number, refusal.place),
    }
}
