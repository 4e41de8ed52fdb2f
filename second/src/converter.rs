//! The converter: read, then rewritten in a form.

use crate::answer::{Answer, Refusal};
use crate::limits;
use crate::reader::{self, Reading};
use crate::rewriter;

/// The reader's refusals, then the rewriter's 21 and 16, then 18 for either result buffer.
pub fn convert(
    text: &[u8],
    form: u32,
    work_len: usize,
    node_room: usize,
    signal_room: usize,
) -> Reading {
    let read = reader::read(text, work_len, limits::NODES, limits::SIGNALS);
    let Answer::Accepted { signals, .. } = read.answer else {
        return read;
    };
    let written = rewriter::rewrite(&read.nodes, form, limits::NODES);
    let Answer::Accepted { nodes, .. } = written.answer else {
        return refused(written.answer);
    };
    if nodes > node_room || signals > signal_room {
        return refused(Answer::Refused(Refusal::new(18, 0)));
    }
    Reading {
        answer: Answer::Accepted { nodes, signals },
        nodes: written.nodes,
        signals: read.signals,
    }
}

fn refused(answer: Answer) -> Reading {
    Reading {
        answer,
        nodes: Vec::new(),
        signals: Vec::new(),
    }
}
