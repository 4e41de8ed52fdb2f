//! What the programs print of a text.

use super::Stored;
use crate::answer::Answer;
use crate::converter;
use crate::limits;
use crate::listing::{answer_line, listing};
use crate::reader::{self, Reading};
use std::fmt::Write;

/// The most nodes of a text that are listed.
const LISTED: usize = 40;

const FORMS: [u32; 3] = [0, 1, 2];

/// Lengths of the lent buffers.
#[derive(Clone, Copy)]
struct Room {
    work: usize,
    nodes: usize,
    signals: usize,
}

const AMPLE: Room = Room {
    work: limits::WORK_BYTES,
    nodes: limits::NODES,
    signals: limits::SIGNALS,
};

/// The reader, or the converter in a form.
#[derive(Clone, Copy)]
enum Call {
    Read,
    Convert(u32),
}

impl Call {
    fn all() -> [Call; 4] {
        let [first, second, third] = FORMS.map(Call::Convert);
        [Call::Read, first, second, third]
    }

    fn title(self) -> String {
        match self {
            Call::Read => "read".to_string(),
            Call::Convert(form) => format!("form {form}"),
        }
    }

    fn with(self, text: &[u8], room: Room) -> Reading {
        match self {
            Call::Read => reader::read(text, room.work, room.nodes, room.signals),
            Call::Convert(form) => {
                converter::convert(text, form, room.work, room.nodes, room.signals)
            }
        }
    }
}

/// 257 times the sum before it and the word, modulo the largest prime below 2 to the 32, for each
/// word in turn.
pub fn checksum(words: &[u32]) -> u64 {
    let mixed = |sum: u64, word: &u32| (sum * 257 + u64::from(*word)) % 4_294_967_291;
    words.iter().fold(0, mixed)
}

/// An answer; of an accepted text with the checksums of its nodes and of its signal list.
fn answer(reading: &Reading) -> String {
    let line = answer_line(&reading.answer);
    match reading.answer {
        Answer::Accepted { .. } => format!(
            "{line} sums {} {}",
            checksum(&reading.nodes),
            checksum(&reading.signals)
        ),
        Answer::Refused(_) => line,
    }
}

/// The reader's answer and the converter's in each form, in one line.
pub fn line(stored: &Stored) -> String {
    let answers = Call::all().map(|call| {
        let reading = call.with(&stored.text, AMPLE);
        format!("{} {}", call.title(), answer(&reading))
    });
    format!("{}: {}\n", stored.name, answers.join("; "))
}

/// A call with ample room, with a work buffer one byte short, and if it is accepted with exactly
/// the room that is due and with one node or one signal less.
fn tries(call: Call, text: &[u8]) -> String {
    let try_with = |room: Room| answer(&call.with(text, room));
    let ample = call.with(text, AMPLE);
    let short = Room {
        work: limits::WORK_BYTES - 1,
        ..AMPLE
    };
    let mut line = format!(
        "{} {}; work a byte short {}",
        call.title(),
        answer(&ample),
        try_with(short)
    );
    if let Answer::Accepted { nodes, signals } = ample.answer {
        let due = Room {
            nodes,
            signals,
            ..AMPLE
        };
        let a_node_short = Room {
            nodes: nodes.saturating_sub(1),
            ..due
        };
        let a_signal_short = Room {
            signals: signals.saturating_sub(1),
            ..due
        };
        write!(
            line,
            "; room as due {}; a node short {}; a signal short {}",
            try_with(due),
            try_with(a_node_short),
            try_with(a_signal_short)
        )
        .expect("a string takes all");
    }
    line + "\n"
}

/// A signal's number, output flag, offset of the name, index in the bus and width.
fn signal_line(number: usize, entry: u32) -> String {
    let (flag, offset) = (entry >> 31, entry >> 16 & 0x7fff);
    let (index, width) = (entry >> 8 & 0xff, entry & 0xff);
    format!("signal {number} {flag} {offset} {index} {width}\n")
}

/// The nodes and the signals of a small accepted text.
fn list(text: &[u8]) -> String {
    let reading = reader::read_freely(text);
    if !reading.answer.is_accepted() || reading.nodes.len() > LISTED {
        return String::new();
    }
    let all = listing(&reading);
    let (_, nodes) = all.split_once('\n').expect("the answer has a line");
    let signals = reading.signals.iter().enumerate();
    let signals: String = signals.map(|(i, &entry)| signal_line(i, entry)).collect();
    format!("{nodes}{signals}")
}

/// All answers on a text, and what a small one gives.
pub fn whole(stored: &Stored) -> String {
    let answers = Call::all().map(|call| tries(call, &stored.text));
    format!(
        "{}\n{}{}",
        stored.name,
        answers.concat(),
        list(&stored.text)
    )
}
