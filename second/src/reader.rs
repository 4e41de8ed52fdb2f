//! The reader: its refusals in order, and its nodes and signal list.

use crate::answer::{Answer, Refusal};
use crate::enumeration;
use crate::expansion;
use crate::formula::Formula;
use crate::limits;
use crate::names::{self, Names};
use crate::parser;
use crate::stack;
use crate::syntax::{Model, Syntax};
use crate::token;
use crate::types;
use crate::values::Values;

/// What the reader answers, with the nodes and the signal list of an accepted text.
#[derive(Clone, Debug, PartialEq, Eq)]
pub struct Reading {
    pub answer: Answer,
    pub nodes: Vec<u32>,
    pub signals: Vec<u32>,
}

/// Reads a text with a work buffer of `work_len` bytes and room for nodes and signals.
pub fn read(text: &[u8], work_len: usize, node_room: usize, signal_room: usize) -> Reading {
    let result = stack::deep(|| read_in_order(text, work_len, node_room, signal_room));
    match result {
        Ok((nodes, signals)) => Reading {
            answer: Answer::Accepted {
                nodes: nodes.len(),
                signals: signals.len(),
            },
            nodes,
            signals,
        },
        Err(refusal) => Reading {
            answer: Answer::Refused(refusal),
            nodes: Vec::new(),
            signals: Vec::new(),
        },
    }
}

/// Reads a text with all the room that the limits allow.
pub fn read_freely(text: &[u8]) -> Reading {
    read(text, limits::WORK_BYTES, limits::NODES, limits::SIGNALS)
}

type Results = (Vec<u32>, Vec<u32>);

fn read_in_order(
    text: &[u8],
    work_len: usize,
    node_room: usize,
    signal_room: usize,
) -> Result<Results, Refusal> {
    let Understood { nodes, signals, .. } = understand(text, work_len)?;
    // Refusal 18; E7: either result buffer.
    if nodes.len() > node_room || signals.len() > signal_room {
        return Err(Refusal::new(18, 0));
    }
    Ok((nodes, signals.iter().map(Signal::entry).collect()))
}

/// What an accepted text says.
pub struct Understood {
    pub nodes: Vec<u32>,
    pub signals: Vec<Signal>,
    /// TARGET's model.
    pub target: Model,
}

/// A signal of the list, a bus having one for each bit.
pub struct Signal {
    pub output: bool,
    /// The declared name, and its place in the text.
    pub name: Vec<u8>,
    pub place: usize,
    /// Its index in the bus, none for a single signal.
    pub index: Option<u32>,
    /// The width of the bus, 0 for a single signal.
    pub width: u32,
}

impl Signal {
    /// 01: 'A signal list entry is 32 bits: 1 output flag, 15 offset of the name, 8 index in the
    /// bus, 8 width (index and width 0 for a single signal)'.
    fn entry(&self) -> u32 {
        let flag = u32::from(self.output) << 31;
        let index = self.index.unwrap_or(0);
        flag | (self.place as u32) << 16 | index << 8 | self.width
    }
}

/// The reader without result buffers, so without 18, on a deep stack.
// 01: 'Reader order: 17, then 1 to 10 each over the whole text, first place first; 11 to 13 as
// evaluation meets them; 14, 15, 16, 18'; 02, F-2: '14 no longer occurs'.
pub fn understand(text: &[u8], work_len: usize) -> Result<Understood, Refusal> {
    check_work_buffer(work_len)?;
    let (syntax, names) = check_text(text)?;
    let mut values = Values::of(&syntax, &names)?;
    let formula = expansion::expand(&mut values)?;
    check_signal_count(&values)?;
    check_node_count(&formula)?;
    Ok(Understood {
        nodes: formula.nodes().expect("a tree within the limit is kept"),
        signals: signals(&values),
        target: syntax.info.target,
    })
}

/// Refusals 1 to 10; otherwise the parsed text and what its names stand for.
pub fn check_text(text: &[u8]) -> Result<(Syntax<'_>, Names), Refusal> {
    let tokens = token::tokens(text)?;
    let syntax = parser::parse(text, tokens)?;
    syntax.check_levels()?;
    let names = names::resolve(&syntax)?;
    types::check(&syntax, &names)?;
    enumeration::check(&syntax)?;
    Ok((syntax, names))
}

fn check_work_buffer(work_len: usize) -> Result<(), Refusal> {
    if work_len < limits::WORK_BYTES {
        return Err(Refusal::new(17, 0));
    }
    Ok(())
}

// E7: refusal 15 at the first declared name, in signal order, with which the count passes 255.
fn check_signal_count(values: &Values) -> Result<(), Refusal> {
    let mut count = 0;
    for (number, signal) in values.syntax.signals.iter().enumerate() {
        count += values.taken(number);
        if count > limits::SIGNALS {
            return values.syntax.refusal(15, signal.name);
        }
    }
    Ok(())
}

// Refusal 16: more than 8,192 nodes by the definition.
fn check_node_count(formula: &Formula) -> Result<(), Refusal> {
    if formula.count() > limits::NODES as u64 {
        return Err(Refusal::new(16, 0));
    }
    Ok(())
}

// 01: 'Signals number from 0, inputs first, a bus taking consecutive numbers'.
fn signals(values: &Values) -> Vec<Signal> {
    let mut list = Vec::new();
    for (number, declared) in values.syntax.signals.iter().enumerate() {
        let width = values.width(number);
        for index in 0..values.taken(number) as u32 {
            list.push(Signal {
                output: declared.output,
                name: values.syntax.bytes(declared.name).to_vec(),
                place: values.syntax.place(declared.name),
                index: width.map(|_| index),
                width: width.unwrap_or(0),
            });
        }
    }
    list
}
