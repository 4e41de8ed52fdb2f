//! An accepted text's own lines, each with a table of its own, so that nothing rests on how the whole formula is put together.

use crate::enumerations;
use crate::formula::{self, Refusal, Rows};
use crate::node;
use crate::outline::{self, Outline, Statement, FORMULAS};
use crate::signals::Signal;
use crate::timing;
use crate::worker::{Outcome, Pool};

/// A line of a section, or what a bus of an enumeration implies.
pub struct Line {
    pub section: &'static str,
    /// From 1 in its section; 0 for what a bus implies.
    pub number: usize,
    pub source: String,
    /// Where it begins in the text.
    pub start: usize,
    /// Of an implied line: its bus, by the number of its first signal.
    pub bus: Option<usize>,
    /// Nothing if the library does not take the line by itself, as a text at a limit may have it.
    table: Option<Table>,
}

/// A formula: the nodes in which its root stands.
struct Table {
    nodes: Vec<u32>,
    root: usize,
}

impl Line {
    /// Where the line's formula and all below it hold.
    pub fn evaluate(&self, signals: usize, recording: &[u8]) -> Result<Option<Held<'_>>, Refusal> {
        let Some(table) = &self.table else {
            return Ok(None);
        };
        Ok(Some(Held {
            nodes: &table.nodes,
            root: table.root,
            rows: formula::evaluate(&table.nodes, signals, recording)?,
        }))
    }
}

/// A line's rows on a recording.
pub struct Held<'a> {
    pub nodes: &'a [u32],
    pub root: usize,
    pub rows: Rows,
}

impl Held<'_> {
    pub fn holds(&self, position: usize) -> bool {
        self.rows.holds(self.root, position)
    }

    pub fn row(&self) -> Vec<bool> {
        self.rows.row(self.root)
    }
}

/// The text's lines in the order of the text, then what its buses imply in the order of the signals.
pub fn of(text: &[u8], outline: &Outline, signals: &[Signal], pool: &Pool) -> Vec<Line> {
    let Some(frame) = Frame::of(text, outline) else {
        return Vec::new();
    };
    let mut lines = Vec::new();
    let mut numbers = [0; FORMULAS.len()];
    for statement in outline.statements.iter().filter(|line| outline::is_formula(line.section)) {
        let section = FORMULAS.iter().position(|name| *name == statement.section).unwrap_or_default();
        numbers[section] += 1;
        let source = statement.shown(text, &outline.tokens);
        lines.push(Line {
            section: statement.section,
            number: numbers[section],
            start: statement.start,
            bus: None,
            table: frame.table(&source, pool),
            source,
        });
    }
    lines.extend(implied(text, outline, signals, &frame, pool));
    lines
}

/// Every bus of an enumeration has one of its values, which is a line like any other.
fn implied(text: &[u8], outline: &Outline, signals: &[Signal], frame: &Frame, pool: &Pool) -> Vec<Line> {
    let all = enumerations::of(text, outline);
    let mut lines = Vec::new();
    for bus in timing::buses(signals) {
        let signal = &signals[bus.start];
        let Some(by) = enumerations::of_bus(text, outline, &all, &signal.name) else {
            continue;
        };
        let values = by
            .identifiers
            .iter()
            .map(|identifier| format!("{} == {}", signal.name, identifier.name));
        let source = values.collect::<Vec<String>>().join(" || ");
        lines.push(Line {
            section: if signal.output { "ASSERT" } else { "REQUIRE" },
            number: 0,
            start: 0,
            bus: Some(bus.start),
            table: frame.table(&source, pool),
            source,
        });
    }
    lines
}

/// How many nodes each line has by itself; nothing if the library refuses even the line alone.
pub fn node_counts<'a>(text: &[u8], outline: &'a Outline, pool: &Pool) -> Vec<(&'a Statement, Option<usize>)> {
    const MOST_LINES: usize = 200;
    let Some(frame) = Frame::of(text, outline) else {
        return Vec::new();
    };
    let nothing = frame.nodes("", pool).map_or(0, |nodes| nodes.len());
    let lines = outline.statements.iter().filter(|line| outline::is_formula(line.section));
    let count = |line: &'a Statement| {
        let source = line.shown(text, &outline.tokens);
        let nodes = frame.nodes(&format!("INITIALLY {{ {source}; }}"), pool);
        (line, nodes.map(|nodes| (nodes.len() + 1).saturating_sub(nothing)))
    };
    lines.take(MOST_LINES).map(count).collect()
}

/// A text without the lines of its sections: what stands before MAIN's end, and after.
struct Frame {
    before: Vec<u8>,
    after: Vec<u8>,
}

impl Frame {
    fn of(text: &[u8], outline: &Outline) -> Option<Frame> {
        let end = outline.main_end?;
        Some(Frame {
            before: outline.without(text.get(..end)?, outline::is_formula),
            after: text.get(end..)?.to_vec(),
        })
    }

    fn nodes(&self, sections: &str, pool: &Pool) -> Option<Vec<u32>> {
        let text = [&self.before, sections.as_bytes(), &self.after].concat();
        match pool.convert(&text, 0) {
            Outcome::Accepted(formula) => Some(formula.nodes),
            _ => None,
        }
    }

    /// A formula by itself: as the one line of INITIALLY it is the left side of the root.
    fn table(&self, source: &str, pool: &Pool) -> Option<Table> {
        let nodes = self.nodes(&format!("INITIALLY {{ {source}; }} PRESET {{ false; }}"), pool)?;
        Some(Table {
            root: node::first(*nodes.last()?),
            nodes,
        })
    }
}
