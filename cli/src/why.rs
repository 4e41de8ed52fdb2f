//! Why a run holds or fails: the line that is broken, or the assumption without which nothing is owed.

use crate::formula::Refusal;
use crate::judge::Judged;
use crate::lines::{Held, Line};
use crate::ltl;
use crate::node::{self, *};
use tlsf::{Fault, Section};

/// A line that is false.
#[derive(Clone, Debug, PartialEq, Eq)]
pub struct Broken {
    /// The line's place among all lines.
    pub line: usize,
    /// Its number in its section, implied lines after the written; nothing where only the tool names it.
    pub number: Option<usize>,
    /// Where it is false; nothing if the library does not take the line by itself.
    pub position: Option<usize>,
    /// The part of it that is to blame, if that says more than the line.
    pub part: Option<Part>,
}

/// A part of a line: where it is not as it should be, and what is said of it, as `r[3] holds at 3, and g[3] nowhere from there on`.
#[derive(Clone, Debug, PartialEq, Eq)]
pub struct Part {
    pub position: usize,
    pub said: String,
}

/// What there is to say about a verdict.
#[derive(Debug, Default, PartialEq, Eq)]
pub struct Why {
    /// The assumption whose line is false, so that nothing after it was owed.
    pub excused_by: Option<Broken>,
    /// The first line that was to hold and does not, owed or not.
    pub broken: Option<Broken>,
}

/// The text's lines on one recording.
pub struct Run<'a> {
    pub judged: &'a Judged<'a>,
    pub recording: &'a [u8],
    /// For each line where it holds.
    pub held: Vec<Option<Held<'a>>>,
    pub loop_start: usize,
}

impl<'a> Run<'a> {
    pub fn of(judged: &'a Judged<'a>, recording: &'a [u8]) -> Result<Run<'a>, Refusal> {
        let held = judged.lines.iter().map(|line| line.evaluate(judged.labels.len(), recording));
        Ok(Run {
            judged,
            recording,
            held: held.collect::<Result<_, Refusal>>()?,
            loop_start: crate::recording::loop_start(recording),
        })
    }

    pub fn why(&self, holds: bool) -> Why {
        let text = &self.judged.spec.text;
        if !holds {
            return Why {
                excused_by: None,
                broken: self.diagnose(text),
            };
        }
        let Some((line, position)) = self.excuse() else {
            return Why::default();
        };
        let is_assumption = |section: &str| matches!(section, "INITIALLY" | "REQUIRE" | "ASSUME");
        let unassuming = self.judged.outline.without(text, is_assumption);
        Why {
            excused_by: Some(self.broken(line, None, Some(position))),
            broken: self.diagnose(&unassuming),
        }
    }

    /// The line of a text that fails, as the library names it: of the judged one, or of the same without its assumptions. What the library
    /// does not tell, the position, is read from the rows of the named line alone: no line of its section is false before.
    fn diagnose(&self, text: &[u8]) -> Option<Broken> {
        let fault = self.judged.pool.diagnose(text, self.recording)?;
        let line = self.named(fault)?;
        let held = self.held[line].as_ref();
        let position = match fault.section {
            Section::Assert => held.and_then(|held| held.row().iter().position(|holds| !holds)),
            Section::Preset | Section::Guarantee => Some(0),
        };
        Some(self.broken(line, Some(fault.line), position))
    }

    /// The named line's place among all lines. After the written lines come the implied ones: of these it is the first at the first
    /// position where one is false.
    fn named(&self, fault: Fault) -> Option<usize> {
        let section = fault.section.to_string();
        let is_written = |line: &Line| line.section == section && line.number == fault.line;
        let is_implied = |line: &Line| line.section == section && line.bus.is_some();
        let written = self.judged.lines.iter().position(is_written);
        written.or_else(|| self.first_broken(is_implied).map(|(line, _)| line))
    }

    /// The assumption that fails: INITIALLY at 0, REQUIRE at its smallest position, ASSUME at 0.
    fn excuse(&self) -> Option<(usize, usize)> {
        let of = |section: &'static str| move |line: &Line| line.section == section;
        let at_0 = |section| self.false_at(of(section), 0).map(|line| (line, 0));
        // Under strict semantics ASSUME stands before GUARANTEE alone.
        let assumed = || at_0("ASSUME").filter(|_| !self.judged.is_strict() || self.judged.has_lines("GUARANTEE"));
        at_0("INITIALLY").or_else(|| self.first_broken(of("REQUIRE"))).or_else(assumed)
    }

    /// The first of some lines that is false at a position.
    fn false_at(&self, is_asked: impl Fn(&Line) -> bool, position: usize) -> Option<usize> {
        let mut lines = self.judged.lines.iter().zip(&self.held);
        lines.position(|(line, held)| is_asked(line) && held.as_ref().is_some_and(|held| !held.holds(position)))
    }

    /// The smallest position at which one of some lines is false, and the first that is false there.
    fn first_broken(&self, is_asked: impl Fn(&Line) -> bool) -> Option<(usize, usize)> {
        let mut positions = 0..crate::recording::positions(self.recording);
        positions.find_map(|position| self.false_at(&is_asked, position).map(|line| (line, position)))
    }

    fn broken(&self, line: usize, number: Option<usize>, position: Option<usize>) -> Broken {
        let part = self.held[line].as_ref().zip(position).and_then(|(held, position)| {
            let blame = blame(held, held.root, position, self.loop_start);
            let differs = blame.node != held.root || blame.position != position;
            differs.then(|| Part {
                position: blame.position,
                said: self.said(held, &blame),
            })
        });
        Broken {
            line,
            number,
            position,
            part,
        }
    }

    fn said(&self, held: &Held, blame: &Blame) -> String {
        let written = |node: usize| ltl::short(held.nodes, node, &self.judged.labels);
        let table = held.nodes[blame.node];
        let at = blame.position;
        match (node::kind(table), blame.wanted) {
            (FINALLY, true) => format!("{} holds nowhere from {at} on", written(node::first(table))),
            (IMPLIES, true) => {
                let (left, right) = (written(node::first(table)), node::second(table));
                match node::kind(held.nodes[right]) {
                    FINALLY => {
                        let never = written(node::first(held.nodes[right]));
                        format!("{left} holds at {at}, and {never} nowhere from there on")
                    }
                    _ => format!("{left} holds at {at}, {} does not", written(right)),
                }
            }
            (_, true) => format!("{} is false at {at}", written(blame.node)),
            (_, false) => format!("{} is true at {at}", written(blame.node)),
        }
    }
}

/// A part of a formula that is not as it should be at a position.
struct Blame {
    node: usize,
    position: usize,
    /// What it should have been.
    wanted: bool,
}

/// Goes down to the part that alone makes the node false: through `&&`, G, X and `!`, and what they are under `!`.
fn blame(held: &Held, root: usize, position: usize, loop_start: usize) -> Blame {
    let rows = &held.rows;
    let mut blame = Blame {
        node: root,
        position,
        wanted: true,
    };
    // Each step goes to an operand, whose number is smaller.
    loop {
        let table = held.nodes[blame.node];
        let (first, second) = (node::first(table), node::second(table));
        let differs = |node: usize, position: usize| rows.holds(node, position) != blame.wanted;
        match (node::kind(table), blame.wanted) {
            (NOT, wanted) => {
                blame.node = first;
                blame.wanted = !wanted;
            }
            (AND, true) | (OR, false) => blame.node = if differs(first, blame.position) { first } else { second },
            (GLOBALLY, true) | (FINALLY, false) => {
                let later = later(blame.position, loop_start, rows.positions);
                match later.into_iter().find(|&position| differs(first, position)) {
                    Some(position) => {
                        blame.node = first;
                        blame.position = position;
                    }
                    None => return blame,
                }
            }
            (NEXT, _) => {
                let next = blame.position + 1;
                blame.node = first;
                blame.position = if next < rows.positions { next } else { loop_start };
            }
            _ => return blame,
        }
    }
}

/// The positions from one on, each once, the loop's last.
fn later(from: usize, loop_start: usize, positions: usize) -> Vec<usize> {
    (from..positions).chain(loop_start.min(from)..from).collect()
}
