//! Answers in words: titles of refusals, results for `?`, and formulas as lines of LTL.

use crate::{Answer, Diagnosis, Node, Section, Signal, Verdict, MOST_NODES};
use core::error::Error;
use core::fmt::{self, Display, Formatter, Write};

/// The titles of `docs/REFUSALS.md`, from refusal 1 on.
const TITLES: [&str; 23] = [
    "The text is too long",
    "What begins here is no token",
    "Too many tokens",
    "A token that cannot stand there",
    "An expression is nested too deep",
    "A name that is not visible",
    "A name that is declared twice",
    "Too many names",
    "A wrong type",
    "Words of an enumeration that do not fit",
    "A value out of range",
    "A set that is too large",
    "A width or an index that does not fit",
    "Not used: TARGET and SEMANTICS may name different models",
    "Too many signals",
    "Too many nodes",
    "The work buffer is too short",
    "A result buffer is too short",
    "A node against the format",
    "A recording against its format",
    "A form that does not exist",
    "A name that cannot be written",
    "A signal was not recorded",
];

/// The title of a refusal's page in `docs/REFUSALS.md`; none for other numbers.
pub fn refusal_title(number: u32) -> Option<&'static str> {
    TITLES.get((number as usize).checked_sub(1)?).copied()
}

/// Why and where, for `?`.
#[derive(Clone, Copy, Debug, PartialEq, Eq)]
pub struct Refusal {
    /// As in `docs/REFUSALS.md`.
    pub number: u32,
    /// A byte's offset in the text or recording, a node's number, or a signal's (22).
    pub place: usize,
}

impl Display for Refusal {
    fn fmt(&self, f: &mut Formatter) -> fmt::Result {
        write!(f, "refused {} at {}", self.number, self.place)?;
        refusal_title(self.number).map_or(Ok(()), |title| write!(f, ": {title}"))
    }
}

impl Error for Refusal {}

/// The counts of an accepted answer.
#[derive(Clone, Copy, Debug, PartialEq, Eq)]
pub struct Counts {
    /// The nodes written; of [`evaluate`](crate::evaluate), the nodes given.
    pub nodes: usize,
    /// The signals written, 0 from [`rewrite`](crate::rewrite); of [`evaluate`](crate::evaluate), the count given.
    pub signals: usize,
}

impl Answer {
    /// The counts, or the refusal as an error.
    pub fn result(self) -> Result<Counts, Refusal> {
        match self {
            Answer::Accepted { nodes, signals } => Ok(Counts { nodes, signals }),
            Answer::Refused { number, place } => Err(Refusal { number, place }),
        }
    }
}

/// As the programs print it, with the title of a refusal.
impl Display for Answer {
    fn fmt(&self, f: &mut Formatter) -> fmt::Result {
        match self.result() {
            Ok(counts) => write!(f, "accepted {} {}", counts.nodes, counts.signals),
            Err(refusal) => refusal.fmt(f),
        }
    }
}

impl Verdict {
    /// Whether it holds, or the refusal as an error.
    pub fn result(self) -> Result<bool, Refusal> {
        match self {
            Verdict::Holds => Ok(true),
            Verdict::Fails => Ok(false),
            Verdict::Refused { number, place } => Err(Refusal { number, place }),
        }
    }
}

impl Display for Verdict {
    fn fmt(&self, f: &mut Formatter) -> fmt::Result {
        match self.result() {
            Ok(true) => f.write_str("holds"),
            Ok(false) => f.write_str("fails"),
            Err(refusal) => refusal.fmt(f),
        }
    }
}

/// The line that failed.
#[derive(Clone, Copy, Debug, PartialEq, Eq)]
pub struct Fault {
    /// Its section.
    pub section: Section,
    /// Its number there, from 1 on.
    pub line: usize,
}

impl Diagnosis {
    /// The line that failed, if one did, or the refusal as an error.
    pub fn result(self) -> Result<Option<Fault>, Refusal> {
        match self {
            Diagnosis::Holds => Ok(None),
            Diagnosis::Fails { section, line } => Ok(Some(Fault { section, line })),
            Diagnosis::Refused { number, place } => Err(Refusal { number, place }),
        }
    }
}

/// As a text has it: `PRESET`, `ASSERT` or `GUARANTEE`.
impl Display for Section {
    fn fmt(&self, f: &mut Formatter) -> fmt::Result {
        f.write_str(match self {
            Section::Preset => "PRESET",
            Section::Assert => "ASSERT",
            Section::Guarantee => "GUARANTEE",
        })
    }
}

/// As `verdict` prints it: `holds`, or section and line.
impl Display for Diagnosis {
    fn fmt(&self, f: &mut Formatter) -> fmt::Result {
        match self.result() {
            Ok(None) => f.write_str("holds"),
            Ok(Some(Fault { section, line })) => write!(f, "{section} {line}"),
            Err(refusal) => refusal.fmt(f),
        }
    }
}

/// A signal as a bench's table calls it, `b[3]` for a bit of a bus: [`Signal::label`].
pub struct SignalLabel<'a> {
    signal: Signal,
    text: &'a [u8],
}

impl Signal {
    /// Its name with its index, of the text that it was read from.
    pub fn label<'a>(&self, text: &'a [u8]) -> SignalLabel<'a> {
        SignalLabel { signal: *self, text }
    }
}

impl Display for SignalLabel<'_> {
    fn fmt(&self, f: &mut Formatter) -> fmt::Result {
        for &byte in self.signal.name(self.text) {
            f.write_char(char::from(byte))?;
        }
        match self.signal.width {
            0 => Ok(()),
            _ => write!(f, "[{}]", self.signal.index),
        }
    }
}

/// A table's root as a line of LTL: each operator of two operands in parentheses of its own, signals as [`Signal::label`] has them.
///
/// Nothing is allocated, and the stack does not grow with the formula. A table that shares nodes is written out as the tree that it stands for, which may be
/// far larger; the reader's and the rewriter's tables share nothing.
pub struct Formula<'a> {
    /// The nodes, the root last, as an accepted call has left them.
    pub nodes: &'a [u32],
    /// The text's signal list.
    pub signals: &'a [u32],
    /// The text.
    pub text: &'a [u8],
}

impl Formula<'_> {
    fn node(&self, number: usize) -> Option<Node> {
        self.nodes.get(number).and_then(|&word| Node::of(word))
    }

    fn signal(&self, f: &mut Formatter, number: usize) -> fmt::Result {
        match self.signals.get(number) {
            Some(&entry) => Signal::of(entry).label(self.text).fmt(f),
            None => write!(f, "s{number}"),
        }
    }

    /// What is written before the first operand, then the first operand, if there is one.
    fn begin(&self, f: &mut Formatter, number: usize) -> Result<Option<usize>, fmt::Error> {
        let (before, first) = match self.node(number) {
            None => ("?", None),
            Some(Node::True) => ("true", None),
            Some(Node::False) => ("false", None),
            Some(Node::Signal(signal)) => {
                self.signal(f, signal)?;
                ("", None)
            }
            Some(Node::Not(a)) => ("!", Some(a)),
            Some(Node::Next(a)) => ("X ", Some(a)),
            Some(Node::Globally(a)) => ("G ", Some(a)),
            Some(Node::Finally(a)) => ("F ", Some(a)),
            Some(other) => ("(", binary(other).map(|(_, a, _)| a)),
        };
        f.write_str(before)?;
        Ok(first.filter(|&operand| operand < number))
    }
}

/// The sign and the operands of an operator of two.
fn binary(node: Node) -> Option<(&'static str, usize, usize)> {
    Some(match node {
        Node::And(a, b) => (" && ", a, b),
        Node::Or(a, b) => (" || ", a, b),
        Node::Implies(a, b) => (" -> ", a, b),
        Node::Iff(a, b) => (" <-> ", a, b),
        Node::Until(a, b) => (" U ", a, b),
        Node::Release(a, b) => (" R ", a, b),
        Node::WeakUntil(a, b) => (" W ", a, b),
        _ => return None,
    })
}

impl Display for Formula<'_> {
    fn fmt(&self, f: &mut Formatter) -> fmt::Result {
        // The operators that are open, and of each whether its second operand is being written. Operands have smaller numbers, so that they fit.
        let mut open = [(0_u16, false); MOST_NODES];
        let mut depth = 0;
        let Some(mut at) = self.nodes.len().checked_sub(1).filter(|&root| root < MOST_NODES) else {
            return Ok(());
        };
        loop {
            if let Some(first) = self.begin(f, at)? {
                open[depth] = (at as u16, false);
                depth += 1;
                at = first;
                continue;
            }
            // An operand is written: on to the second one of what is open, or up.
            loop {
                let Some(above) = depth.checked_sub(1) else {
                    return Ok(());
                };
                let (number, second_done) = open[above];
                match self.node(number.into()).and_then(binary) {
                    Some((sign, _, second)) if !second_done && second < number.into() => {
                        f.write_str(sign)?;
                        open[above].1 = true;
                        at = second;
                        break;
                    }
                    Some(_) => f.write_str(")")?,
                    None => {}
                }
                depth = above;
            }
        }
    }
}
