//! The proved library for safe Rust: slices in, an [`Answer`] out, nothing allocated, no `unsafe` for callers.
//!
//! A TLSF v1.1 text becomes the nodes of an LTL formula and a signal list ([`read`], [`convert`]) or a basic text of them ([`write_basic`]), nodes become a normal form
//! ([`rewrite`]), and a recorded run tells where each node holds ([`evaluate`], [`judge`]) and which line of the text failed ([`diagnose`]); [`reach`] tells how long a
//! run has to be recorded. Any bytes in any slice are answered; a refused call changes no result. `docs/REFUSALS.md` has a page for every refusal.
//!
//! ```
//! use tlsf::{Answer, Diagnosis, Reach, Section, Signal, Verdict};
//!
//! let text = br#"INFO { TITLE: "t" DESCRIPTION: "d" SEMANTICS: Mealy TARGET: Mealy }
//!     MAIN { INPUTS { r; } OUTPUTS { g; } GUARANTEE { G (r -> F g); } }"#;
//!
//! // From the text to the formula: room for every result.
//! let mut work = [0; tlsf::WORK_BYTES];
//! let mut nodes = [0; tlsf::MOST_NODES];
//! let mut signals = [0; tlsf::MOST_SIGNALS];
//! let answer = tlsf::convert(text, tlsf::AS_EXPANDED, &mut work, &mut nodes, &mut signals);
//! assert_eq!(answer, Answer::Accepted { nodes: 17, signals: 2 });
//! assert_eq!(Signal::of(signals[1]).name(text), b"g");
//!
//! // From the formula to the verdict: three positions of two signals, after the last one the second again.
//! let mut rows = [0; 17];
//! assert_eq!(tlsf::judge(&nodes[..17], 2, &[0x00, 0x30, 0x01, 0x02, 0x90], &mut rows), Verdict::Holds);
//! assert_eq!(tlsf::judge(&nodes[..17], 2, &[0x00, 0x30, 0x01, 0x02, 0x80], &mut rows), Verdict::Fails);
//!
//! // Which line failed?
//! let failed = tlsf::diagnose(text, &[0x00, 0x30, 0x01, 0x02, 0x80], &mut work, &mut rows);
//! assert_eq!(failed, Diagnosis::Fails { section: Section::Guarantee, line: 1 });
//! assert_eq!(failed.to_string(), "GUARANTEE 1");
//!
//! // How many letters decide? No number of them: F g may wait. Of node 9, the signal g, letter 0 does.
//! assert_eq!(tlsf::reach(&nodes[..17]), Reach::Unbounded);
//! assert_eq!(tlsf::reach(&nodes[..10]), Reach::Bounded { last: 0 });
//!
//! // The formula as a line of LTL.
//! let formula = tlsf::Formula { nodes: &nodes[..17], signals: &signals[..2], text };
//! assert_eq!(formula.to_string(), "(true -> (true && ((G true && true) -> (G true && G (r -> F g)))))");
//!
//! // What is no TLSF is refused, with a number and a place; `result` makes an error of it.
//! let answer = tlsf::read(b"# a note", &mut work, &mut nodes, &mut signals);
//! assert_eq!(answer, Answer::Refused { number: 2, place: 0 });
//! assert_eq!(answer.result().unwrap_err().to_string(), "refused 2 at 0: What begins here is no token");
//! ```
//!
//! The library has no variables of its own: any number of threads may call it at once. The stack is not checked: the deepest tables take [`rewrite`] 1.5 MB of it, the
//! shortest text takes [`convert`] 0.54 MB, the deepest ones take 0.9 MB (1.4 MB in negation form), one that holds 1,335 sets of 256 elements at once takes 1.95 MB,
//! and two such sets for each of 880 names of big operators 2.9 MB, the most that was made. So a thread that reads texts of strangers wants 4 MB (README.md, 'Stack and time').

#![no_std]
#![warn(missing_docs)]

mod parts;
mod words;

pub use parts::{holds_at, positions, row_bytes, Node, Signal};
pub use words::{refusal_title, Counts, Fault, Formula, Refusal, SignalLabel};

/// The crate's version, as `TLSF_VERSION` in tlsf.h.
pub const VERSION: &str = env!("CARGO_PKG_VERSION");

mod library {
    include!(concat!(env!("CARGO_MANIFEST_DIR"), "/../../include/tlsf.rs"));

    use crate::Answer;

    // What tlsf.h asks of a caller holds of every slice: its pointer is aligned and not null, also where it is empty, and a slice
    // that is written is borrowed alone.

    pub fn read(text: &[u8], work: &mut [u8], nodes: &mut [u32], signals: &mut [u32]) -> Answer {
        Answer::of(unsafe {
            tlsf_read(
                text.as_ptr(),
                text.len(),
                work.as_mut_ptr(),
                work.len(),
                nodes.as_mut_ptr(),
                nodes.len(),
                signals.as_mut_ptr(),
                signals.len(),
            )
        })
    }

    pub fn convert(text: &[u8], form: u32, work: &mut [u8], nodes: &mut [u32], signals: &mut [u32]) -> Answer {
        Answer::of(unsafe {
            tlsf_convert(
                text.as_ptr(),
                text.len(),
                form,
                work.as_mut_ptr(),
                work.len(),
                nodes.as_mut_ptr(),
                nodes.len(),
                signals.as_mut_ptr(),
                signals.len(),
            )
        })
    }

    pub fn write_basic(text: &[u8], work: &mut [u8], out: &mut [u8]) -> Answer {
        Answer::of(unsafe {
            tlsf_write_basic(
                text.as_ptr(),
                text.len(),
                work.as_mut_ptr(),
                work.len(),
                out.as_mut_ptr(),
                out.len(),
            )
        })
    }

    pub fn rewrite(nodes: &[u32], form: u32, out: &mut [u32]) -> Answer {
        Answer::of(unsafe { tlsf_rewrite(nodes.as_ptr(), nodes.len(), form, out.as_mut_ptr(), out.len()) })
    }

    pub fn evaluate(nodes: &[u32], signals: u32, recording: &[u8], rows: &mut [u8]) -> Answer {
        Answer::of(unsafe {
            tlsf_evaluate(
                nodes.as_ptr(),
                nodes.len(),
                signals,
                recording.as_ptr(),
                recording.len(),
                rows.as_mut_ptr(),
                rows.len(),
            )
        })
    }

    pub fn diagnose(text: &[u8], recording: &[u8], work: &mut [u8], rows: &mut [u8]) -> Answer {
        Answer::of(unsafe {
            tlsf_diagnose(
                text.as_ptr(),
                text.len(),
                recording.as_ptr(),
                recording.len(),
                work.as_mut_ptr(),
                work.len(),
                rows.as_mut_ptr(),
                rows.len(),
            )
        })
    }

    pub fn reach(nodes: &[u32]) -> Answer {
        Answer::of(unsafe { tlsf_reach(nodes.as_ptr(), nodes.len()) })
    }
}

/// The bytes that [`read`] and [`convert`] need to be lent as work buffer.
pub const WORK_BYTES: usize = 65_536;
/// Room for nodes that is always enough.
pub const MOST_NODES: usize = 8_192;
/// Room for signals that is always enough.
pub const MOST_SIGNALS: usize = 255;
/// A text has at most this many bytes.
pub const MOST_TEXT_BYTES: usize = 32_768;
/// A recording has at most this many positions.
pub const MOST_POSITIONS: usize = 2_048;
/// A recording has at most this many bytes: 4, and 2,048 letters of 255 bits.
pub const MOST_RECORDING_BYTES: usize = 65_284;

/// Form 0: nothing shared, nothing simplified.
pub const AS_EXPANDED: u32 = 0;
/// Form 1: `!` only on signals, no `->` and no `<->`.
pub const NEGATION_FORM: u32 = 1;
/// Form 2: only true, signals, `!`, `||`, X and U.
pub const CORE_FORM: u32 = 2;

/// Every answer is either accepted with its counts or a refusal with its number and place.
#[derive(Clone, Copy, Debug, PartialEq, Eq)]
#[must_use]
pub enum Answer {
    /// How many nodes and signals.
    Accepted {
        /// The nodes written; of [`evaluate`], the nodes given.
        nodes: usize,
        /// The signals written, 0 from [`rewrite`]; of [`evaluate`], the count given.
        signals: usize,
    },
    /// Why and where.
    Refused {
        /// 1 to 23, as in `docs/REFUSALS.md`.
        number: u32,
        /// A byte's offset in the text or recording, or a node's number.
        place: usize,
    },
}

impl Answer {
    // tlsf.h: accepted = nodes * 2^32 + signals; refused = 2^63 + number * 2^32 + place.
    fn of(word: u64) -> Answer {
        let upper = (word >> 32) as u32 & 0x7fff_ffff;
        let lower = word as u32 as usize;
        if word >> 63 == 1 {
            Answer::Refused {
                number: upper,
                place: lower,
            }
        } else {
            Answer::Accepted {
                nodes: upper as usize,
                signals: lower,
            }
        }
    }
}

/// How long a written text is, or a refusal.
#[derive(Clone, Copy, Debug, PartialEq, Eq)]
#[must_use]
pub enum Written {
    /// The bytes written.
    Bytes(usize),
    /// Why and where.
    Refused {
        /// 1 to 18 or 22, as in `docs/REFUSALS.md`.
        number: u32,
        /// A byte's offset in the text, or a signal's number (22).
        place: usize,
    },
}

/// Does the root hold at position 0, or a refusal?
#[derive(Clone, Copy, Debug, PartialEq, Eq)]
#[must_use]
pub enum Verdict {
    /// It holds.
    Holds,
    /// It does not.
    Fails,
    /// Why and where, as in [`Answer::Refused`].
    Refused {
        /// 1 to 23, as in `docs/REFUSALS.md`.
        number: u32,
        /// A byte's offset in the recording, or a node's number.
        place: usize,
    },
}

/// A section whose lines a system owes: one of them is named where a text fails.
#[derive(Clone, Copy, Debug, PartialEq, Eq, PartialOrd, Ord, Hash)]
pub enum Section {
    /// Owed at position 0.
    Preset,
    /// Owed at every position.
    Assert,
    /// Owed at position 0 of the whole run.
    Guarantee,
}

/// Which line of a text failed, or a refusal.
#[derive(Clone, Copy, Debug, PartialEq, Eq)]
#[must_use]
pub enum Diagnosis {
    /// The text holds, also because INITIALLY or REQUIRE fails.
    Holds,
    /// It does not.
    Fails {
        /// The section of the line.
        section: Section,
        /// The line's number in its section, from 1 on; lines that enumerations imply come after the written, in the order of their signals.
        line: usize,
    },
    /// Why and where, as in [`Answer::Refused`].
    Refused {
        /// 1 to 18, 20 or 23, as in `docs/REFUSALS.md`.
        number: u32,
        /// A byte's offset in the text or the recording.
        place: usize,
    },
}

/// How far ahead a table's root looks.
#[derive(Clone, Copy, Debug, PartialEq, Eq)]
#[must_use]
pub enum Reach {
    /// Letters 0 to `last`, one more than its number, decide whether the root holds at position 0, whatever follows them.
    Bounded {
        /// The last letter that counts: the reach.
        last: usize,
    },
    /// No number of letters decides: a G, F, U, R or W stands above a signal.
    Unbounded,
    /// Why and where, as in [`Answer::Refused`].
    Refused {
        /// 19, as in `docs/REFUSALS.md`.
        number: u32,
        /// A node's number.
        place: usize,
    },
}

/// Reads a TLSF text: its formula's nodes come to the front of `nodes`, in postorder with the root last, and its signal list to the front of `signals`, inputs first.
///
/// A text that states one model and targets the other is converted: from Moore to Mealy an X stands directly above every input's node, from Mealy to Moore above
/// every output's.
///
/// The first [`WORK_BYTES`] of `work` are zero after every answer, whatever they held before; a shorter one is refused (17) and left as it was. Elements past a
/// result are left as they were. Refused by 17, then 1 to 16 (14 is not used), then 18 if either result does not fit.
pub fn read(text: &[u8], work: &mut [u8], nodes: &mut [u32], signals: &mut [u32]) -> Answer {
    library::read(text, work, nodes, signals)
}

/// Reads a TLSF text and writes its formula in a form, [`AS_EXPANDED`], [`NEGATION_FORM`] or [`CORE_FORM`]: as [`read`] and then [`rewrite`], with nothing written by
/// a refusal.
///
/// Accepted with the form's nodes and the text's signals. Refused by 17, then 1 to 16 for the text, then 21, 16 and 18 for the form.
pub fn convert(text: &[u8], form: u32, work: &mut [u8], nodes: &mut [u32], signals: &mut [u32]) -> Answer {
    library::convert(text, form, work, nodes, signals)
}

/// Reads a TLSF text and writes a basic one of its nodes to the front of `out`: INFO, the signals, and the formula as the one line of GUARANTEE, for tools that read
/// basic TLSF alone. Bit i of bus b is called `b@i`. Where the written text keeps to the reader's limits [`read`] accepts it and gives the same nodes, as those of a
/// specification without lines that has them in the place of GUARANTEE's.
///
/// `work` as for [`read`]. Refused by 17, then 1 to 16, then 22 at the smallest number of a signal whose written name is longer than 64 bytes or that of a smaller
/// number, then 18 if the bytes do not fit.
pub fn write_basic(text: &[u8], work: &mut [u8], out: &mut [u8]) -> Written {
    match library::write_basic(text, work, out) {
        Answer::Accepted { nodes: bytes, .. } => Written::Bytes(bytes),
        Answer::Refused { number, place } => Written::Refused { number, place },
    }
}

/// Writes a form of a table's root to the front of `out`, in postorder, nothing shared. The table has 1 to [`MOST_NODES`] nodes, operands before their operators.
///
/// Refused by 21, 19, 16, 18.
pub fn rewrite(nodes: &[u32], form: u32, out: &mut [u32]) -> Answer {
    library::rewrite(nodes, form, out)
}

/// Fills a row of bits for every node over a recorded run: [`row_bytes`] bytes each, node 0's first; [`holds_at`] reads them. `signals` is how many signals the nodes
/// may name.
///
/// A recording is bits, most significant first: 12 positions N, 12 loop start L, 8 signals K, then N letters of K bits, signal 0 first, zero bits to a full byte.
/// After position N-1 comes L. K is `signals`: fewer is 23, more is 20. Refused by 15, 19, 20, 23, 18.
pub fn evaluate(nodes: &[u32], signals: u32, recording: &[u8], rows: &mut [u8]) -> Answer {
    library::evaluate(nodes, signals, recording, rows)
}

/// Fills the rows as [`evaluate`] does, and tells whether the root, the last node, holds at position 0.
pub fn judge(nodes: &[u32], signals: u32, recording: &[u8], rows: &mut [u8]) -> Verdict {
    match evaluate(nodes, signals, recording, rows) {
        Answer::Refused { number, place } => Verdict::Refused { number, place },
        Answer::Accepted { .. } if holds_at(rows, positions(recording), nodes.len() - 1, 0) => Verdict::Holds,
        Answer::Accepted { .. } => Verdict::Fails,
    }
}

/// Tells which line of a text failed on a recorded run: the first line of PRESET that is false at position 0; if there is none, at the smallest position where ASSERT is
/// broken (in strict files: with REQUIRE true up to it) the first line of ASSERT that is false there; else the first line of GUARANTEE that is false at position 0.
///
/// `work` as for [`read`], `recording` and `rows` as for [`evaluate`]: a row for each of the text's nodes, so that [`MOST_NODES`] times [`row_bytes`] are always enough.
/// Refused by 17, then 1 to 16 for the text, then 20, 23 and 18.
pub fn diagnose(text: &[u8], recording: &[u8], work: &mut [u8], rows: &mut [u8]) -> Diagnosis {
    let fails = |section, line| Diagnosis::Fails { section, line };
    match library::diagnose(text, recording, work, rows) {
        Answer::Refused { number, place } => Diagnosis::Refused { number, place },
        Answer::Accepted { nodes: 1, signals: line } => fails(Section::Preset, line),
        Answer::Accepted { nodes: 2, signals: line } => fails(Section::Assert, line),
        Answer::Accepted { nodes: 3, signals: line } => fails(Section::Guarantee, line),
        Answer::Accepted { .. } => Diagnosis::Holds,
    }
}

/// Tells how far ahead a table's root looks, and so how many letters to record; every form of a table has the reach of the table. The table may share nodes and name
/// any signal that a node can hold. A node without signals below it counts for nothing: `X true` has reach 0; and nothing is simplified: `false && G a` has no bound.
///
/// Refused by 19.
pub fn reach(nodes: &[u32]) -> Reach {
    match library::reach(nodes) {
        Answer::Refused { number, place } => Reach::Refused { number, place },
        Answer::Accepted { nodes: last, signals: 0 } => Reach::Bounded { last },
        Answer::Accepted { .. } => Reach::Unbounded,
    }
}
