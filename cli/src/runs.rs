//! Recorded runs: a recording, a table (CSV) or a value change dump (VCD).

use crate::arguments::{LoopStart, TableOptions};
use crate::encoding;
use crate::files;
use crate::formula;
use crate::message;
use crate::node;
use crate::recording;
use crate::signals;
use crate::spec::Spec;
use crate::status::{Status, Stop};
use crate::table::{self, Fault, Wanted};
use crate::vcd::{self, Sampling};
use std::path::Path;

enum Format {
    Recording,
    Table,
    Dump,
}

/// By what the file holds: a recording that is text through and through would have 512 positions or more, and none of its bytes a 0.
fn format(path: &Path, bytes: &[u8]) -> Format {
    let has_ending = |endings: &[&str]| {
        let ending = path.extension().unwrap_or_default().to_ascii_lowercase();
        endings.iter().any(|known| ending == *known)
    };
    let text = encoding::decoded(bytes);
    let is_text = !text.is_empty() && text.iter().all(|byte| *byte >= b' ' || b"\t\r\n".contains(byte));
    if has_ending(&["vcd"]) || (is_text && text.trim_ascii_start().starts_with(b"$")) {
        Format::Dump
    } else if has_ending(&["csv", "tsv", "txt"]) || is_text {
        Format::Table
    } else {
        Format::Recording
    }
}

/// The recording of a run; `faulty` is the status of a table that cannot be read as one.
pub fn read(path: &Path, spec: &Spec, options: &TableOptions, faulty: Status) -> Result<Vec<u8>, Stop> {
    let bytes = files::read_all(path)?;
    match format(path, &bytes) {
        Format::Recording => Ok(bytes),
        format => of_table(path, &bytes, format, spec, options, faulty),
    }
}

/// The same of a file that has to be a table.
pub fn read_table(path: &Path, spec: &Spec, options: &TableOptions, faulty: Status) -> Result<Vec<u8>, Stop> {
    let bytes = files::read_all(path)?;
    let format = match format(path, &bytes) {
        Format::Dump => Format::Dump,
        _ => Format::Table,
    };
    of_table(path, &bytes, format, spec, options, faulty)
}

fn of_table(path: &Path, bytes: &[u8], format: Format, spec: &Spec, options: &TableOptions, faulty: Status) -> Result<Vec<u8>, Stop> {
    let Some(loop_start) = options.loop_start else {
        return Err(Stop::unusable(format!(
            "{}: a table ends, a run does not: --loop L is the position that comes after the last one, --loop last repeats the last one",
            files::shown(path)
        )));
    };
    let text = encoding::decoded(bytes);
    let letters = letters(&text, format, spec, options)?;
    let letters = letters.map_err(|fault| Stop {
        message: message::of_table(path, &text, &fault),
        status: faulty,
    })?;
    let last = letters.len() - 1;
    let loop_start = match loop_start {
        LoopStart::Last => last,
        LoopStart::At(position) => position,
    };
    if loop_start > last {
        return Err(Stop::unusable(format!(
            "{}: --loop {loop_start}: the last position is {last}",
            files::shown(path)
        )));
    }
    let recording = recording::of_letters(&letters, loop_start, spec.signals.len());
    check(&letters, &recording, spec.signals.len())?;
    Ok(recording)
}

/// The library reads the same letters.
fn check(letters: &[Vec<bool>], recording: &[u8], signals: usize) -> Result<(), Stop> {
    let mut nodes: Vec<u32> = (0..signals).map(node::signal).collect();
    nodes.push(node::TRUE << 28);
    let rows = formula::evaluate(&nodes, signals, recording).ok();
    let same = rows.is_some_and(|rows| {
        let mut bits = letters.iter().enumerate();
        let same =
            |(position, letter): (usize, &Vec<bool>)| letter.iter().enumerate().all(|(signal, &bit)| rows.holds(signal, position) == bit);
        rows.positions == letters.len() && bits.all(same)
    });
    if same {
        Ok(())
    } else {
        Err(Stop::unusable("the library reads another recording than the table's"))
    }
}

type Letters = Result<Vec<Vec<bool>>, Fault>;

fn letters(text: &[u8], format: Format, spec: &Spec, options: &TableOptions) -> Result<Letters, Stop> {
    let wanted = Wanted {
        labels: &spec.labels(),
        ltl_names: &signals::ltl_names(&spec.signals, None),
        ignore_others: options.ignore_other_columns,
    };
    if !matches!(format, Format::Dump) {
        return Ok(table::letters(text, &wanted));
    }
    let sampling = match (&options.clock, options.step) {
        (Some(clock), None) => Sampling::Clock(clock.clone()),
        (None, Some(step)) => Sampling::Step(step),
        _ => {
            return Err(Stop::unusable(
                "a value change dump needs its positions: --clock NAME takes the values before each rise of NAME, --step N those at every N units of time",
            ))
        }
    };
    let options = vcd::Options {
        sampling,
        scope: options.scope.clone(),
    };
    Ok(vcd::letters(text, &wanted, &options))
}
