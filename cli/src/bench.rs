//! `record` and `show`: from a bench's table to a recording and back.

use crate::arguments::{Record, Show};
use crate::files::{self, Inputs};
use crate::formula;
use crate::message;
use crate::node;
use crate::recording;
use crate::runs;
use crate::spec;
use crate::status::{Status, Stop};
use crate::table;
use crate::worker::Pool;
use std::path::Path;

pub fn record(arguments: &Record) -> Result<Status, Stop> {
    Inputs::of([&arguments.spec, &arguments.csv]).check_apart(&arguments.output)?;
    let pool = Pool::new(arguments.limit.seconds);
    let spec = spec::read_set(&arguments.spec, 0, &arguments.set.set, &pool, Status::Bad)?;
    let recording = runs::read_table(&arguments.csv, &spec, &arguments.table, Status::Bad)?;
    files::write_whole(&arguments.output, &recording)?;
    Ok(Status::Good)
}

pub fn show(arguments: &Show) -> Result<Status, Stop> {
    let bytes = files::read_all(&arguments.recording)?;
    let labels = match &arguments.spec {
        Some(path) => spec::read_set(path, 0, &arguments.set.set, &Pool::new(arguments.limit.seconds), Status::Bad)?.labels(),
        None => (0..recording::signal_count(&bytes)).map(|number| format!("s{number}")).collect(),
    };
    let rows = rows(&arguments.recording, &bytes, &labels)?;
    let positions = recording::positions(&bytes);
    files::tell(&format!(
        "positions {positions}, loop from {}, signals {}\n",
        recording::loop_start(&bytes),
        recording::signal_count(&bytes)
    ));
    files::print(table::of_rows(&labels, &rows, positions).as_bytes())?;
    Ok(Status::Good)
}

/// A recording's rows, one for every signal, as the library reads them.
fn rows(path: &Path, bytes: &[u8], labels: &[String]) -> Result<Vec<Vec<bool>>, Stop> {
    let signals = labels.len();
    let mut nodes = signal_nodes(signals);
    if nodes.is_empty() {
        nodes.push(node::TRUE << 28);
    }
    match formula::evaluate(&nodes, signals, bytes) {
        Ok(rows) => Ok((0..signals).map(|signal| rows.row(signal)).collect()),
        Err(refusal) => Err(Stop {
            message: message::of_recording(path, bytes, refusal, labels),
            status: Status::Bad,
        }),
    }
}

/// A table of every signal, whose rows are the recording's.
pub fn signal_nodes(count: usize) -> Vec<u32> {
    (0..count).map(node::signal).collect()
}
