//! What the timing diagram of a judged run shows.

use crate::bench::signal_nodes;
use crate::diagram::{Diagram, Mark, Row, Trace};
use crate::enumerations::{self, Enumeration};
use crate::files;
use crate::formula::{self, Rows};
use crate::judge::{Judged, Verdict};
use crate::near;
use crate::recording;
use crate::signals::Signal;
use crate::status::Stop;
use crate::why::Run;
use std::ops::Range;
use std::path::Path;

pub fn diagram(judged: &Judged, run: &Run, rows: &Rows, verdict: &Verdict, path: &Path, recording: &[u8]) -> Result<Diagram, Stop> {
    let spec = &judged.spec;
    let mut drawn = signal_rows(judged, recording)?;
    // For each line its row, if it is drawn.
    let mut row_of = Vec::new();
    for (line, held) in judged.lines.iter().zip(&run.held) {
        let held = held.as_ref().filter(|_| line.bus.is_none());
        row_of.push(held.map(|_| drawn.len()));
        drawn.extend(held.map(|held| Row {
            group: line.section.to_string(),
            label: line.source.clone(),
            trace: Trace::Bits(held.row()),
        }));
    }
    drawn.push(Row {
        group: "The whole text from there on".to_string(),
        label: format!("{} at position 0", verdict.word()),
        trace: Trace::Bits(rows.row(spec.formula.nodes.len().saturating_sub(1))),
    });
    let broken = [&verdict.why.excused_by, &verdict.why.broken].into_iter().flatten();
    let marks = broken.filter_map(|broken| {
        Some(Mark {
            row: row_of[broken.line]?,
            position: broken.position?,
            blamed: broken.part.as_ref().map(|part| part.position),
        })
    });
    let (first, last) = judged.arguments.positions.unwrap_or((0, usize::MAX));
    if first >= rows.positions {
        return Err(Stop::unusable(format!("--positions: the last position is {}", rows.positions - 1)));
    }
    Ok(Diagram {
        title: format!("{} on {}: {}", name(&judged.arguments.spec), name(path), verdict.word()),
        note: note(judged, verdict),
        rows: drawn,
        marks: marks.collect(),
        positions: rows.positions,
        shown: first..last.saturating_add(1).min(rows.positions),
        loop_start: recording::loop_start(recording),
    })
}

/// The reason in one line: what the frame is about.
fn note(judged: &Judged, verdict: &Verdict) -> String {
    const MOST: usize = 120;
    let Some(broken) = verdict.why.excused_by.as_ref().or(verdict.why.broken.as_ref()) else {
        return String::new();
    };
    let owed = verdict.why.excused_by.as_ref();
    let owed = owed.map(|excuse| format!("{}: ", judged.owed(excuse))).unwrap_or_default();
    let part = broken.part.as_ref().map(|part| format!(": {}", part.said)).unwrap_or_default();
    let note = format!("{owed}{}{part}", judged.fault(broken));
    match note.char_indices().nth(MOST) {
        Some((end, _)) => format!("{}...", &note[..end]),
        None => note,
    }
}

/// A row for every signal that is to be drawn, and one with the identifiers above the bits of an enumeration's bus.
fn signal_rows(judged: &Judged, recording: &[u8]) -> Result<Vec<Row>, Stop> {
    let spec = &judged.spec;
    let rows = formula::evaluate(&signal_nodes(spec.signals.len()), spec.signals.len(), recording);
    let bits = |number: usize| rows.as_ref().map(|rows| rows.row(number)).unwrap_or_default();
    let all = enumerations::of(&spec.text, &judged.outline);
    let mut drawn = Vec::new();
    for bus in chosen(judged)? {
        let signal = &spec.signals[bus.start];
        let group = if signal.output { "OUTPUTS" } else { "INPUTS" }.to_string();
        if let Some(by) = enumerations::of_bus(&spec.text, &judged.outline, &all, &signal.name) {
            drawn.push(Row {
                group: group.clone(),
                label: signal.name.clone(),
                trace: Trace::Values(values(&spec.text, by, bus.clone().map(bits).collect())),
            });
        }
        for number in bus {
            drawn.push(Row {
                group: group.clone(),
                label: spec.signals[number].label(),
                trace: Trace::Bits(bits(number)),
            });
        }
    }
    Ok(drawn)
}

/// At each position the identifier of a bus, or its bits where none stands for them.
fn values(text: &[u8], by: &Enumeration, rows: Vec<Vec<bool>>) -> Vec<String> {
    let positions = rows.first().map_or(0, Vec::len);
    let value = |position: usize| {
        let bits: Vec<bool> = rows.iter().map(|row| row[position]).collect();
        let digits = || bits.iter().map(|&bit| if bit { '1' } else { '0' }).collect();
        by.value(text, &bits).map_or_else(digits, str::to_string)
    };
    (0..positions).map(value).collect()
}

/// The signals that are to be drawn, a bus as one.
fn chosen(judged: &Judged) -> Result<Vec<Range<usize>>, Stop> {
    let signals = &judged.spec.signals;
    let all = buses(signals);
    let wanted = &judged.arguments.signals;
    for name in wanted {
        let known = || judged.labels.iter().chain(signals.iter().map(|signal| &signal.name));
        if !known().any(|known| known == name) {
            let near = near::nearest(name, known().map(String::as_str));
            let hint = near.map(|near| format!(": did you mean {near}?")).unwrap_or_default();
            return Err(Stop::unusable(format!("--signals: the text has no signal {name}{hint}")));
        }
    }
    if wanted.is_empty() {
        return Ok(all);
    }
    let mut chosen = Vec::new();
    for bus in all {
        if wanted.contains(&signals[bus.start].name) {
            chosen.push(bus);
        } else {
            chosen.extend(
                bus.filter(|&number| wanted.contains(&judged.labels[number]))
                    .map(|number| number..number + 1),
            );
        }
    }
    Ok(chosen)
}

/// The numbers of each bus's bits, or of a single signal.
pub fn buses(signals: &[Signal]) -> Vec<Range<usize>> {
    let mut buses = Vec::new();
    let mut at = 0;
    while let Some(signal) = signals.get(at) {
        let width = signal.bus.map_or(1, |(_, width)| width as usize).max(1);
        buses.push(at..(at + width).min(signals.len()));
        at += width;
    }
    buses
}

/// The bits of a bus at a position of a recording.
pub fn bits_at(recording: &[u8], bus: Range<usize>, position: usize, signals: usize) -> Vec<bool> {
    match formula::evaluate(&signal_nodes(signals), signals, recording) {
        Ok(rows) => bus.map(|number| rows.holds(number, position)).collect(),
        Err(_) => Vec::new(),
    }
}

// Without folders, which would make a picture wider than its rows.
fn name(path: &Path) -> String {
    files::shown(path.file_name().map_or(path, Path::new))
}
