//! What became of many files: the summary on standard error, the report as JSON or as a page.

use crate::arguments::Target;
use crate::batch::{Became, Done};
use crate::convert::output_path;
use crate::files;
use crate::message::counted;
use crate::page;
use crate::refusals;
use crate::status::Stop;
use serde_json::{json, Map, Value};
use std::collections::BTreeMap;
use std::path::{Path, PathBuf};
use std::time::{Duration, SystemTime};

/// A run over many files.
pub struct Day<'a> {
    pub form: u32,
    /// What was written; nothing by `check`.
    pub to: Option<Target>,
    pub out: Option<&'a Path>,
    pub seconds: u64,
    pub done: &'a [Done<'a>],
    pub elapsed: Duration,
}

#[derive(Default)]
pub struct Counts {
    pub accepted: usize,
    pub refused: BTreeMap<u32, usize>,
    pub out_of_time: usize,
    pub broken: usize,
    pub unreadable: usize,
    pub unwritable: usize,
}

pub fn counts(done: &[Done]) -> Counts {
    let mut counts = Counts::default();
    for done in done {
        match &done.became {
            Became::Accepted { .. } => counts.accepted += 1,
            Became::Refused { refusal, .. } => *counts.refused.entry(refusal.number).or_default() += 1,
            Became::OutOfTime => counts.out_of_time += 1,
            Became::Broken(_) => counts.broken += 1,
            Became::Unreadable(_) => counts.unreadable += 1,
            Became::Unwritable(_) => counts.unwritable += 1,
        }
    }
    counts
}

pub fn title(number: u32) -> &'static str {
    refusals::page_of(number).map_or("", |page| page.title)
}

impl Counts {
    /// All kinds that there are, adding up to the files.
    pub fn parts(&self) -> Vec<String> {
        let refused: usize = self.refused.values().sum();
        let mut parts = vec![format!("{} accepted", self.accepted), format!("{refused} refused")];
        let others = [
            (self.out_of_time, "given up, out of time (--seconds)"),
            (self.broken, "ended without a result"),
            (self.unreadable, "unreadable"),
            (self.unwritable, "not written"),
        ];
        let told = others.into_iter().filter(|(count, _)| *count > 0);
        parts.extend(told.map(|(count, kind)| format!("{count} {kind}")));
        parts
    }
}

pub fn summary(done: &[Done], elapsed: Duration) -> String {
    let counts = counts(done);
    let seconds = elapsed.as_secs_f64();
    let mut summary = format!("{} in {seconds:.2} s: {}\n", counted(done.len(), "file"), counts.parts().join(", "));
    for (number, count) in counts.refused {
        summary.push_str(&format!("{count:>6} refused by {number}: {}\n", title(number)));
    }
    summary
}

/// When the program ran, in UTC.
pub fn date() -> String {
    humantime::format_rfc3339_seconds(SystemTime::now()).to_string()
}

/// Writes each report: a page where the name ends so, else JSON.
pub fn write(reports: &[PathBuf], day: &Day) -> Result<(), Stop> {
    if reports.is_empty() {
        return Ok(());
    }
    let report = json(day);
    for path in reports {
        let is_page = path
            .extension()
            .is_some_and(|ending| ending.eq_ignore_ascii_case("html") || ending.eq_ignore_ascii_case("htm"));
        let text = if is_page {
            page::of(day, &report)?
        } else {
            serde_json::to_string_pretty(&report).map_err(|error| Stop::unusable(error.to_string()))? + "\n"
        };
        files::write_whole(path, text.as_bytes())?;
    }
    // The program ends soon: taking a day's report apart would cost as much as making it.
    std::mem::forget(report);
    Ok(())
}

fn json(day: &Day) -> Value {
    let counts = counts(day.done);
    let refused: Map<String, Value> = counts
        .refused
        .iter()
        .map(|(number, count)| (number.to_string(), json!(count)))
        .collect();
    json!({
        "date": date(),
        "program": concat!("vasculpi ", env!("CARGO_PKG_VERSION")),
        "form": day.form,
        "to": day.to.map(Target::name),
        "summary": {
            "files": day.done.len(), "accepted": counts.accepted, "refused": refused, "out of time": counts.out_of_time,
            "broken": counts.broken, "unreadable": counts.unreadable, "unwritable": counts.unwritable,
            "seconds": day.elapsed.as_secs_f64(),
        },
        "files": day.done.iter().map(|done| entry(day, done)).collect::<Vec<Value>>(),
    })
}

fn entry(day: &Day, done: &Done) -> Value {
    let mut entry = answer(day, done);
    if let (Some(fields), Some(known)) = (entry.as_object_mut(), &done.known) {
        fields.insert("bytes".to_string(), json!(known.bytes));
        fields.insert("sha256".to_string(), json!(known.sha256));
        fields.insert("info".to_string(), known.info.json());
    }
    entry
}

fn answer(day: &Day, done: &Done) -> Value {
    let file = files::shown(&done.text.path);
    match &done.became {
        Became::Accepted { nodes, signals, .. } => {
            let output = day
                .out
                .zip(day.to)
                .map(|(folder, to)| files::shown(&output_path(folder, done.text, to)));
            json!({ "file": file, "answer": "accepted", "nodes": nodes, "signals": signals, "output": output })
        }
        Became::Refused { refusal, told } => json!({
            "file": file, "answer": "refused", "number": refusal.number, "title": told.title, "place": refusal.place,
            "line": told.line, "column": told.column, "expected": told.expected, "message": told.full,
        }),
        Became::OutOfTime => json!({ "file": file, "answer": "out of time", "seconds": day.seconds }),
        Became::Broken(reason) => json!({ "file": file, "answer": "broken", "message": reason }),
        Became::Unreadable(message) => json!({ "file": file, "answer": "unreadable", "message": message }),
        Became::Unwritable(message) => json!({ "file": file, "answer": "unwritable", "message": message }),
    }
}
