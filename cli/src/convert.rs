//! `convert` and `check`.

use crate::arguments::{Check, Convert, Messages, Syntax, Target};
use crate::basic;
use crate::batch::{self, Became, Done, Task};
use crate::files::{self, Inputs, There};
use crate::formula::Formula;
use crate::inputs::{self, Text};
use crate::listing;
use crate::output::{self, Output};
use crate::report::{self, Day};
use crate::setting;
use crate::status::{Status, Stop};
use std::collections::HashMap;
use std::ffi::OsString;
use std::io::{stderr, stdin, stdout, IsTerminal};
use std::os::unix::ffi::OsStringExt;
use std::path::{Path, PathBuf};
use std::time::Instant;

pub fn check(arguments: &Check) -> Result<Status, Stop> {
    let start = Instant::now();
    let texts = inputs::texts(&arguments.files);
    check_reports(&arguments.report, &texts)?;
    let accepted = |_: &Text, _: &[u8], formula: &Formula| counted(formula, None);
    let task = Task {
        keeps_messages: !arguments.report.is_empty(),
        reported: !arguments.report.is_empty(),
        changed: &|text| setting::apply(&arguments.set.set, text),
        ..Task::plain(arguments.form.form, arguments.limit.seconds, arguments.messages, &accepted)
    };
    let done = batch::run(&texts, &task);
    tell_results(&done, false);
    let day = Day {
        form: arguments.form.form,
        to: None,
        out: None,
        seconds: arguments.limit.seconds,
        done: &done,
        elapsed: start.elapsed(),
    };
    report::write(&arguments.report, &day)?;
    Ok(batch::status(&done))
}

pub fn run(arguments: &Convert) -> Result<Status, Stop> {
    let start = Instant::now();
    let named = if arguments.files.is_empty() {
        wait_for_input();
        vec![PathBuf::from("-")]
    } else {
        arguments.files.clone()
    };
    let texts = inputs::texts(&named);
    let there = check_usage(arguments, &texts)?;
    let results = Results { arguments, there };
    let many = texts.len() > 1;
    let usual = if many { Messages::Short } else { Messages::Full };
    let task = Task {
        form: arguments.form.form,
        seconds: arguments.limit.seconds,
        messages: arguments.messages.unwrap_or(usual),
        keeps_messages: arguments.out.is_some() || !arguments.report.is_empty(),
        reported: !arguments.report.is_empty(),
        quiet: arguments.quiet,
        accepted: &|text, bytes, formula| results.write(text, bytes, formula),
        without: &|text, message| results.clear(text, message),
        changed: &|text| setting::apply(&arguments.set.set, text),
    };
    let done = batch::run(&texts, &task);
    print_results(arguments, &done)?;
    tell_results(&done, many && !arguments.quiet);
    let elapsed = start.elapsed();
    if many && !arguments.quiet {
        files::tell(&report::summary(&done, elapsed));
    }
    let day = Day {
        form: arguments.form.form,
        to: Some(arguments.to),
        out: arguments.out.as_deref(),
        seconds: arguments.limit.seconds,
        done: &done,
        elapsed,
    };
    report::write(&arguments.report, &day)?;
    Ok(batch::status(&done))
}

fn wait_for_input() {
    if stdin().is_terminal() && stderr().is_terminal() {
        files::tell("reading a text from standard input, up to Ctrl-D; `vasculpi convert FILE` reads a file\n");
    }
}

fn tell_results(done: &[Done], accepted_too: bool) {
    let mut told = String::new();
    for done in done {
        told.push_str(&batch::told(done.text, &done.became));
        if let (Became::Accepted { nodes, signals, .. }, true) = (&done.became, accepted_too) {
            let file = files::shown(&done.text.path);
            told.push_str(&format!("{file}: accepted, {nodes} nodes, {signals} signals\n"));
        }
    }
    files::tell(&told);
}

/// What a report needs is looked at before anything is converted.
fn check_reports(reports: &[PathBuf], texts: &[Text]) -> Result<(), Stop> {
    let reports: Vec<&PathBuf> = reports.iter().filter(|report| !files::is_standard(report)).collect();
    if reports.iter().any(|report| report.exists()) {
        let inputs = Inputs::of(texts.iter().map(|text| &text.path));
        reports.iter().try_for_each(|report| inputs.check_apart(report))?;
    }
    for report in reports {
        if inputs::is_text(report) {
            return Err(Stop::unusable(format!(
                "{}: a report is not written to a .tlsf file",
                files::shown(report)
            )));
        }
        let folder = report.parent().filter(|folder| !folder.as_os_str().is_empty());
        if folder.is_some_and(|folder| !folder.is_dir()) {
            return Err(Stop::unusable(format!(
                "{}: cannot be written: there is no such folder",
                files::shown(report)
            )));
        }
    }
    Ok(())
}

/// What stands in the folders of the results already.
fn check_usage(arguments: &Convert, texts: &[Text]) -> Result<There, Stop> {
    if arguments.to != Target::Ltl && (arguments.syntax.is_some() || arguments.tick.is_some()) {
        return Err(Stop::unusable("--syntax and --tick go with --to ltl"));
    }
    if arguments.quoted_names && (arguments.to != Target::Ltl || arguments.syntax != Some(Syntax::Spot)) {
        return Err(Stop::unusable("--quoted-names goes with --syntax spot"));
    }
    if arguments.to == Target::Basic && arguments.form.form != 0 {
        return Err(Stop::unusable(basic::AS_EXPANDED));
    }
    if arguments.simplify && matches!(arguments.to, Target::Listing | Target::Nodes | Target::Basic | Target::Json) {
        return Err(Stop::unusable(
            "--simplify goes with lines of LTL: --to ltl, ltlsynt, strix, bosy or smv",
        ));
    }
    check_reports(&arguments.report, texts)?;
    let Some(folder) = &arguments.out else {
        check_standard_output(arguments, texts)?;
        return Ok(There::default());
    };
    let mut inputs = None;
    let mut there = There::default();
    let mut taken: HashMap<PathBuf, &Text> = HashMap::new();
    for text in texts {
        let outputs = [
            output_path(folder, text, arguments.to),
            named(folder, text, "names"),
            named(folder, text, REFUSED),
        ];
        there.look(&outputs[0]);
        for output in outputs.iter().filter(|output| there.has(output)) {
            let inputs = inputs.get_or_insert_with(|| Inputs::of(texts.iter().map(|text| &text.path)));
            inputs.check_apart(output)?;
        }
        let [output, ..] = outputs;
        if let Some(other) = taken.insert(output, text) {
            let (one, two) = (files::shown(&other.path), files::shown(&text.path));
            return Err(Stop::unusable(format!(
                "{one} and {two} would be written to one file in {}: name the folder that they stand in, and its folders are kept",
                files::shown(folder)
            )));
        }
    }
    make_folder(folder).map_err(Stop::unusable)?;
    Ok(there)
}

/// Results on standard output have to be told apart there.
fn check_standard_output(arguments: &Convert, texts: &[Text]) -> Result<(), Stop> {
    let why = if arguments.report.iter().any(|report| files::is_standard(report)) {
        "--report - needs --out DIR: without it the results are on standard output"
    } else if arguments.to.needs_files() && texts.len() > 1 {
        let to = arguments.to.name();
        return Err(Stop::unusable(format!("--to {to} of many files needs --out DIR")));
    } else if arguments.to == Target::Nodes && stdout().is_terminal() {
        "nodes are bytes, not for a terminal: use --out DIR, or send them to a file"
    } else {
        return Ok(());
    };
    Err(Stop::unusable(why))
}

fn make_folder(folder: &Path) -> Result<(), String> {
    std::fs::create_dir_all(folder)
        .map_err(|error| format!("{}: the folder cannot be made: {}", files::shown(folder), files::reason(&error)))
}

/// The ending of the message of a text without a result.
const REFUSED: &str = "refused.txt";

/// In the folder, below the folders that the text stands in, with the target's ending in place of `.tlsf`.
pub fn output_path(folder: &Path, text: &Text, target: Target) -> PathBuf {
    named(folder, text, target.ending())
}

fn named(folder: &Path, text: &Text, ending: &str) -> PathBuf {
    let mut name = folder.join(&text.below).into_os_string().into_vec();
    if inputs::is_text(&text.below) {
        name.truncate(name.len() - ".tlsf".len());
    }
    name.push(b'.');
    name.extend_from_slice(ending.as_bytes());
    PathBuf::from(OsString::from_vec(name))
}

/// Where the results of all texts go.
struct Results<'a> {
    arguments: &'a Convert,
    there: There,
}

impl Results<'_> {
    fn write(&self, text: &Text, bytes: &[u8], formula: &Formula) -> Became {
        let output = match output::of(self.arguments, &files::shown(&text.path), bytes, formula) {
            Ok(output) => output,
            Err(reason) => return Became::Broken(reason),
        };
        let Some(folder) = &self.arguments.out else {
            return counted(formula, Some(output));
        };
        let mut outputs = vec![(output_path(folder, text, self.arguments.to), &output.bytes[..])];
        if let Some(names) = &output.names {
            outputs.push((named(folder, text, "names"), names.as_bytes()));
        }
        let written = folder_of(folder, text)
            .and_then(|()| files::write_all_whole(&outputs, &self.there))
            .and_then(|()| self.remove(&named(folder, text, REFUSED)));
        match written {
            Ok(()) => counted(formula, None),
            Err(message) => Became::Unwritable(message),
        }
    }

    /// A text without a result: its message takes the place of what an earlier run has written for it.
    fn clear(&self, text: &Text, message: &str) -> Result<(), String> {
        let Some(folder) = &self.arguments.out else {
            return Ok(());
        };
        folder_of(folder, text)?;
        self.remove(&output_path(folder, text, self.arguments.to))?;
        self.remove(&named(folder, text, "names"))?;
        files::write_all_whole(&[(named(folder, text, REFUSED), message.as_bytes())], &self.there)
    }

    /// Takes away what an earlier run has written.
    fn remove(&self, path: &Path) -> Result<(), String> {
        if self.there.has(path) {
            files::remove(path)
        } else {
            Ok(())
        }
    }
}

/// The folder below the one that was named; that one is there.
fn folder_of(folder: &Path, text: &Text) -> Result<(), String> {
    match text.below.parent() {
        Some(below) if !below.as_os_str().is_empty() && !folder.join(below).is_dir() => make_folder(&folder.join(below)),
        _ => Ok(()),
    }
}

fn counted(formula: &Formula, output: Option<Output>) -> Became {
    Became::Accepted {
        nodes: formula.nodes.len(),
        signals: formula.signals.len(),
        output,
    }
}

/// Without a folder, results go to standard output in the order of the files; a listing tells refusals too, and lines tell their file if
/// there are several.
fn print_results(arguments: &Convert, done: &[Done]) -> Result<(), Stop> {
    for result in done {
        match &result.became {
            Became::Accepted { output: Some(output), .. } => {
                if done.len() > 1 && arguments.to.is_line() {
                    files::print(format!("{}\t", files::shown(&result.text.path)).as_bytes())?;
                }
                files::print(&output.bytes)?;
                if done.len() == 1 {
                    files::tell(output.names.as_deref().unwrap_or_default());
                }
            }
            Became::Refused { refusal, .. } if arguments.to == Target::Listing && arguments.out.is_none() => {
                files::print(listing::refused(*refusal).as_bytes())?;
            }
            _ => {}
        }
    }
    Ok(())
}
