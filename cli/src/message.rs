//! A refusal as a compiler shows it.

use crate::advice::{self, Advice};
use crate::also::{self, Further};
use crate::arguments::Messages;
use crate::excerpt::Excerpt;
use crate::files;
use crate::formula::Refusal;
use crate::outline::{self, Outline};
use crate::recording;
use crate::refusals::{self, Page};
use crate::table::Fault;
use crate::worker::Pool;
use codespan_reporting::diagnostic::{Diagnostic, Label};
use codespan_reporting::term::termcolor::Buffer;
use codespan_reporting::term::{self, Chars, Config, DisplayStyle};
use std::io::{stderr, IsTerminal};
use std::ops::Range;
use std::path::Path;
use std::sync::OnceLock;

const NOTE_WIDTH: usize = 88;

/// What is told of a refused text.
pub struct Told {
    /// The message without colours, if it is kept: the lines with marks, and how to mend them.
    pub full: String,
    /// As it is shown on standard error.
    pub shown: String,
    pub title: String,
    pub line: usize,
    pub column: usize,
    pub expected: Vec<&'static str>,
}

/// A refused text: where, the lines with marks, what is wrong and how to mend it. The full message is made where it is shown or kept.
pub fn of_text(path: &Path, text: &[u8], refusal: Refusal, messages: Messages, is_kept: bool, pool: &Pool) -> Told {
    let outline = outline::of(text);
    let advice = advice::of(text, &outline, refusal, pool);
    let places: Vec<Range<usize>> = [advice.mark.clone()]
        .into_iter()
        .chain(advice.others.iter().map(|other| other.0.clone()))
        .collect();
    let excerpt = Excerpt::of(files::shown(path), text, &places);
    let page = refusals::page_of(refusal.number);
    let mut diagnostic = diagnostic(refusal, page.as_ref(), &advice.notes);
    if let Some(title) = &advice.title {
        diagnostic.message = title.clone();
    }
    let title = diagnostic.message.clone();
    if page.is_some_and(|page| page.has_no_place()) && advice.title.is_none() {
        diagnostic.message = format!("{}: {}", excerpt.file, diagnostic.message);
    } else {
        diagnostic = diagnostic.with_labels(labels(&excerpt, &advice));
    }
    let in_full = is_kept || messages == Messages::Full;
    let also = if in_full {
        also(text, &outline, refusal, pool)
    } else {
        String::new()
    };
    if !also.is_empty() {
        diagnostic.notes.insert(diagnostic.notes.len() - 1, also);
    }
    let full = if in_full {
        rendered(&excerpt, &diagnostic, Messages::Full, false)
    } else {
        String::new()
    };
    let shown = match (messages, is_coloured()) {
        (Messages::Full, false) => full.clone(),
        (messages, coloured) => rendered(&excerpt, &diagnostic, messages, coloured),
    };
    Told {
        full,
        shown,
        title,
        line: excerpt.line,
        column: excerpt.column,
        expected: advice.expected,
    }
}

fn labels(excerpt: &Excerpt, advice: &Advice) -> Vec<Label<()>> {
    let unseen = excerpt.unseen.iter().filter(|unseen| !advice.label.contains(unseen.as_str()));
    let unseen: String = unseen.map(|unseen| format!(" ({unseen})")).collect();
    let mut labels = vec![Label::primary((), excerpt.mark(0)).with_message(format!("{}{unseen}", advice.label).trim())];
    for (number, (_, said)) in advice.others.iter().enumerate() {
        labels.push(Label::secondary((), excerpt.mark(number + 1)).with_message(said));
    }
    labels
}

/// Further faults, a line each.
fn also(text: &[u8], outline: &Outline, refusal: Refusal, pool: &Pool) -> String {
    let line = |further: &Further| {
        let place = Excerpt::new(String::new(), text, further.place);
        format!("also {}:{}: {}", place.line, place.column, further.title)
    };
    also::of(text, outline, refusal, pool)
        .iter()
        .map(line)
        .collect::<Vec<String>>()
        .join("\n")
}

/// A refused recording: its bytes cannot be shown, its place can be told.
pub fn of_recording(path: &Path, bytes: &[u8], refusal: Refusal, labels: &[String]) -> String {
    let file = files::shown(path);
    let signals = labels.len();
    let recorded = recording::signal_count(bytes);
    if bytes.len() >= 4 && recorded != signals && matches!(refusal.number, 20 | 23) {
        let why = "Was it recorded for another text, or has the text changed since?";
        let again = "A table (CSV) has names, which `vasculpi judge` compares each time: judge that.";
        let counts = format!("{file}: recorded for {}, the text has {signals}", counted(recorded, "signal"));
        let diagnostic = Diagnostic::error()
            .with_code(refusal.number.to_string())
            .with_message(counts)
            .with_notes(
                missing(recorded, labels)
                    .into_iter()
                    .chain([wrapped(&format!("{why} {again}"))])
                    .collect(),
            );
        return rendered(&Excerpt::new(file, b"", 0), &diagnostic, Messages::Full, is_coloured());
    }
    let page = refusals::page_of(refusal.number);
    let mut diagnostic = diagnostic(refusal, page.as_ref(), &[]);
    diagnostic.message = format!("{file}: {}", diagnostic.message);
    let place = format!("refused at byte {} of {}", refusal.place, bytes.len());
    diagnostic.notes.insert(0, place);
    rendered(&Excerpt::new(file, b"", 0), &diagnostic, Messages::Full, is_coloured())
}

fn missing(recorded: usize, labels: &[String]) -> Option<String> {
    let missing = labels.get(recorded..).filter(|missing| !missing.is_empty())?;
    Some(wrapped(&format!("Not recorded: {}", missing.join(", "))))
}

pub fn counted(count: usize, what: &str) -> String {
    format!("{count} {what}{}", if count == 1 { "" } else { "s" })
}

/// A faulty table of a bench.
pub fn of_table(path: &Path, bytes: &[u8], fault: &Fault) -> String {
    let excerpt = Excerpt::new(files::shown(path), bytes, fault.place);
    let label = Label::primary((), excerpt.mark(0));
    let diagnostic = Diagnostic::error().with_message(&fault.message).with_labels(vec![label]);
    rendered(&excerpt, &diagnostic, Messages::Full, is_coloured())
}

fn diagnostic(refusal: Refusal, page: Option<&Page>, notes: &[String]) -> Diagnostic<()> {
    let diagnostic = Diagnostic::error().with_code(refusal.number.to_string());
    match page {
        Some(page) => {
            let has = if page.has_example() {
                "has an example"
            } else {
                "has the whole page"
            };
            let more = format!("`vasculpi explain {}` {has}", refusal.number);
            let mend = format!("To mend it: {}", page.mend());
            let mut told: Vec<String> = notes.iter().map(|note| wrapped(note)).collect();
            if told.is_empty() {
                told = vec![wrapped(page.rule()), wrapped(&mend)];
            }
            told.push(more);
            diagnostic.with_message(page.title).with_notes(told)
        }
        None => diagnostic.with_message("refused"),
    }
}

fn is_coloured() -> bool {
    static COLOURED: OnceLock<bool> = OnceLock::new();
    *COLOURED.get_or_init(|| {
        let unwanted = std::env::var_os("NO_COLOR").is_some_and(|value| !value.is_empty());
        stderr().is_terminal() && !unwanted
    })
}

fn rendered(excerpt: &Excerpt, diagnostic: &Diagnostic<()>, messages: Messages, coloured: bool) -> String {
    let display_style = match messages {
        Messages::Full => DisplayStyle::Rich,
        Messages::Short => DisplayStyle::Short,
    };
    let config = Config {
        display_style,
        chars: Chars::ascii(),
        ..Config::default()
    };
    let mut buffer = if coloured { Buffer::ansi() } else { Buffer::no_color() };
    if term::emit(&mut buffer, &config, excerpt, diagnostic).is_err() {
        return format!("{}:{}:{}: {}\n", excerpt.file, excerpt.line, excerpt.column, diagnostic.message);
    }
    String::from_utf8_lossy(buffer.as_slice()).into_owned()
}

/// The text in lines that fit a terminal.
pub fn wrapped(text: &str) -> String {
    let mut lines = String::new();
    let mut width = 0;
    for word in text.split_whitespace() {
        let length = word.chars().count();
        if width > 0 && width + 1 + length > NOTE_WIDTH {
            lines.push('\n');
            width = 0;
        } else if width > 0 {
            lines.push(' ');
            width += 1;
        }
        lines.push_str(word);
        width += length;
    }
    lines
}
