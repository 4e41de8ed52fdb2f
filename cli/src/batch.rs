//! Many texts on all cores: what becomes of each, in the order in which they were named.

use crate::arguments::Messages;
use crate::files;
use crate::formula::{Formula, Refusal};
use crate::info::Info;
use crate::inputs::Text;
use crate::message::{self, Told};
use crate::output::Output;
use crate::status::Status;
use crate::worker::{Outcome, Pool, OUT_OF_TIME};
use indicatif::{ProgressBar, ProgressStyle};
use rayon::prelude::*;
use sha2::{Digest, Sha256};
use std::io::{stderr, IsTerminal};

/// What became of a file.
pub enum Became {
    Accepted {
        nodes: usize,
        signals: usize,
        output: Option<Output>,
    },
    Refused {
        refusal: Refusal,
        told: Told,
    },
    OutOfTime,
    /// The conversion ended without an answer, or its result cannot be written in the form asked for.
    Broken(String),
    Unreadable(String),
    Unwritable(String),
}

impl Became {
    pub fn status(&self) -> Status {
        match self {
            Became::Accepted { .. } => Status::Good,
            Became::Refused { .. } | Became::OutOfTime | Became::Broken(_) => Status::Bad,
            Became::Unreadable(_) | Became::Unwritable(_) => Status::Unusable,
        }
    }
}

/// A file, what became of it, and what a report has to say of it.
pub struct Done<'a> {
    pub text: &'a Text,
    pub became: Became,
    pub known: Option<Known>,
}

/// What a report tells of a text that could be read.
pub struct Known {
    pub bytes: usize,
    pub sha256: String,
    pub info: Info,
}

/// What is asked of every file.
pub struct Task<'a> {
    pub form: u32,
    pub seconds: u64,
    pub messages: Messages,
    /// Whether full messages are kept, in files or in a report.
    pub keeps_messages: bool,
    /// Whether a report wants checksums and titles.
    pub reported: bool,
    pub quiet: bool,
    /// What to do with an accepted text.
    pub accepted: Accepted<'a>,
    /// What to do with the message of a text that has no result.
    pub without: &'a (dyn Fn(&Text, &str) -> Result<(), String> + Sync),
    /// A change of the text before it is read.
    pub changed: &'a (dyn Fn(Vec<u8>) -> Result<Changed, String> + Sync),
}

/// What is done with an accepted text.
pub type Accepted<'a> = &'a (dyn Fn(&Text, &[u8], &Formula) -> Became + Sync);

impl<'a> Task<'a> {
    /// Texts as they are, with nothing written of those that have no result, and no report.
    pub fn plain(form: u32, seconds: u64, messages: Messages, accepted: Accepted<'a>) -> Task<'a> {
        Task {
            form,
            seconds,
            messages,
            keeps_messages: false,
            reported: false,
            quiet: false,
            accepted,
            without: &|_, _| Ok(()),
            changed: &|text| Ok(Changed::not(text)),
        }
    }
}

/// A text as the library reads it, and as it was written.
pub struct Changed {
    pub text: Vec<u8>,
    /// Where it is another text.
    pub was: Option<Written>,
}

/// A text before it was changed.
pub struct Written {
    pub text: Vec<u8>,
    /// Where a place of the changed text is in this one.
    pub place: Box<dyn Fn(usize) -> usize>,
}

impl Changed {
    pub fn not(text: Vec<u8>) -> Changed {
        Changed { text, was: None }
    }

    /// What was written, and the refusal's place there.
    pub fn written(&self, refusal: Refusal) -> (&[u8], Refusal) {
        match &self.was {
            None => (&self.text, refusal),
            Some(was) => {
                let place = (was.place)(refusal.place);
                (&was.text, Refusal { place, ..refusal })
            }
        }
    }
}

pub fn run<'a>(texts: &'a [Text], task: &Task) -> Vec<Done<'a>> {
    let pool = Pool::new(task.seconds);
    let bar = progress_bar(if task.quiet { 0 } else { texts.len() });
    let each = |text: &'a Text| {
        let done = done(text, task, &pool);
        bar.inc(1);
        done
    };
    let done = texts.par_iter().with_max_len(1).map(each).collect();
    bar.finish_and_clear();
    done
}

// Hidden where standard error is no terminal, which is asked once and not for every file.
fn progress_bar(count: usize) -> ProgressBar {
    if count < 2 || !stderr().is_terminal() {
        return ProgressBar::hidden();
    }
    let bar = ProgressBar::new(count as u64);
    if let Ok(style) = ProgressStyle::with_template("{bar:40} {pos} of {len} files in {elapsed}") {
        bar.set_style(style);
    }
    bar
}

fn done<'a>(text: &'a Text, task: &Task, pool: &Pool) -> Done<'a> {
    let unreadable = |message: String| Done {
        text,
        became: Became::Unreadable(message),
        known: None,
    };
    if let Some(message) = &text.unreadable {
        return unreadable(message.clone());
    }
    let bytes = match files::read_text(&text.path) {
        Ok(bytes) => bytes,
        Err(message) => return unreadable(message),
    };
    let known = task.reported.then(|| Known {
        bytes: bytes.len(),
        sha256: format!("{:x}", Sha256::digest(&bytes)),
        info: Info::of(&bytes),
    });
    let became = match (task.changed)(bytes) {
        Ok(changed) => convert(text, &changed, task, pool),
        Err(reason) => Became::Broken(reason),
    };
    let became = match without_result(text, &became, task) {
        Ok(()) => became,
        Err(message) => Became::Unwritable(message),
    };
    Done { text, became, known }
}

fn convert(text: &Text, changed: &Changed, task: &Task, pool: &Pool) -> Became {
    match pool.convert(&changed.text, task.form) {
        Outcome::Accepted(formula) => (task.accepted)(text, &changed.text, &formula),
        Outcome::Refused(refusal) => {
            let (written, refusal) = changed.written(refusal);
            let told = message::of_text(&text.path, written, refusal, task.messages, task.keeps_messages, pool);
            Became::Refused { refusal, told }
        }
        Outcome::OutOfTime => Became::OutOfTime,
        Outcome::Broken(reason) => Became::Broken(reason),
    }
}

fn without_result(text: &Text, became: &Became, task: &Task) -> Result<(), String> {
    match became {
        Became::Refused { told, .. } => (task.without)(text, &told.full),
        Became::OutOfTime | Became::Broken(_) => (task.without)(text, &told(text, became)),
        _ => Ok(()),
    }
}

/// What is told of a file that has no result; nothing of an accepted one.
pub fn told(text: &Text, became: &Became) -> String {
    let file = files::shown(&text.path);
    match became {
        Became::Accepted { .. } => String::new(),
        Became::Refused { told, .. } => told.shown.clone(),
        Became::OutOfTime => format!("error: {file}: {OUT_OF_TIME}\n"),
        Became::Broken(reason) => format!("error: {file}: {reason}\n"),
        Became::Unreadable(message) | Became::Unwritable(message) => format!("error: {message}\n"),
    }
}

pub fn status(done: &[Done]) -> Status {
    done.iter().map(|done| done.became.status()).max().unwrap_or(Status::Good)
}
