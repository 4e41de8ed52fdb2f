//! One text, read and converted for a command that needs it whole.

use crate::arguments::Messages;
use crate::files;
use crate::formula::Formula;
use crate::message;
use crate::setting;
use crate::signals::{self, Signal};
use crate::status::{Status, Stop};
use crate::worker::{Outcome, Pool, OUT_OF_TIME};
use std::path::Path;

pub struct Spec {
    pub text: Vec<u8>,
    pub formula: Formula,
    pub signals: Vec<Signal>,
}

/// A text with other values of some parameters; `refused` is the status of one that is refused or given up.
pub fn read_set(path: &Path, form: u32, set: &[(String, u32)], pool: &Pool, refused: Status) -> Result<Spec, Stop> {
    let changed = setting::apply(set, files::read_text(path)?)?;
    let message = match pool.convert(&changed.text, form) {
        Outcome::Accepted(formula) => {
            let signals = signals::of(&changed.text, &formula.signals);
            return Ok(Spec {
                text: changed.text,
                formula,
                signals,
            });
        }
        Outcome::Refused(refusal) => {
            let (written, refusal) = changed.written(refusal);
            message::of_text(path, written, refusal, Messages::Full, false, pool).shown
        }
        Outcome::OutOfTime => format!("error: {}: {OUT_OF_TIME}\n", files::shown(path)),
        Outcome::Broken(reason) => format!("error: {}: {reason}\n", files::shown(path)),
    };
    Err(Stop { message, status: refused })
}

impl Spec {
    pub fn labels(&self) -> Vec<String> {
        self.signals.iter().map(Signal::label).collect()
    }
}
