//! `reach`: how many letters of a run decide about a text.

use crate::arguments::{Messages, Reach};
use crate::batch::{self, Became, Task};
use crate::files;
use crate::formula::Formula;
use crate::inputs::{self, Text};
use crate::output::Output;
use crate::status::{Status, Stop};

pub fn run(arguments: &Reach) -> Result<Status, Stop> {
    let texts = inputs::texts(&arguments.files);
    let many = texts.len() > 1;
    let accepted = |text: &Text, _: &[u8], formula: &Formula| line(text, formula, many);
    let messages = if many { Messages::Short } else { Messages::Full };
    let task = Task::plain(arguments.form.form, arguments.limit.seconds, messages, &accepted);
    let done = batch::run(&texts, &task);
    for done in &done {
        if let Became::Accepted { output: Some(output), .. } = &done.became {
            files::print(&output.bytes)?;
        }
        files::tell(&batch::told(done.text, &done.became));
    }
    Ok(batch::status(&done))
}

/// The reach in words, with the file's name where there are many.
fn line(text: &Text, formula: &Formula, many: bool) -> Became {
    let words = match tlsf::reach(&formula.nodes) {
        tlsf::Reach::Bounded { last: 0 } => "reach 0: letter 0 decides".to_string(),
        tlsf::Reach::Bounded { last } => format!("reach {last}: letters 0 to {last} decide"),
        tlsf::Reach::Unbounded => "unbounded: no number of letters decides".to_string(),
        tlsf::Reach::Refused { number, place } => return Became::Broken(format!("its nodes are refused by {number} at {place}")),
    };
    let line = if many {
        format!("{}: {words}\n", files::shown(&text.path))
    } else {
        format!("{words}\n")
    };
    Became::Accepted {
        nodes: formula.nodes.len(),
        signals: formula.signals.len(),
        output: Some(Output {
            bytes: line.into_bytes(),
            names: None,
        }),
    }
}
