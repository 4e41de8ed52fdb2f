//! `info`: what a text says of itself.

use crate::arguments::InfoArguments;
use crate::files;
use crate::message::counted;
use crate::outline::{self, Outline};
use crate::signals::Signal;
use crate::spec;
use crate::status::{Status, Stop};
use crate::timing;
use crate::tokens::{Kind, Token};
use crate::worker::Pool;
use serde_json::{json, Value};

/// INFO's entries and the parameters.
#[derive(Clone, Debug, Default, PartialEq, Eq)]
pub struct Info {
    pub title: String,
    pub description: String,
    /// Mealy or Moore.
    pub semantics: String,
    pub strict: bool,
    pub target: String,
    pub tags: Vec<String>,
    /// Names with their values as they are written.
    pub parameters: Vec<(String, String)>,
}

impl Info {
    /// As far as the text has them.
    pub fn of(text: &[u8]) -> Info {
        Info::of_outline(text, &outline::before_main(text))
    }

    pub fn of_outline(text: &[u8], outline: &Outline) -> Info {
        let first = |entry: &str| {
            outline
                .entry(text, entry)
                .first()
                .map(|token| unquoted(text, token))
                .unwrap_or_default()
        };
        let is_tag = |token: &&Token| matches!(token.kind, Kind::Name | Kind::Quoted | Kind::Word);
        let parameters = outline.statements.iter().filter(|statement| statement.section == "PARAMETERS");
        Info {
            title: first("TITLE"),
            description: first("DESCRIPTION"),
            semantics: first("SEMANTICS"),
            strict: outline.is_strict(text),
            target: first("TARGET"),
            tags: outline
                .entry(text, "TAGS")
                .iter()
                .filter(is_tag)
                .map(|token| unquoted(text, token))
                .collect(),
            parameters: parameters
                .filter_map(|statement| match &outline.tokens[statement.tokens.clone()] {
                    [name, _, value @ ..] => Some((name.shown(text), outline::joined(text, value))),
                    _ => None,
                })
                .collect(),
        }
    }

    /// As the text has it: Mealy,Strict.
    pub fn semantics_shown(&self) -> String {
        format!("{}{}", self.semantics, if self.strict { ",Strict" } else { "" })
    }

    pub fn json(&self) -> Value {
        let parameters: serde_json::Map<String, Value> = self.parameters.iter().map(|(name, value)| (name.clone(), json!(value))).collect();
        json!({
            "title": self.title, "description": self.description, "semantics": self.semantics_shown(), "target": self.target,
            "tags": self.tags, "parameters": parameters,
        })
    }
}

fn unquoted(text: &[u8], token: &Token) -> String {
    token.shown(text).trim_matches('"').to_string()
}

pub fn run(arguments: &InfoArguments) -> Result<Status, Stop> {
    let pool = Pool::new(arguments.limit.seconds);
    let spec = spec::read_set(&arguments.file, 0, &arguments.set.set, &pool, Status::Bad)?;
    let outline = outline::of(&spec.text);
    let info = Info::of_outline(&spec.text, &outline);
    let mut told = format!(
        "title: {}\ndescription: {}\nsemantics: {}\ntarget: {}\n",
        info.title,
        info.description,
        info.semantics_shown(),
        info.target
    );
    if !info.tags.is_empty() {
        told.push_str(&format!("tags: {}\n", info.tags.join(", ")));
    }
    for (name, value) in &info.parameters {
        told.push_str(&format!("parameter: {name} = {value}\n"));
    }
    for bus in timing::buses(&spec.signals) {
        told.push_str(&signal_line(&spec.signals[bus.start]));
    }
    for section in outline::FORMULAS {
        let lines = outline.statements.iter().filter(|statement| statement.section == section).count();
        if lines > 0 {
            told.push_str(&format!("{section}: {}\n", counted(lines, "line")));
        }
    }
    told.push_str(&format!(
        "formula: {}, {}\n",
        counted(spec.formula.nodes.len(), "node"),
        counted(spec.signals.len(), "signal")
    ));
    files::print(told.as_bytes())?;
    Ok(Status::Good)
}

fn signal_line(signal: &Signal) -> String {
    let direction = if signal.output { "output" } else { "input" };
    match signal.bus {
        Some((_, width)) => format!("{direction}: {}[{width}]\n", signal.name),
        None => format!("{direction}: {}\n", signal.name),
    }
}
