//! What `convert` writes for an accepted text.

use crate::arguments::{Convert, Syntax, Target};
use crate::basic;
use crate::formula::Formula;
use crate::info::Info;
use crate::listing;
use crate::ltl::{self, Style};
use crate::node;
use crate::signals::{self, Signal};
use crate::simplify;
use serde_json::{json, Value};

pub struct Output {
    pub bytes: Vec<u8>,
    /// With `ltl`: what each name in the line stands for.
    pub names: Option<String>,
}

/// What is told of a formula that `--simplify` has changed.
const SIMPLIFIED: &str = "simplified, which is not proved";

/// An accepted text with all that is written of it.
struct Accepted<'a> {
    arguments: &'a Convert,
    nodes: Vec<u32>,
    signals: Vec<Signal>,
    info: Info,
}

/// The output, or why there is none.
pub fn of(arguments: &Convert, file: &str, text: &[u8], formula: &Formula) -> Result<Output, String> {
    if let Target::Listing | Target::Nodes = arguments.to {
        return Ok(plain(arguments, formula));
    }
    if arguments.to == Target::Basic {
        return basic::text(text, &formula.signals).map(|bytes| Output { bytes, names: None });
    }
    let accepted = Accepted {
        arguments,
        nodes: if arguments.simplify {
            simplify::simplified(&formula.nodes)
        } else {
            formula.nodes.clone()
        },
        signals: signals::of(text, &formula.signals),
        info: Info::of(text),
    };
    match arguments.to {
        Target::Json => Ok(bytes(format!("{}\n", accepted.object(file)))),
        Target::Ltlsynt => accepted.command("ltlsynt", "--formula"),
        Target::Strix => accepted.command("strix", "-f"),
        Target::Bosy => accepted.bosy(),
        Target::Smv => accepted.smv(),
        _ => accepted.line(),
    }
}

fn plain(arguments: &Convert, formula: &Formula) -> Output {
    match arguments.to {
        Target::Nodes => Output {
            bytes: formula.nodes.iter().flat_map(|node| node.to_be_bytes()).collect(),
            names: None,
        },
        _ => Output {
            bytes: listing::accepted(formula),
            names: None,
        },
    }
}

fn bytes(text: String) -> Output {
    Output {
        bytes: text.into_bytes(),
        names: None,
    }
}

fn direction(signal: &Signal) -> &'static str {
    if signal.output {
        "output"
    } else {
        "input"
    }
}

impl Accepted<'_> {
    fn written(&self, names: &[String], syntax: Syntax, tick: Option<&str>) -> Result<String, String> {
        let too_long = |_| "the line is longer than 16 MiB: --syntax spot without --tick writes no operand twice".to_string();
        ltl::line(&self.nodes, names, &Style { syntax, tick }).map_err(too_long)
    }

    fn line(&self) -> Result<Output, String> {
        let tick = self.arguments.tick.as_deref();
        let names = if self.arguments.quoted_names {
            self.signals.iter().map(|signal| format!("\"{}\"", signal.label())).collect()
        } else {
            signals::ltl_names(&self.signals, tick)
        };
        let line = self.written(&names, self.arguments.syntax.unwrap_or(Syntax::Common), tick)?;
        Ok(Output {
            bytes: format!("{line}\n").into_bytes(),
            names: Some(self.name_list(&names)),
        })
    }

    /// What the text is, then a line for every signal: number, direction, the text's name, the name in LTL.
    fn name_list(&self, names: &[String]) -> String {
        let mut list = format!(
            "# {}\n# semantics {}, target {}\n",
            self.info.title,
            self.info.semantics_shown(),
            self.info.target
        );
        if self.arguments.simplify {
            list.push_str(&format!("# {SIMPLIFIED}\n"));
        }
        for (number, (signal, name)) in self.signals.iter().zip(names).enumerate() {
            list.push_str(&format!("{number} {} {} {name}\n", direction(signal), signal.label()));
        }
        list
    }

    /// The names of the inputs, or of the outputs.
    fn names_of(&self, names: &[String], output: bool) -> Vec<String> {
        let of = self.signals.iter().zip(names).filter(|(signal, _)| signal.output == output);
        of.map(|(_, name)| name.clone()).collect()
    }

    /// A command line for a shell; what it does not say stands in a comment after it.
    fn command(&self, program: &str, formula: &str) -> Result<Output, String> {
        let names = signals::ltl_names(&self.signals, None);
        let line = self.written(&names, Syntax::Spot, None)?;
        let (inputs, outputs) = (self.names_of(&names, false).join(","), self.names_of(&names, true).join(","));
        let equals = if formula.starts_with("--") { "=" } else { " " };
        let simplified = if self.arguments.simplify {
            format!(", {SIMPLIFIED}")
        } else {
            String::new()
        };
        Ok(bytes(format!(
            "{program} {formula}{equals}'{line}' --ins='{inputs}' --outs='{outputs}' # target {}{simplified}\n",
            self.info.target
        )))
    }

    fn bosy(&self) -> Result<Output, String> {
        let names = signals::ltl_names(&self.signals, None);
        let formula = self.written(&names, Syntax::Spot, None)?;
        let object = json!({
            "semantics": self.info.target.to_lowercase(),
            "inputs": self.names_of(&names, false), "outputs": self.names_of(&names, true),
            "assumptions": [], "guarantees": [formula],
        });
        Ok(bytes(format!("{object:#}\n")))
    }

    fn smv(&self) -> Result<Output, String> {
        let names = signals::smv_names(&self.signals);
        let formula = self.written(&names, Syntax::Smv, None)?;
        let mut module = format!("-- {}, target {}\n", self.info.title.replace(['\n', '\r'], " "), self.info.target);
        if self.arguments.simplify {
            module.push_str(&format!("-- {SIMPLIFIED}\n"));
        }
        module.push_str("MODULE main\n");
        if !names.is_empty() {
            module.push_str("  VAR\n");
        }
        for (signal, name) in self.signals.iter().zip(&names) {
            module.push_str(&format!("    {name} : boolean; -- {} {}\n", direction(signal), signal.label()));
        }
        Ok(bytes(format!("{module}  LTLSPEC {formula}\n")))
    }

    fn object(&self, file: &str) -> Value {
        let names = signals::ltl_names(&self.signals, None);
        let signal = |(number, (signal, ltl)): (usize, (&Signal, &String))| {
            let (index, width) = signal.bus.unzip();
            json!({
                "number": number, "direction": direction(signal), "name": signal.label(), "ltl": ltl,
                "declared": signal.name, "index": index, "width": width,
            })
        };
        let node = |&node: &u32| json!([node::kind(node), node::first(node), node::second(node)]);
        json!({
            "file": file,
            "info": self.info.json(),
            "form": self.arguments.form.form,
            "counts": { "nodes": self.nodes.len(), "signals": self.signals.len() },
            "signals": self.signals.iter().zip(&names).enumerate().map(signal).collect::<Vec<Value>>(),
            "kinds": node::NAMES,
            "nodes": self.nodes.iter().map(node).collect::<Vec<Value>>(),
        })
    }
}
