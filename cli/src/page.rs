//! The day as one HTML page: counts, the texts without a result with their messages, all others in a table. It needs nothing beside it.

use crate::report::{self, Day};
use crate::status::Stop;
use serde_json::{json, Value};
use tinytemplate::{format_unescaped, TinyTemplate};

const TEMPLATE: &str = include_str!("page.html");
const STYLE: &str = include_str!("page.css");
const SCRIPT: &str = include_str!("page.js");

pub fn of(day: &Day, report: &Value) -> Result<String, Stop> {
    let files = report["files"].as_array().cloned().unwrap_or_default();
    let (accepted, others): (Vec<Value>, Vec<Value>) = files.into_iter().partition(|file| file["answer"] == "accepted");
    let counts = report::counts(day.done);
    let refusals: Vec<Value> = counts
        .refused
        .iter()
        .map(|(number, count)| json!({ "number": number, "count": count, "title": report::title(*number) }))
        .collect();
    let context = json!({
        "date": report["date"], "program": report["program"], "seconds": format!("{:.2}", day.elapsed.as_secs_f64()),
        "count": day.done.len(), "parts": counts.parts().join(", "), "refusals": refusals, "style": STYLE, "script": SCRIPT,
        "accepted": accepted.iter().map(row).collect::<Vec<Value>>(),
        "others": others.iter().map(row).collect::<Vec<Value>>(),
    });
    rendered(&context).map_err(|error| Stop::unusable(format!("the page cannot be made: {error}")))
}

/// Every field is there, so that the template asks for none that is missing.
fn row(file: &Value) -> Value {
    let word = |field: &Value| field.as_str().unwrap_or_default().to_string();
    let known = &file["info"];
    let message = match file["answer"].as_str() {
        Some("out of time") => format!("given up after {} seconds", file["seconds"]),
        _ => word(&file["message"]),
    };
    json!({
        "file": word(&file["file"]), "answer": word(&file["answer"]), "title": word(&file["title"]), "message": message,
        "number": file["number"].as_u64().map_or(String::new(), |number| format!("[{number}]")),
        "nodes": file["nodes"].as_u64().unwrap_or(0), "signals": file["signals"].as_u64().unwrap_or(0),
        "bytes": file["bytes"].as_u64().unwrap_or(0), "sha256": word(&file["sha256"]), "name": word(&known["title"]),
        "target": word(&known["target"]), "output": word(&file["output"]),
    })
}

fn rendered(context: &Value) -> Result<String, tinytemplate::error::Error> {
    let mut engine = TinyTemplate::new();
    engine.add_template("page", TEMPLATE)?;
    engine.add_formatter("plain", format_unescaped);
    engine.render("page", context)
}
