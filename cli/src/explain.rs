//! `explain`: the page of a refusal.

use crate::files;
use crate::message;
use crate::refusals::{self, Page};
use crate::status::{Status, Stop};

pub fn run(number: Option<u32>) -> Result<Status, Stop> {
    let told = match number {
        None => refusals::pages()
            .map(|page| format!("{:>2}. {}\n", page.number, page.title))
            .collect(),
        Some(number) => match refusals::page_of(number) {
            Some(page) => printed(&page),
            None => {
                return Err(Stop::unusable(format!(
                    "there is no refusal {number}: `vasculpi explain` lists all"
                )))
            }
        },
    };
    files::print(told.as_bytes())?;
    Ok(Status::Good)
}

/// A page for a terminal: what stands between fences is indented, and said to be an example, its answer or the line that mends it.
fn printed(page: &Page) -> String {
    let mut printed = String::new();
    let mut inside = false;
    for line in page.text.trim_end().lines() {
        let text = match (line, line.strip_prefix('`').and_then(|rest| rest.strip_suffix('`'))) {
            ("```", _) => {
                inside = false;
                continue;
            }
            ("```tlsf", _) if printed.contains("To mend it: ") => "The mended line:\n".to_string(),
            ("```tlsf", _) => "An example:\n".to_string(),
            ("```sh", _) => "An example, made by a command:\n".to_string(),
            (_, Some(answer)) => format!("Its answer: {answer}"),
            _ if inside => format!("    {line}"),
            _ => message::wrapped(line),
        };
        inside |= line.starts_with("```");
        printed.push_str(&text);
        printed.push('\n');
    }
    printed
}
