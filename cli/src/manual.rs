//! The manual page and the shells' completions, from the same description of the command line that prints the help.
//! Debian 12 has no clap_mangen: the page is put together here with roff's own library.

use crate::arguments::Arguments;
use crate::files;
use crate::status::{Status, Stop};
use clap::{Arg, Command, CommandFactory};
use clap_complete::Shell;
use roff::{bold, italic, roman, Inline, Roff};

pub fn completion(shell: Shell) -> Result<Status, Stop> {
    let mut script = Vec::new();
    clap_complete::generate(shell, &mut Arguments::command(), "vasculpi", &mut script);
    files::print(&script)?;
    Ok(Status::Good)
}

pub fn run() -> Result<Status, Stop> {
    let mut command = Arguments::command();
    command.build();
    let mut page = Roff::new();
    let version = concat!("vasculpi ", env!("CARGO_PKG_VERSION"));
    page.control("TH", ["VASCULPI", "1", "", version, "User Commands"]);
    page.control("SH", ["NAME"]);
    page.text([roman(format!("vasculpi - {}", described(&command)))]);
    page.control("SH", ["SYNOPSIS"]);
    page.text([
        bold("vasculpi"),
        roman(" "),
        italic("COMMAND"),
        roman(" ["),
        italic("OPTIONS"),
        roman("]"),
    ]);
    page.control("SH", ["COMMANDS"]);
    for below in command
        .get_subcommands()
        .filter(|below| !below.is_hide_set() && below.get_name() != "help")
    {
        add_command(&mut page, below);
    }
    page.control("SH", ["SEE ALSO"]);
    page.text([roman(
        "cli/README.md and docs/REFUSALS.md of the project; 'vasculpi explain' prints the pages of refusals.",
    )]);
    files::print(page.render().as_bytes())?;
    Ok(Status::Good)
}

fn described(command: &Command) -> String {
    let about = command.get_long_about().or(command.get_about());
    about.map(ToString::to_string).unwrap_or_default()
}

fn add_command(page: &mut Roff, command: &Command) {
    page.control("SS", [format!("vasculpi {}", command.get_name()).as_str()]);
    for paragraph in described(command).split("\n\n") {
        page.control("PP", []);
        page.text([roman(paragraph.replace('\n', " "))]);
    }
    for argument in command.get_arguments().filter(|argument| argument.get_id() != "help") {
        page.control("TP", []);
        page.text(head(argument));
        let help = argument.get_help().map(ToString::to_string).unwrap_or_default();
        page.text([roman(format!("{help}{}", values(argument)))]);
    }
}

fn head(argument: &Arg) -> Vec<Inline> {
    let mut head = Vec::new();
    if let Some(short) = argument.get_short() {
        head.extend([bold(format!("-{short}")), roman(", ")]);
    }
    if let Some(long) = argument.get_long() {
        head.push(bold(format!("--{long}")));
    }
    if argument.get_action().takes_values() {
        let names = argument.get_value_names().unwrap_or_default();
        let names: Vec<&str> = names.iter().map(|name| name.as_str()).collect();
        if argument.get_long().is_some() {
            head.push(roman(" "));
        }
        head.push(italic(names.join(" ")));
    }
    head
}

fn values(argument: &Arg) -> String {
    if !argument.get_action().takes_values() {
        return String::new();
    }
    let values = argument.get_possible_values();
    let names: Vec<&str> = values
        .iter()
        .filter(|value| !value.is_hide_set())
        .map(|value| value.get_name())
        .collect();
    if names.is_empty() {
        String::new()
    } else {
        format!(" (one of {})", names.join(", "))
    }
}
