//! The command line tool over the proved library: it decides nothing that the library decides.

mod advice;
mod also;
mod arguments;
mod basic;
mod batch;
mod bench;
mod convert;
mod declared;
mod diagram;
mod encoding;
mod enumerations;
mod excerpt;
mod expected;
mod explain;
mod files;
mod formula;
mod info;
mod inputs;
mod judge;
mod layout;
mod lines;
mod listing;
mod ltl;
mod manual;
mod message;
mod near;
mod node;
mod numbers;
mod outline;
mod output;
mod page;
mod reach;
mod recording;
mod refusals;
mod report;
mod runs;
mod setting;
mod signals;
mod simplify;
mod spec;
mod status;
mod svg;
mod table;
mod timing;
mod tokens;
mod vcd;
mod why;
mod worker;

use arguments::{Arguments, Command};
use clap::Parser;
use status::{Status, Stop};
use std::process::ExitCode;

fn main() -> ExitCode {
    match run(&Arguments::parse().command) {
        Ok(status) => status.into(),
        Err(stop) => {
            files::tell(&stop.message);
            stop.status.into()
        }
    }
}

fn run(command: &Command) -> Result<Status, Stop> {
    match command {
        Command::Convert(arguments) => convert::run(arguments),
        Command::Check(arguments) => convert::check(arguments),
        Command::Info(arguments) => info::run(arguments),
        Command::Explain { number } => explain::run(*number),
        Command::Judge(arguments) => judge::run(arguments),
        Command::Reach(arguments) => reach::run(arguments),
        Command::Record(arguments) => bench::record(arguments),
        Command::Show(arguments) => bench::show(arguments),
        Command::Completion { shell } => manual::completion(*shell),
        Command::Man => manual::run(),
        Command::Worker => worker::serve()
            .map(|()| Status::Good)
            .map_err(|error| Stop::unusable(error.to_string())),
    }
}
