//! The program: `second read`, and runs of the generators.

mod runs;

use second::{basic, limits, listing, reader};
use std::io::Read;

const USAGE: &str = "usage: second read < text
       second write < text
       second stats SEED COUNT
       second cases SEED COUNT [LONGEST]
       second rooms SEED COUNT [LONGEST]
       second tables SEED COUNT [LONGEST]
       second recordings SEED COUNT [LONGEST]";

fn main() {
    let arguments: Vec<String> = std::env::args().skip(1).collect();
    let command = arguments.first().map_or("", String::as_str);
    let number = |at: usize| arguments.get(at).and_then(|text| text.parse::<u64>().ok());
    let seed = number(1).unwrap_or(0);
    let count = number(2).unwrap_or(0);
    let longest = number(3).map(|longest| longest as usize);
    match command {
        "read" => read(),
        "write" => write(),
        "stats" => runs::stats(seed, count),
        "cases" => runs::cases(seed, count, longest.unwrap_or(200)),
        "rooms" => runs::rooms(seed, count, longest.unwrap_or(200)),
        "tables" => runs::tables(seed, count, longest.unwrap_or(64)),
        "recordings" => runs::recordings(seed, count, longest.unwrap_or(64)),
        _ => {
            eprintln!("{USAGE}");
            std::process::exit(2);
        }
    }
}

fn read() {
    runs::print(&listing::listing(&reader::read_freely(&input())));
}

/// The basic text with a line feed, or the refusal.
fn write() {
    match basic::write(&input(), limits::WORK_BYTES, usize::MAX) {
        Ok(written) => runs::print(&format!("{}\n", String::from_utf8_lossy(&written))),
        Err(refusal) => runs::print(&format!("{}\n", listing::answer_line(&refusal.into()))),
    }
}

fn input() -> Vec<u8> {
    let mut text = Vec::new();
    // P1: one byte more than the limit is enough to refuse the text with 1.
    let most = limits::TEXT_BYTES as u64 + 1;
    let input = std::io::stdin().take(most).read_to_end(&mut text);
    input.expect("standard input can be read");
    text
}
