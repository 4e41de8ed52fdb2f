//! From a TLSF text to its formula to the verdict of a recording, over the crate `tlsf`.
//!
//! Usage: example TEXT RECORDING [FORM]. Exit status: 0 it holds, 1 it fails, 2 refused, 3 a file cannot be read.

#![forbid(unsafe_code)]

use std::env;
use std::fs;
use std::process::ExitCode;

use tlsf::{Formula, Reach, Refusal, Signal};

fn main() -> ExitCode {
    let words: Vec<String> = env::args().collect();
    match words.as_slice() {
        [_, text, recording] => run(text, recording, tlsf::AS_EXPANDED),
        [_, text, recording, form] => run(text, recording, form.parse().unwrap_or(u32::MAX)),
        _ => {
            eprintln!("usage: example TEXT RECORDING [FORM]");
            ExitCode::from(3)
        }
    }
}

fn run(text: &str, recording: &str, form: u32) -> ExitCode {
    let (Some(text), Some(recording)) = (load(text), load(recording)) else {
        return ExitCode::from(3);
    };
    match example(&text, &recording, form) {
        Ok(holds) => {
            println!("{}", if holds { "holds" } else { "fails" });
            ExitCode::from(u8::from(!holds))
        }
        Err(refusal) => {
            println!("refused {} {}", refusal.number, refusal.place);
            eprintln!("{refusal}");
            ExitCode::from(2)
        }
    }
}

fn example(text: &[u8], recording: &[u8], form: u32) -> Result<bool, Refusal> {
    // From the text to the formula: room for every result.
    let mut work = vec![0; tlsf::WORK_BYTES];
    let mut nodes = vec![0; tlsf::MOST_NODES];
    let mut signals = vec![0; tlsf::MOST_SIGNALS];
    let answer = tlsf::convert(text, form, &mut work, &mut nodes, &mut signals);
    let counts = answer.result()?;
    let (nodes, signals) = (&nodes[..counts.nodes], &signals[..counts.signals]);
    println!("{answer}");
    for (number, entry) in signals.iter().enumerate() {
        let signal = Signal::of(*entry);
        let direction = if signal.output { "output" } else { "input" };
        println!("{number} {direction} {}", signal.label(text));
    }
    println!("{}", Formula { nodes, signals, text });

    // How many letters a recording needs: after the last that counts no other does.
    match tlsf::reach(nodes) {
        Reach::Bounded { last } => println!("letters 0 to {last} decide"),
        Reach::Unbounded => println!("no number of letters decides"),
        Reach::Refused { number, place } => return Err(Refusal { number, place }),
    }

    // From the formula to the verdict: a row of bits for every node.
    let mut rows = vec![0; counts.nodes * tlsf::row_bytes(tlsf::MOST_POSITIONS)];
    tlsf::judge(nodes, counts.signals as u32, recording, &mut rows).result()
}

fn load(name: &str) -> Option<Vec<u8>> {
    fs::read(name).map_err(|error| eprintln!("{name}: {error}")).ok()
}
