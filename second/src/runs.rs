//! Runs of the generators: one case per line, with the answer due.

use second::answer::Answer;
use second::generate::prng::Prng;
use second::generate::{self, constructs};
use second::listing::answer_line;
use second::{evaluator, limits, reader, rewriter};
use std::collections::BTreeMap;
use std::io::Write;

/// Prints, and ends quietly if nobody reads on.
pub fn print(text: &str) {
    if std::io::stdout().write_all(text.as_bytes()).is_err() {
        std::process::exit(0);
    }
}

/// Counts the answers of a run, and the constructs of its accepted texts.
pub fn stats(seed: u64, count: u64) {
    let mut rng = Prng::new(seed);
    let mut answers: BTreeMap<String, usize> = BTreeMap::new();
    let mut used: BTreeMap<String, usize> = BTreeMap::new();
    let mut short = 0;
    for _ in 0..count {
        let text = generate::any_text(&mut rng);
        short += usize::from(text.len() < 200);
        let answer = match reader::read_freely(&text).answer {
            Answer::Accepted { .. } => {
                for construct in constructs::constructs(&text) {
                    *used.entry(construct).or_default() += 1;
                }
                "accepted".to_string()
            }
            Answer::Refused(refusal) => format!("refused {:2}", refusal.number),
        };
        *answers.entry(answer).or_default() += 1;
    }
    print(&format!("texts {count}\nunder 200 bytes {short}\n"));
    for (name, times) in answers.iter().chain(&used) {
        print(&format!("{name}: {times}\n"));
    }
}

/// Per line: text, answer, and if accepted nodes and signal list. Room is ample.
pub fn cases(seed: u64, count: u64, longest: usize) {
    let mut rng = Prng::new(seed);
    for _ in 0..count {
        let text = generate::short_text(&mut rng, longest);
        let reading = reader::read_freely(&text);
        let results = [hex_entries(&reading.nodes), hex_entries(&reading.signals)];
        let answer = with_results(&reading.answer, &results);
        print(&format!("{} {answer}\n", hex_bytes(&text)));
    }
}

/// Per line: text, lengths of the work, node and signal buffers, and the answer.
pub fn rooms(seed: u64, count: u64, longest: usize) {
    let mut rng = Prng::new(seed);
    for _ in 0..count {
        let text = generate::short_text(&mut rng, longest);
        let due = reader::read_freely(&text);
        let work = limits::WORK_BYTES - usize::from(rng.one_in(8));
        let node_room = around(&mut rng, due.nodes.len());
        let signal_room = around(&mut rng, due.signals.len());
        let reading = reader::read(&text, work, node_room, signal_room);
        let answer = answer_line(&reading.answer);
        let text = hex_bytes(&text);
        print(&format!(
            "{text} {work} {node_room} {signal_room} {answer}\n"
        ));
    }
}

/// Exactly the room due, one less or one more.
fn around(rng: &mut Prng, due: usize) -> usize {
    match rng.below(4) {
        0 => due.saturating_sub(1),
        1 => due + 1,
        _ => due,
    }
}

/// Per line: nodes, form, room, answer, and if accepted the nodes of the form. Neither table has
/// more than `longest` nodes.
pub fn tables(seed: u64, count: u64, longest: usize) {
    let mut rng = Prng::new(seed);
    let mut printed = 0;
    while printed < count {
        let signals = rng.between(1, 4);
        let nodes = generate::tables::table(&mut rng, signals);
        let form = if rng.one_in(20) {
            rng.between(3, 5)
        } else {
            rng.below(3)
        } as u32;
        let due = rewriter::rewrite(&nodes, form, limits::NODES);
        if nodes.len().max(due.nodes.len()) > longest {
            continue;
        }
        let room = around(&mut rng, due.nodes.len());
        let done = rewriter::rewrite(&nodes, form, room);
        let answer = with_results(&done.answer, &[hex_entries(&done.nodes)]);
        print(&format!("{} {form} {room} {answer}\n", hex_entries(&nodes)));
        printed += 1;
    }
}

/// Per line: nodes, signal count, recording, room in bytes, answer, and if accepted the rows.
/// There are at most `longest` nodes and bytes of the recording.
pub fn recordings(seed: u64, count: u64, longest: usize) {
    let mut rng = Prng::new(seed);
    let mut printed = 0;
    while printed < count {
        let signals = match rng.below(20) {
            0 => rng.between(250, 257),
            1 => 0,
            _ => rng.between(1, 4),
        };
        let nodes = generate::tables::table(&mut rng, signals.clamp(1, 4));
        let recording = generate::recordings::recording(&mut rng, signals.min(255));
        if nodes.len().max(recording.len()) > longest {
            continue;
        }
        let due = evaluator::evaluate(&nodes, signals, &recording, usize::MAX);
        let room = around(&mut rng, due.rows.len());
        let done = evaluator::evaluate(&nodes, signals, &recording, room);
        let answer = with_results(&done.answer, &[hex_bytes(&done.rows)]);
        let (nodes, recording) = (hex_entries(&nodes), hex_bytes(&recording));
        print(&format!("{nodes} {signals} {recording} {room} {answer}\n"));
        printed += 1;
    }
}

/// The answer, followed by the results if it accepts.
fn with_results(answer: &Answer, results: &[String]) -> String {
    match answer {
        Answer::Accepted { .. } => format!("{} {}", answer_line(answer), results.join(" ")),
        Answer::Refused(_) => answer_line(answer),
    }
}

/// Bytes in hexadecimal, `-` for none.
fn hex_bytes(bytes: &[u8]) -> String {
    if bytes.is_empty() {
        return "-".to_string();
    }
    bytes.iter().map(|byte| format!("{byte:02x}")).collect()
}

/// 32-bit entries in hexadecimal, eight digits each and commas between, `-` for none.
fn hex_entries(entries: &[u32]) -> String {
    if entries.is_empty() {
        return "-".to_string();
    }
    let entries: Vec<String> = entries.iter().map(|entry| format!("{entry:08x}")).collect();
    entries.join(",")
}
