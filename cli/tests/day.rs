//! A day's load: 1,300 files in one run, each with the second converter's answer, and what it takes beside reading the files alone.

mod common;

use common::{texts, Folder};
use second::answer::Answer;
use second::generate::damage::damage_bytes;
use second::generate::prng::Prng;
use second::generate::{any_text, sound_text};
use second::{listing, reader};
use std::fs;
use std::process::Command;
use std::time::{Duration, Instant};

const FILES: usize = 1_300;
/// Of so many runs the best counts: other work on the machine only adds.
const RUNS: usize = 5;
/// Two processors have this many hundredths in a second.
const MOST_PROCESSOR_TIME: u64 = 200;

/// The hundredths of a second that the processes started here, and those that they started, have spent on a processor.
fn processor_time() -> u64 {
    let stat = fs::read_to_string("/proc/self/stat").expect("what the system counts");
    let fields: Vec<&str> = stat.rsplit(')').next().unwrap_or_default().split_whitespace().collect();
    [13, 14].map(|field| fields[field].parse::<u64>().expect("a number")).iter().sum()
}

/// The shortest time by the clock and on the processors, each of its own run.
struct Best {
    clock: Duration,
    processors: u64,
}

fn best(mut run: impl FnMut()) -> Best {
    let mut best = Best {
        clock: Duration::MAX,
        processors: u64::MAX,
    };
    for _ in 0..RUNS {
        let (start, used) = (Instant::now(), processor_time());
        run();
        best.clock = best.clock.min(start.elapsed());
        best.processors = best.processors.min(processor_time() - used);
    }
    best
}

impl std::fmt::Display for Best {
    fn fmt(&self, f: &mut std::fmt::Formatter) -> std::fmt::Result {
        write!(
            f,
            "{:.2} s ({:.2} s of processors)",
            self.clock.as_secs_f64(),
            self.processors as f64 / 100.0
        )
    }
}

/// Converts the texts in one run, compares each answer with the second converter's, and measures.
fn a_day(title: &str, texts: &[Vec<u8>], folder: &Folder) {
    let place = if folder.path.starts_with("/dev/shm") {
        "in memory"
    } else {
        "on disk"
    };
    let names: Vec<String> = (0..texts.len()).map(|number| format!("{number:04}.tlsf")).collect();
    for (name, text) in names.iter().zip(texts) {
        folder.file(name, text);
    }
    let names: Vec<&str> = names.iter().map(String::as_str).collect();
    let mut bytes = 0;
    let reading = best(|| bytes = names.iter().map(|name| folder.read(name).len()).sum());
    // A new folder for each run: a file is replaced faster on some disks, and made more slowly where many were deleted.
    let mut outs = (0..RUNS).map(|run| format!("out{run}"));
    let converting = best(|| {
        let out = outs.next().expect("a folder for every run");
        let ran = folder.run(&[&["convert", "--out", &out, "--report", "report.json"], &names[..]].concat());
        assert_eq!(ran.status, 1);
    });
    let accepted = compare(folder, &names, texts);
    let again = best(|| {
        let ran = folder.run(&[&["convert", "--out", "out0"], &names[..]].concat());
        assert_eq!(ran.status, 1);
    });
    let checking = best(|| {
        let ran = folder.run(&[&["check", "--messages", "short"], &names[..]].concat());
        assert_eq!((ran.status, ran.told.lines().count()), (1, names.len() - accepted));
    });
    println!(
        "{} {title}, {bytes} bytes in all, {accepted} accepted, {place}, best of {RUNS}: reading alone {:.3} s, convert --out --report {converting}, \
         once more to the same folder {again}, check {checking}",
        names.len(),
        reading.clock.as_secs_f64(),
    );
    let report: serde_json::Value = serde_json::from_slice(&folder.read("report.json")).expect("JSON");
    assert_eq!(report["summary"]["accepted"], accepted);
    assert!(
        converting.processors < MOST_PROCESSOR_TIME,
        "{converting}: over a second on two processors"
    );
}

/// How many are accepted, all answers being the second converter's.
fn compare(folder: &Folder, names: &[&str], texts: &[Vec<u8>]) -> usize {
    let mut accepted = 0;
    for (name, text) in names.iter().zip(texts) {
        let due = reader::read_freely(text);
        let written = fs::read_to_string(folder.path.join("out0").join(name.replace(".tlsf", ".listing")));
        match due.answer {
            Answer::Accepted { .. } => {
                assert_eq!(written.ok(), Some(listing::listing(&due)), "{name}");
                accepted += 1;
            }
            Answer::Refused(_) => {
                assert!(written.is_err(), "{name}");
                let message = fs::read_to_string(folder.path.join("out0").join(name.replace(".tlsf", ".refused.txt")));
                assert!(message.is_ok_and(|message| message.contains(*name)), "{name}");
            }
        }
    }
    assert_eq!(folder.names("out0").len(), names.len());
    accepted
}

fn small_texts() -> Vec<Vec<u8>> {
    let mut rng = Prng::new(1_300);
    // Three of four are meant to be good, as at the desk.
    let text = |_| if rng.one_in(4) { any_text(&mut rng) } else { sound_text(&mut rng) };
    (0..FILES).map(text).collect()
}

fn large_texts() -> Vec<Vec<u8>> {
    let mut rng = Prng::new(30_000);
    let text = |_| {
        // From 1 to 30 KB, as many of each magnitude.
        let bytes = 1_000 << rng.below(5);
        let bytes = rng.between(bytes, 2 * bytes).min(30_000);
        let mut text = texts::text(&mut rng, bytes).into_bytes();
        if rng.one_in(4) {
            damage_bytes(&mut rng, &mut text);
        }
        text
    };
    (0..FILES).map(text).collect()
}

/// Names another program with the same command line, as an earlier version of this one.
const BESIDE: &str = "VASCULPI_BESIDE";
/// So many runs of each, in turn, since other work on the machine comes and goes.
const TURNS: usize = 12;

/// `VASCULPI_BESIDE=PROGRAM cargo test --release --test day -- --ignored --nocapture beside`: what a day costs here and there.
#[test]
#[ignore = "needs another program"]
fn beside_another_program() {
    let other = std::env::var(BESIDE).expect("VASCULPI_BESIDE names a program");
    let programs = [env!("CARGO_BIN_EXE_vasculpi"), &other];
    for (title, texts) in [("small texts", small_texts()), ("texts of 1 to 30 KB", large_texts())] {
        let folder = Folder::in_memory();
        let names: Vec<String> = (0..texts.len()).map(|number| format!("{number:04}.tlsf")).collect();
        for (name, text) in names.iter().zip(&texts) {
            folder.file(name, text);
        }
        let job = |words: &[&str]| {
            let mut used = [const { Vec::new() }; 2];
            for turn in 0..TURNS {
                for which in [turn % 2, 1 - turn % 2] {
                    let before = processor_time();
                    let mut command = Command::new(programs[which]);
                    let output = command.current_dir(&folder.path).args(words).args(&names).output();
                    assert_eq!(output.expect("the program starts").status.code(), Some(1));
                    used[which].push((processor_time() - before) as f64 / 100.0);
                    let _ = fs::remove_dir_all(folder.path.join("out"));
                }
            }
            let [here, there] = used.map(|used| {
                (
                    used.iter().sum::<f64>() / used.len() as f64,
                    used.iter().copied().fold(f64::MAX, f64::min),
                )
            });
            println!(
                "{} {title}, {}: {:.3} s of processors here, {:.3} s there, ratio {:.2}; best runs {:.2} s and {:.2} s, ratio {:.2}",
                names.len(),
                words[0],
                here.0,
                there.0,
                here.0 / there.0,
                here.1,
                there.1,
                here.1 / there.1
            );
        };
        job(&["convert", "--out", "out", "--report", "report.json"]);
        job(&["check", "--messages", "short"]);
    }
}

// One after the other, so that neither takes the other's time.
#[test]
fn two_days() {
    a_day("small texts", &small_texts(), &Folder::in_memory());
    let texts = large_texts();
    a_day("texts of 1 to 30 KB", &texts, &Folder::in_memory());
    a_day("texts of 1 to 30 KB", &texts, &Folder::on_disk());
}
