//! The reader and the converter beside the second converter: the same texts, the same result buffers, the answers and results compared.

use crate::day;
use crate::inputs::limits;
use crate::inputs::texts::{with_models, Kind, ARBITERS, DOORS};
use crate::timing::{best, micro, RUNS};
use crate::{tlsf_convert, tlsf_read};
use second::answer::Answer;
use second::reader::Reading;
use second::{reader, rewriter};
use std::hint::black_box;

pub const WORK: usize = 65_536;

const NODES: usize = 8192;

const SIGNALS: usize = 255;

pub const KB: usize = 1024;

/// What both lend and fill.
#[derive(Clone, PartialEq)]
pub struct Results {
    nodes: Vec<u32>,
    signals: Vec<u32>,
}

impl Results {
    pub fn new() -> Results {
        Results {
            nodes: vec![0; NODES],
            signals: vec![0; SIGNALS],
        }
    }

    /// Puts down what the second converter answers, as the library does.
    fn put(&mut self, reading: &Reading) -> u64 {
        self.nodes[..reading.nodes.len()].copy_from_slice(&reading.nodes);
        self.signals[..reading.signals.len()].copy_from_slice(&reading.signals);
        match reading.answer {
            Answer::Accepted { nodes, signals } => (nodes as u64) << 32 | signals as u64,
            Answer::Refused(refusal) => {
                1 << 63 | u64::from(refusal.number) << 32 | refusal.place as u64
            }
        }
    }
}

/// A reading, or a conversion to a form.
#[derive(Clone, Copy)]
pub enum Job {
    Read,
    Convert(u32),
}

impl Job {
    pub fn library(self, text: &[u8], work: &mut [u8], results: &mut Results) -> u64 {
        let (at, size) = (text.as_ptr(), text.len());
        let (lent, room) = (work.as_mut_ptr(), work.len());
        let nodes = results.nodes.as_mut_ptr();
        let signals = results.signals.as_mut_ptr();
        match self {
            Job::Read => unsafe { tlsf_read(at, size, lent, room, nodes, NODES, signals, SIGNALS) },
            Job::Convert(form) => unsafe {
                tlsf_convert(at, size, form, lent, room, nodes, NODES, signals, SIGNALS)
            },
        }
    }

    pub fn second(self, text: &[u8], results: &mut Results) -> u64 {
        let mut reading = reader::read(text, WORK, NODES, SIGNALS);
        let (Job::Convert(form), Answer::Accepted { signals, .. }) = (self, reading.answer) else {
            return results.put(&reading);
        };
        let written = rewriter::rewrite(&reading.nodes, form, NODES);
        reading.nodes = written.nodes;
        reading.answer = match written.answer {
            Answer::Accepted { nodes, .. } => Answer::Accepted { nodes, signals },
            refused => {
                reading.signals.clear();
                refused
            }
        };
        results.put(&reading)
    }
}

struct Times {
    library: f64,
    second: f64,
    answer: u64,
}

impl Times {
    fn of(job: Job, text: &[u8]) -> Times {
        let mut work = vec![0u8; WORK];
        let (mut ours, mut theirs) = (Results::new(), Results::new());
        let answer = job.library(text, &mut work, &mut ours);
        assert_eq!(answer, job.second(text, &mut theirs), "the answers differ");
        assert!(ours == theirs, "the results differ");
        let mut library = || {
            black_box(job.library(black_box(text), &mut work, &mut ours));
        };
        let mut second = || {
            black_box(job.second(black_box(text), &mut theirs));
        };
        let batch = 1 + 4 * KB / text.len();
        let [library, second] = best(batch, [&mut library, &mut second]);
        Times {
            library,
            second,
            answer,
        }
    }

    fn ratio(&self) -> f64 {
        self.library / self.second
    }

    fn told(&self) -> String {
        match self.answer >> 63 {
            0 => format!(
                "{} nodes, {} signals",
                self.answer >> 32,
                self.answer as u32
            ),
            _ => format!("refused by {}", self.answer >> 32 & 0xff),
        }
    }
}

fn row(name: &str, bytes: usize, times: &Times) {
    println!(
        "  {name:<44} {bytes:>6} {:>9} {:>9} {:>6.2}   {}",
        micro(times.library),
        micro(times.second),
        times.ratio(),
        times.told()
    );
}

fn heading(what: &str) {
    println!("\n{what}");
    println!(
        "  {:<44} {:>6} {:>9} {:>9} {:>6}",
        "text", "bytes", "library", "second", "ratio"
    );
}

fn bench_sizes() {
    heading("Reader, us a text");
    for (size, told) in [(1, "small"), (8, "typical"), (32, "largest")] {
        for kind in [DOORS, ARBITERS] {
            let text = kind.text(size * KB);
            row(
                &format!("{told}: {}", kind.name),
                text.len(),
                &Times::of(Job::Read, &text),
            );
        }
    }
    let extremes = [
        ("8,192 tokens", limits::most_tokens()),
        (
            "256 names of 60 bytes, alike but for two",
            limits::alike_names(),
        ),
        (
            "tags against the tree of spellings",
            limits::crowded_spellings(),
        ),
        (
            "deepest: 4,000 negations by definitions",
            limits::negations(),
        ),
        (
            "deepest: 2,000 divisions by definitions",
            limits::divisions(),
        ),
    ];
    for (name, text) in extremes {
        row(name, text.len(), &Times::of(Job::Read, &text));
    }
}

/// Time for a byte at doubled sizes of the same kind of text.
fn bench_growth(kind: &Kind) {
    let sizes = [1, 2, 4, 8, 16, 32];
    let times = sizes.map(|size| Times::of(Job::Read, &kind.text(size * KB)));
    let line = |name: &str, digits: usize, value: &dyn Fn(&Times, usize) -> f64| {
        print!("  {name:<30}");
        for (times, size) in times.iter().zip(sizes) {
            print!(" {:>8.digits$}", value(times, size * KB));
        }
        println!();
    };
    print!("\n{:<32}", format!("Growth, {}", kind.name));
    sizes.iter().for_each(|size| print!(" {size:>5} KB"));
    println!();
    line("library, ns a byte", 1, &|t, size| {
        t.library * 1e9 / size as f64
    });
    line("second, ns a byte", 1, &|t, size| {
        t.second * 1e9 / size as f64
    });
    line("ratio", 2, &|t, _| t.ratio());
}

fn bench_conversions() {
    heading("Converter, us a text");
    for size in [1, 8, 32] {
        for form in [0, 1, 2] {
            let text = ARBITERS.text(size * KB);
            let name = format!("{}, form {form}", ARBITERS.name);
            row(&name, text.len(), &Times::of(Job::Convert(form), &text));
        }
    }
}

/// A text that targets the other model beside the same text with equal models.
fn bench_models() {
    println!("\nReader, a text that targets the other model, us a text");
    println!(
        "  {:<44} {:>6} {:>9} {:>9} {:>6}",
        "text", "bytes", "converted", "equal", "ratio"
    );
    for kind in [DOORS, ARBITERS] {
        for (semantics, target) in [("Moore", "Mealy"), ("Mealy", "Moore")] {
            let plain = kind.text(8 * KB);
            let texts = [semantics, target].map(|stated| with_models(&plain, stated, target));
            let mut work = vec![0u8; WORK];
            let mut answers = texts.iter().map(|text| {
                let (mut ours, mut theirs) = (Results::new(), Results::new());
                let answer = Job::Read.library(text, &mut work, &mut ours);
                assert_eq!(answer, Job::Read.second(text, &mut theirs), "the answers differ");
                assert!(ours == theirs, "the results differ");
                answer >> 32
            });
            let nodes = [answers.next(), answers.next()].map(|count| count.expect("two texts"));
            let (mut lent, mut results) = (vec![0u8; WORK], Results::new());
            let (mut room, mut others) = (vec![0u8; WORK], Results::new());
            let mut converted = || {
                black_box(Job::Read.library(black_box(&texts[0]), &mut lent, &mut results));
            };
            let mut equal = || {
                black_box(Job::Read.library(black_box(&texts[1]), &mut room, &mut others));
            };
            let [converted, equal] = best(1, [&mut converted, &mut equal]);
            println!(
                "  {:<44} {:>6} {:>9} {:>9} {:>6.2}   {} nodes, {} with equal models",
                format!("{}, {semantics} to {target}", kind.name),
                texts[0].len(),
                micro(converted),
                micro(equal),
                converted / equal,
                nodes[0],
                nodes[1]
            );
        }
    }
}

pub fn bench() {
    println!("Texts: best of {RUNS} runs in turn. No buffer is cleared between runs; the library leaves the work buffer zero, which its time includes.");
    println!("'second' is second/, the straightforward Rust for texts, built without overflow checks, called on a deep stack instead of a thread of its own,");
    println!("its results copied into the same buffers.");
    bench_sizes();
    bench_models();
    [DOORS, ARBITERS].iter().for_each(bench_growth);
    bench_conversions();
    day::bench();
}
