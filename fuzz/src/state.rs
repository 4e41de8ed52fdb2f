//! What a worker tells the process that watches it, in a file that both have mapped: which case it is at, what it is doing, and how often each answer came.

use crate::system::{shared_file, PAGE};
use compare::answers::{merge, Seen, Tally};
use second::answer::Answer;
use std::fs::OpenOptions;
use std::path::Path;
use std::sync::atomic::{AtomicU64, Ordering};

/// What takes a worker's time.
#[derive(Clone, Copy, Debug, PartialEq, Eq)]
pub enum Stage {
    /// Drawing the input, and the second converter.
    Second,
    Library,
}

pub const JOBS: [&str; 7] = [
    "read", "convert", "rewrite", "evaluate", "reach", "write", "diagnose",
];

/// Accepted, and refusals up to 23.
const ANSWERS: usize = 24;

const INDEX: usize = 0;
const STAGE: usize = 1;
const COUNTS: usize = 2;

#[derive(Clone, Copy)]
pub struct State {
    cells: &'static [AtomicU64],
}

impl State {
    /// The state in a file, which is made where it is not there.
    pub fn of(file: &Path) -> State {
        let file = OpenOptions::new()
            .read(true)
            .write(true)
            .create(true)
            .truncate(false)
            .open(file)
            .expect("the file of the state opens");
        file.set_len(PAGE as u64)
            .expect("the file of the state grows");
        let memory = shared_file(&file, PAGE).cast::<AtomicU64>();
        State {
            cells: unsafe { std::slice::from_raw_parts(memory, PAGE / 8) },
        }
    }

    pub fn at(&self) -> (u64, Stage) {
        let stage = match self.cells[STAGE].load(Ordering::SeqCst) {
            0 => Stage::Second,
            _ => Stage::Library,
        };
        (self.cells[INDEX].load(Ordering::SeqCst), stage)
    }

    pub fn enter(&self, index: u64, stage: Stage) {
        self.cells[INDEX].store(index, Ordering::SeqCst);
        self.cells[STAGE].store(u64::from(stage == Stage::Library), Ordering::SeqCst);
    }

    pub fn count(&self, job: usize, answer: Answer) {
        let number = match answer {
            Answer::Accepted { .. } => 0,
            Answer::Refused(refusal) => refusal.number as usize,
        };
        self.cells[COUNTS + job * ANSWERS + number].fetch_add(1, Ordering::Relaxed);
    }

    pub fn tally(&self) -> Tally {
        let mut tally = Tally::new();
        for (job, name) in JOBS.iter().enumerate() {
            for number in 0..ANSWERS {
                let times = self.cells[COUNTS + job * ANSWERS + number].load(Ordering::Relaxed);
                let seen = match number {
                    0 => Seen::Accepted,
                    _ => Seen::Refused(number as u32),
                };
                if times > 0 {
                    merge(&mut tally, Tally::from([((*name, seen), times)]));
                }
            }
        }
        tally
    }
}
