//! Watches a worker: it is started again after an input that is costly by definition, and a crash or a call that does not end is a finding.

use crate::state::{Stage, State};
use crate::worker::{self, FOLDER};
use compare::answers;
use std::path::{Path, PathBuf};
use std::process::{Child, Command};
use std::time::{Duration, Instant};

/// Seconds of processor time for one input: in the second converter, and then in the library.
const SECOND_LIMIT: f64 = 3.0;
pub const LIBRARY_LIMIT: f64 = 20.0;

/// Clock ticks a second in /proc.
const TICKS: f64 = 100.0;

/// How a worker ended.
pub enum End {
    Done,
    /// The second converter took too long: the input is left out.
    Costly,
    Finding(String),
}

pub struct Watch {
    pub seed: u64,
    pub state_file: PathBuf,
    pub state: State,
    /// The fault that the worker plants, if any.
    pub fault: Option<usize>,
    pub library_limit: f64,
}

impl Watch {
    pub fn new(seed: u64, fault: Option<usize>) -> Watch {
        std::fs::create_dir_all(FOLDER).expect("a folder for findings");
        let name = format!("state-{}", std::process::id());
        let state_file = Path::new(FOLDER).join(name);
        std::fs::remove_file(&state_file).unwrap_or_default();
        Watch {
            seed,
            state: State::of(&state_file),
            state_file,
            fault,
            library_limit: LIBRARY_LIMIT,
        }
    }

    fn start(&self, index: u64, seconds: u64, count: u64) -> Child {
        let words = [self.seed, index, seconds, count].map(|word| word.to_string());
        let program = std::env::current_exe().expect("the program knows itself");
        let mut command = Command::new(program);
        command.arg("--worker").arg(&self.state_file).args(words);
        if let Some(fault) = self.fault {
            command.arg(fault.to_string());
        }
        command.spawn().expect("the worker starts")
    }

    /// Watches one worker to its end.
    pub fn watch(&self, index: u64, seconds: u64, count: u64) -> End {
        self.state.enter(index, Stage::Second);
        let mut child = self.start(index, seconds, count);
        let mut at = self.state.at();
        let mut since = 0.0;
        loop {
            std::thread::sleep(Duration::from_millis(50));
            if let Some(status) = child.try_wait().expect("the worker can be asked") {
                return match status.code() {
                    Some(0) => End::Done,
                    Some(1) => End::Finding("a difference, see above".to_string()),
                    _ => End::Finding(format!("the worker ended with {status}")),
                };
            }
            let spent = processor_time(child.id());
            if self.state.at() != at {
                (at, since) = (self.state.at(), spent);
            }
            match at.1 {
                Stage::Second if spent - since > SECOND_LIMIT => {
                    end(&mut child);
                    return End::Costly;
                }
                Stage::Library if spent - since > self.library_limit => {
                    end(&mut child);
                    let limit = self.library_limit;
                    return End::Finding(format!("more than {limit} s in the library"));
                }
                _ => {}
            }
        }
    }

    /// Workers one after the other until the time is over; yields the exit status.
    pub fn run(&self, seconds: u64) -> i32 {
        let start = Instant::now();
        let (mut index, mut costly) = (0, 0);
        println!("fuzz/run: seed {}, {seconds} seconds", self.seed);
        loop {
            let left = seconds.saturating_sub(start.elapsed().as_secs());
            match self.watch(index, left, u64::MAX) {
                End::Done => break,
                End::Costly => costly += 1,
                End::Finding(what) => {
                    let (index, stage) = self.state.at();
                    let seed = self.seed;
                    println!("finding: seed {seed}, case {index} ({stage:?}): {what}");
                    println!("again: fuzz/run --case {seed} {index}");
                    return self.case(index);
                }
            }
            index = self.state.at().0 + 1;
        }
        print!("{}", answers::lines(&self.state.tally()));
        let cases = self.state.at().0 + 1;
        println!(
            "fuzz/run: seed {}, {cases} cases in {} s, {costly} left out as costly, 0 findings",
            self.seed,
            start.elapsed().as_secs()
        );
        0
    }

    /// One case by itself, in a worker of its own, which keeps the input; yields the exit status.
    pub fn case(&self, index: u64) -> i32 {
        let what = match self.watch(index, u64::from(u32::MAX), 1) {
            End::Done => None,
            End::Costly => Some("costly in the second converter".to_string()),
            End::Finding(what) => Some(what),
        };
        let told = what.as_deref().unwrap_or("nothing found");
        println!("seed {}, case {index}: {told}", self.seed);
        println!(
            "its input: {}",
            worker::input_file(self.seed, index).display()
        );
        i32::from(what.is_some())
    }
}

impl Drop for Watch {
    fn drop(&mut self) {
        std::fs::remove_file(&self.state_file).unwrap_or_default();
    }
}

/// Ends the worker, by its own id.
fn end(child: &mut Child) {
    child.kill().expect("the worker can be ended");
    child.wait().expect("the worker ends");
}

/// Seconds of processor time that a process has spent.
fn processor_time(id: u32) -> f64 {
    let stat = std::fs::read_to_string(format!("/proc/{id}/stat")).unwrap_or_default();
    let fields = stat.rsplit(')').next().unwrap_or_default();
    let ticks: f64 = fields
        .split_whitespace()
        .skip(11)
        .take(2)
        .filter_map(|field| field.parse::<f64>().ok())
        .sum();
    ticks / TICKS
}
