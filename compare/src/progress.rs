//! How far a run has come: a line that stays in place on a terminal, a line a minute elsewhere.

use std::io::{stderr, IsTerminal, Write};
use std::sync::atomic::{AtomicU64, Ordering};
use std::time::{Duration, Instant};

pub struct Progress {
    total: u64,
    done: AtomicU64,
    start: Instant,
    terminal: bool,
}

impl Progress {
    pub fn new(total: u64) -> Progress {
        Progress {
            total,
            done: AtomicU64::new(0),
            start: Instant::now(),
            terminal: stderr().is_terminal(),
        }
    }

    pub fn one_more(&self) {
        self.done.fetch_add(1, Ordering::Relaxed);
    }

    pub fn done(&self) -> u64 {
        self.done.load(Ordering::Relaxed)
    }

    /// Cases a second since the start.
    pub fn rate(&self) -> f64 {
        self.done() as f64 / self.start.elapsed().as_secs_f64().max(0.001)
    }

    fn line(&self) -> String {
        let (done, rate) = (self.done(), self.rate());
        let left = (self.total - done.min(self.total)) as f64 / rate.max(0.001);
        let minutes = (left / 60.0).ceil() as u64;
        format!(
            "{done} of {} cases, {rate:.0} a second, {minutes} min left",
            self.total
        )
    }

    /// Tells how far the run is until `finished` says that it is over.
    pub fn tell(&self, finished: impl Fn() -> bool) {
        let pause = match self.terminal {
            true => Duration::from_millis(500),
            false => Duration::from_secs(60),
        };
        let mut told = Instant::now();
        while !finished() {
            std::thread::sleep(Duration::from_millis(20));
            if told.elapsed() >= pause {
                told = Instant::now();
                self.print();
            }
        }
        if self.terminal {
            eprint!("\r\x1b[K");
        }
    }

    fn print(&self) {
        match self.terminal {
            true => eprint!("\r\x1b[K{}", self.line()),
            false => eprintln!("{}", self.line()),
        }
        stderr().flush().unwrap_or_default();
    }
}
