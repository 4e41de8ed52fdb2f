//! Times of jobs that take turns, each the best of many runs.

use std::time::Instant;

pub const RUNS: usize = 60;

/// Seconds that a call takes, called `batch` times.
pub fn seconds(batch: usize, run: &mut dyn FnMut()) -> f64 {
    let start = Instant::now();
    for _ in 0..batch {
        run();
    }
    start.elapsed().as_secs_f64() / batch as f64
}

/// The best time of each of several jobs, which take turns.
pub fn best<const N: usize>(batch: usize, mut jobs: [&mut dyn FnMut(); N]) -> [f64; N] {
    let mut times = [f64::MAX; N];
    for _ in 0..RUNS {
        for (time, job) in times.iter_mut().zip(jobs.iter_mut()) {
            *time = time.min(seconds(batch, *job));
        }
    }
    times
}

pub fn micro(seconds: f64) -> String {
    let us = seconds * 1e6;
    let digits = if us < 10.0 { 2 } else { 1 };
    format!("{us:.digits$}")
}
