//! A day's files, converted one after the other.

use crate::inputs::texts::{ARBITERS, DOORS};
use crate::inputs::Random;
use crate::reading::{Job, Results, KB, WORK};
use crate::timing::{seconds, RUNS};
use std::hint::black_box;

const FILES: usize = 1300;

/// Six files in ten have 1 to 2 KB, three 4 to 8 KB, one 16 to 32 KB; kinds and forms in turn.
fn files() -> Vec<(Vec<u8>, Job)> {
    let mut random = Random(0x2545_f491_4f6c_dd1d);
    let mut file = |n: usize| {
        let smallest = [1, 1, 1, 1, 1, 1, 4, 4, 4, 16][n % 10] * KB;
        let size = smallest + random.below(smallest as u64 + 1) as usize;
        let kind = [DOORS, ARBITERS][n / 10 % 2].text(size);
        (kind, Job::Convert((n % 3) as u32))
    };
    (0..FILES).map(&mut file).collect()
}

/// The best time of each file, added up: so no other process counts that took a turn in between.
pub fn bench() {
    let files = files();
    let mut work = vec![0u8; WORK];
    let (mut ours, mut theirs) = (Results::new(), Results::new());
    let mut times = vec![[f64::MAX; 2]; FILES];
    for _ in 0..RUNS {
        for ((text, job), [library, second]) in files.iter().zip(&mut times) {
            let mut call = || {
                black_box(job.library(text, &mut work, &mut ours));
            };
            *library = library.min(seconds(1, &mut call));
            let mut call = || {
                black_box(job.second(text, &mut theirs));
            };
            *second = second.min(seconds(1, &mut call));
        }
    }
    let [library, second] = [0, 1].map(|n| times.iter().map(|t| t[n]).sum::<f64>());
    let bytes: usize = files.iter().map(|(text, _)| text.len()).sum();
    println!(
        "\nA day's 1,300 files of 1 to 32 KB, {} KB together, converted to forms 0, 1, 2 in turn",
        bytes / KB
    );
    for (name, time) in [("library", library), ("second", second)] {
        let each = FILES as f64 / time;
        println!(
            "  {name:<8} {:>7.1} ms {each:>8.0} conversions a second",
            time * 1e3
        );
    }
    println!("  {:<8} {:>7.2}", "ratio", library / second);
}
