//! Runs cases on some threads until one differs; the lowest differing case is kept in a file.

use crate::answers::{self, Tally};
use crate::arguments::Arguments;
use crate::case::{Case, Difference};
use crate::progress::Progress;
use second::stack;
use std::panic::{catch_unwind, AssertUnwindSafe};
use std::path::{Path, PathBuf};
use std::sync::atomic::{AtomicU64, AtomicUsize, Ordering};
use std::sync::Mutex;
use std::thread;

/// The lowest differing case that was met.
pub struct Found {
    pub case: Case,
    pub difference: Difference,
}

struct State<'r> {
    arguments: &'r Arguments,
    next: AtomicU64,
    working: AtomicUsize,
    found: Mutex<Option<Found>>,
    tally: Mutex<Tally>,
    progress: Progress,
}

impl State<'_> {
    /// The next case, unless all are taken or a lower one differs.
    fn take(&self) -> Option<Case> {
        let index = self.next.fetch_add(1, Ordering::Relaxed);
        let over = index >= self.arguments.from + self.arguments.count;
        let found = self.found.lock().expect("no thread panics holding it");
        let beyond = found.as_ref().is_some_and(|found| found.case.index < index);
        (!over && !beyond).then_some(Case {
            seed: self.arguments.seed,
            index,
        })
    }

    fn keep(&self, case: Case, difference: Difference) {
        let mut found = self.found.lock().expect("no thread panics holding it");
        if found
            .as_ref()
            .is_none_or(|found| case.index < found.case.index)
        {
            *found = Some(Found { case, difference });
        }
    }
}

/// Compares one case; a panic of the second converter is a difference too.
fn compared(
    compare: &impl Fn(Case, &mut Tally) -> Result<(), Difference>,
    case: Case,
    tally: &mut Tally,
) -> Result<(), Difference> {
    catch_unwind(AssertUnwindSafe(|| compare(case, tally))).unwrap_or_else(|panic| {
        let message = panic.downcast_ref::<String>().cloned();
        Err(Difference {
            job: "a panic beside the library".to_string(),
            library: String::new(),
            due: message.unwrap_or_default(),
            input: Vec::new(),
        })
    })
}

/// All cases of the arguments, or all up to the lowest one that differs.
pub fn cases(
    arguments: &Arguments,
    compare: impl Fn(Case, &mut Tally) -> Result<(), Difference> + Sync,
) -> (Tally, Option<Found>, f64) {
    let state = State {
        arguments,
        next: AtomicU64::new(arguments.from),
        working: AtomicUsize::new(arguments.threads),
        found: Mutex::new(None),
        tally: Mutex::new(Tally::new()),
        progress: Progress::new(arguments.count),
    };
    let work = || {
        let mut tally = Tally::new();
        while let Some(case) = state.take() {
            if let Err(difference) = compared(&compare, case, &mut tally) {
                state.keep(case, difference);
            }
            state.progress.one_more();
        }
        let mut all = state.tally.lock().expect("no thread panics holding it");
        answers::merge(&mut all, tally);
        state.working.fetch_sub(1, Ordering::Relaxed);
    };
    thread::scope(|scope| {
        for _ in 0..arguments.threads {
            // Texts nested by way of thousands of definitions need more than the usual 8 MB: both converters run on a stack of 128 MB here, and
            // what stack the library needs is measured elsewhere.
            scope.spawn(|| stack::deep(work));
        }
        state
            .progress
            .tell(|| state.working.load(Ordering::Relaxed) == 0);
    });
    let rate = state.progress.rate();
    let found = state.found.into_inner().expect("all threads have ended");
    let tally = state.tally.into_inner().expect("all threads have ended");
    (tally, found, rate)
}

/// Writes a differing case with both answers and the command that shows it again; yields the file's name.
pub fn kept(again: &str, folder: &Path, found: &Found) -> PathBuf {
    let Case { seed, index } = found.case;
    let Difference {
        job,
        library,
        due,
        input,
    } = &found.difference;
    let hex: String = input.iter().map(|byte| format!("{byte:02x}")).collect();
    let report = format!(
        "{again}\n{job}\nlibrary: {library}\ndue: {due}\n\
         input, {} bytes: {}\nin hexadecimal: {hex}\n",
        input.len(),
        input.escape_ascii()
    );
    std::fs::create_dir_all(folder).expect("the folder for differing cases can be made");
    let file = folder.join(format!("difference-{seed}-{index}.txt"));
    std::fs::write(&file, report).expect("the differing case can be written");
    std::fs::write(file.with_extension("input"), input).expect("its input can be written");
    file
}

/// Runs, reports and yields the exit status: 0 where nothing differs.
pub fn report(
    command: &str,
    arguments: &Arguments,
    compare: impl Fn(Case, &mut Tally) -> Result<(), Difference> + Sync,
) -> i32 {
    let Arguments {
        seed, from, count, ..
    } = arguments;
    println!("{command}: seed {seed}, {count} cases from {from}");
    let (tally, found, rate) = cases(arguments, compare);
    if let Some(found) = found {
        let again = format!("{command} {seed} 1 --from {}", found.case.index);
        let file = kept(&again, Path::new("target/compare"), &found);
        println!(
            "case {} differs: {}\nlibrary: {}\ndue: {}\nkept in {}",
            found.case.index,
            found.difference.job,
            found.difference.library,
            found.difference.due,
            file.display()
        );
        return 1;
    }
    print!("{}", answers::lines(&tally));
    println!("{command}: seed {seed}, {count} cases from {from}, 0 differences, {rate:.0} cases a second");
    0
}
