//! That the run can fail: a worker with a planted fault has to end with a finding.

use crate::watch::{End, Watch};
use compare::faults::{planted, Fault, Left, Where};
use compare::library::Library;
use second::limits::WORK_BYTES;

const SEED: u64 = 7;

/// Cases within which a fault has to be seen.
const CASES: u64 = 3_000;

const fn fault(entry: Where, name: &'static str, spoil: unsafe fn(&mut Left)) -> Fault {
    Fault { name, entry, spoil }
}

static FAULTS: [Fault; 14] = [
    fault(Where::Texts, "reads behind the text", read_behind),
    fault(Where::Texts, "reads before the text", read_before),
    fault(Where::Texts, "writes behind the nodes", write_behind),
    fault(Where::Texts, "writes before the signals", write_before),
    fault(Where::Texts, "writes behind the work buffer", write_work),
    fault(Where::Recordings, "writes behind the rows", write_rows),
    fault(Where::Texts, "does not clear the work buffer", not_cleared),
    fault(Where::Tables, "answers another place", other_place),
    fault(Where::Reaches, "reads behind the table", read_behind),
    fault(Where::Diagnoses, "reads behind the recording", read_behind),
    fault(Where::Diagnoses, "writes behind its rows", write_rows),
    fault(
        Where::BasicTexts,
        "writes behind the basic text",
        write_rows,
    ),
    fault(
        Where::BasicTexts,
        "reads before the writer's text",
        read_before,
    ),
    fault(Where::Texts, "does not end", no_end),
];

/// The library with one of the faults.
pub fn library(number: usize) -> Library {
    planted(&FAULTS[number])
}

/// Runs a worker for each fault; yields the exit status: 0 where each was seen, and nothing without one.
pub fn report() -> i32 {
    let mut missed = 0;
    for (number, fault) in FAULTS.iter().enumerate() {
        let mut watch = Watch::new(SEED, Some(number));
        watch.library_limit = 1.0;
        match watch.watch(0, u64::from(u32::MAX), CASES) {
            End::Finding(what) => {
                println!(
                    "{}: seen in case {} ({what})",
                    fault.name,
                    watch.state.at().0
                );
            }
            _ => {
                println!("{}: NOT SEEN in {CASES} cases", fault.name);
                missed += 1;
            }
        }
    }
    if let End::Finding(what) = Watch::new(SEED, None).watch(0, u64::from(u32::MAX), CASES) {
        println!("without a fault: {what}");
        missed += 1;
    }
    println!("fuzz/run: {} planted faults, {missed} missed", FAULTS.len());
    i32::from(missed > 0)
}

unsafe fn read_behind(left: &mut Left) {
    std::ptr::read_volatile(left.input.add(left.input_size));
}

unsafe fn read_before(left: &mut Left) {
    std::ptr::read_volatile(left.input.sub(1));
}

unsafe fn write_behind(left: &mut Left) {
    *left.nodes.add(left.node_room) = 1;
}

unsafe fn write_before(left: &mut Left) {
    *left.signals.sub(1) ^= 1;
}

unsafe fn write_work(left: &mut Left) {
    *left.work.add(left.work_size) ^= 1;
}

unsafe fn write_rows(left: &mut Left) {
    *left.rows.add(left.rows_size) ^= 1;
}

unsafe fn not_cleared(left: &mut Left) {
    if left.work_size >= WORK_BYTES {
        *left.work.add(WORK_BYTES - 1) = 1;
    }
}

unsafe fn other_place(left: &mut Left) {
    if left.refused() {
        left.answer ^= 1;
    }
}

unsafe fn no_end(_: &mut Left) {
    loop {
        std::hint::spin_loop();
    }
}
