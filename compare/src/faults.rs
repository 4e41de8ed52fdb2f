//! The library with a planted fault: each entry point calls the proved one and then spoils something, as wrong code would have.

use crate::library::{Job, Library, TextCall, PROVED};
use std::sync::atomic::{AtomicUsize, Ordering};

/// What a call was lent and what it answered; no buffer where the entry point has none.
pub struct Left {
    pub answer: u64,
    pub input: *mut u8,
    pub input_size: usize,
    pub work: *mut u8,
    pub work_size: usize,
    pub nodes: *mut u32,
    pub node_room: usize,
    pub signals: *mut u32,
    pub signal_room: usize,
    /// The rows, or the basic text.
    pub rows: *mut u8,
    pub rows_size: usize,
}

impl Left {
    pub fn refused(&self) -> bool {
        self.answer >> 63 == 1
    }

    /// The first of the two counts of an accepted answer.
    pub fn node_count(&self) -> usize {
        (self.answer >> 32) as usize
    }

    pub fn signal_count(&self) -> usize {
        self.answer as u32 as usize
    }
}

/// Which entry points spoil what they leave.
#[derive(Clone, Copy, PartialEq)]
pub enum Where {
    Texts,
    Tables,
    Recordings,
    Reaches,
    BasicTexts,
    Diagnoses,
}

pub struct Fault {
    pub name: &'static str,
    pub entry: Where,
    pub spoil: unsafe fn(&mut Left),
}

const NONE: usize = 0;

/// The address of the planted fault, or `NONE`.
static PLANTED: AtomicUsize = AtomicUsize::new(NONE);

/// The library with this fault, until another is planted.
pub fn planted(fault: &'static Fault) -> Library {
    PLANTED.store(fault as *const Fault as usize, Ordering::SeqCst);
    Library {
        read,
        convert,
        rewrite,
        evaluate,
        reach,
        write,
        diagnose,
    }
}

unsafe fn spoiled(entry: Where, mut left: Left) -> u64 {
    let address = PLANTED.load(Ordering::SeqCst);
    if address != NONE {
        let fault = &*(address as *const Fault);
        if fault.entry == entry {
            (fault.spoil)(&mut left);
        }
    }
    left.answer
}

/// No buffers at all.
fn nothing(answer: u64) -> Left {
    Left {
        answer,
        input: std::ptr::null_mut(),
        input_size: 0,
        work: std::ptr::null_mut(),
        work_size: 0,
        nodes: std::ptr::null_mut(),
        node_room: 0,
        signals: std::ptr::null_mut(),
        signal_room: 0,
        rows: std::ptr::null_mut(),
        rows_size: 0,
    }
}

unsafe fn spoiled_text(job: Job, call: TextCall) -> u64 {
    let left = Left {
        input: call.text.0.cast_mut(),
        input_size: call.text.1,
        work: call.work.0,
        work_size: call.work.1,
        nodes: call.nodes.0,
        node_room: call.nodes.1,
        signals: call.signals.0,
        signal_room: call.signals.1,
        ..nothing(PROVED.text(job, call))
    };
    spoiled(Where::Texts, left)
}

unsafe extern "C" fn read(
    text: *const u8,
    size: usize,
    work: *mut u8,
    work_size: usize,
    nodes: *mut u32,
    node_room: usize,
    signals: *mut u32,
    signal_room: usize,
) -> u64 {
    let call = TextCall {
        text: (text, size),
        work: (work, work_size),
        nodes: (nodes, node_room),
        signals: (signals, signal_room),
    };
    spoiled_text(Job::Read, call)
}

unsafe extern "C" fn convert(
    text: *const u8,
    size: usize,
    form: u32,
    work: *mut u8,
    work_size: usize,
    nodes: *mut u32,
    node_room: usize,
    signals: *mut u32,
    signal_room: usize,
) -> u64 {
    let call = TextCall {
        text: (text, size),
        work: (work, work_size),
        nodes: (nodes, node_room),
        signals: (signals, signal_room),
    };
    spoiled_text(Job::Convert(form), call)
}

unsafe extern "C" fn rewrite(
    nodes: *const u32,
    count: usize,
    form: u32,
    out: *mut u32,
    room: usize,
) -> u64 {
    let left = Left {
        input: nodes.cast_mut().cast(),
        input_size: 4 * count,
        nodes: out,
        node_room: room,
        ..nothing((PROVED.rewrite)(nodes, count, form, out, room))
    };
    spoiled(Where::Tables, left)
}

unsafe extern "C" fn evaluate(
    nodes: *const u32,
    count: usize,
    signals: u32,
    recording: *const u8,
    size: usize,
    rows: *mut u8,
    room: usize,
) -> u64 {
    let answer = (PROVED.evaluate)(nodes, count, signals, recording, size, rows, room);
    let left = Left {
        input: recording.cast_mut(),
        input_size: size,
        rows,
        rows_size: room,
        ..nothing(answer)
    };
    spoiled(Where::Recordings, left)
}

unsafe extern "C" fn reach(nodes: *const u32, count: usize) -> u64 {
    let left = Left {
        input: nodes.cast_mut().cast(),
        input_size: 4 * count,
        ..nothing((PROVED.reach)(nodes, count))
    };
    spoiled(Where::Reaches, left)
}

unsafe extern "C" fn write(
    text: *const u8,
    size: usize,
    work: *mut u8,
    work_size: usize,
    out: *mut u8,
    room: usize,
) -> u64 {
    let answer = (PROVED.write)(text, size, work, work_size, out, room);
    let left = Left {
        input: text.cast_mut(),
        input_size: size,
        work,
        work_size,
        rows: out,
        rows_size: room,
        ..nothing(answer)
    };
    spoiled(Where::BasicTexts, left)
}

unsafe extern "C" fn diagnose(
    text: *const u8,
    text_size: usize,
    recording: *const u8,
    recording_size: usize,
    work: *mut u8,
    work_size: usize,
    rows: *mut u8,
    room: usize,
) -> u64 {
    let answer = (PROVED.diagnose)(
        text,
        text_size,
        recording,
        recording_size,
        work,
        work_size,
        rows,
        room,
    );
    let left = Left {
        input: recording.cast_mut(),
        input_size: recording_size,
        work,
        work_size,
        rows,
        rows_size: room,
        ..nothing(answer)
    };
    spoiled(Where::Diagnoses, left)
}
