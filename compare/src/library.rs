//! The proved library's entry points as a table of functions, so that one with a planted fault can take its place.

pub mod linked {
    //! What is linked; the functions are made public for the table.
    include!("../../include/tlsf.rs");

    use super::Library;

    pub const LIBRARY: Library = Library {
        read: tlsf_read,
        convert: tlsf_convert,
        rewrite: tlsf_rewrite,
        evaluate: tlsf_evaluate,
        reach: tlsf_reach,
        write: tlsf_write_basic,
        diagnose: tlsf_diagnose,
    };
}

pub type Read =
    unsafe extern "C" fn(*const u8, usize, *mut u8, usize, *mut u32, usize, *mut u32, usize) -> u64;

pub type Convert = unsafe extern "C" fn(
    *const u8,
    usize,
    u32,
    *mut u8,
    usize,
    *mut u32,
    usize,
    *mut u32,
    usize,
) -> u64;

pub type Rewrite = unsafe extern "C" fn(*const u32, usize, u32, *mut u32, usize) -> u64;

pub type Evaluate =
    unsafe extern "C" fn(*const u32, usize, u32, *const u8, usize, *mut u8, usize) -> u64;

pub type Reach = unsafe extern "C" fn(*const u32, usize) -> u64;

pub type Write = unsafe extern "C" fn(*const u8, usize, *mut u8, usize, *mut u8, usize) -> u64;

pub type Diagnose =
    unsafe extern "C" fn(*const u8, usize, *const u8, usize, *mut u8, usize, *mut u8, usize) -> u64;

#[derive(Clone, Copy)]
pub struct Library {
    pub read: Read,
    pub convert: Convert,
    pub rewrite: Rewrite,
    pub evaluate: Evaluate,
    pub reach: Reach,
    pub write: Write,
    pub diagnose: Diagnose,
}

/// The library as linked.
pub const PROVED: Library = linked::LIBRARY;

/// How a text is handed to the library.
#[derive(Clone, Copy, Debug, PartialEq)]
pub enum Job {
    Read,
    Convert(u32),
}

impl Job {
    pub fn name(self) -> &'static str {
        match self {
            Job::Read => "read",
            Job::Convert(0) => "convert, form 0",
            Job::Convert(1) => "convert, form 1",
            Job::Convert(2) => "convert, form 2",
            Job::Convert(_) => "convert, no form",
        }
    }
}

/// A text and the three buffers lent with it, each a pointer and a number of cells.
#[derive(Clone, Copy)]
pub struct TextCall {
    pub text: (*const u8, usize),
    pub work: (*mut u8, usize),
    pub nodes: (*mut u32, usize),
    pub signals: (*mut u32, usize),
}

impl Library {
    /// Reads or converts.
    ///
    /// # Safety
    /// As include/tlsf.h asks of a caller.
    pub unsafe fn text(&self, job: Job, call: TextCall) -> u64 {
        let (text, size) = call.text;
        let (work, work_size) = call.work;
        let (nodes, node_room) = call.nodes;
        let (list, list_room) = call.signals;
        match job {
            Job::Read => (self.read)(
                text, size, work, work_size, nodes, node_room, list, list_room,
            ),
            Job::Convert(form) => (self.convert)(
                text, size, form, work, work_size, nodes, node_room, list, list_room,
            ),
        }
    }
}
