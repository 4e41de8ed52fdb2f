//! Texts nest up to some thousand brackets deep, so the walks run on a roomy stack.

use std::cell::Cell;
use std::thread;

const STACK_BYTES: usize = 128 << 20;

thread_local! {
    /// Whether this thread was started here, so that no further one is needed.
    static DEEP: Cell<bool> = const { Cell::new(false) };
}

/// Runs the work on a stack that is deep enough for every text within the limits.
pub fn deep<T: Send>(work: impl FnOnce() -> T + Send) -> T {
    if DEEP.get() {
        return work();
    }
    thread::scope(|scope| {
        let handle = thread::Builder::new()
            .stack_size(STACK_BYTES)
            .spawn_scoped(scope, || {
                DEEP.set(true);
                work()
            })
            .expect("a thread with a deep stack starts");
        match handle.join() {
            Ok(result) => result,
            Err(panic) => std::panic::resume_unwind(panic),
        }
    })
}
