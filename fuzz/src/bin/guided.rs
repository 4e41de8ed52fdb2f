//! Texts from AFL++ in its persistent mode: a difference aborts, so that AFL++ keeps the input. See `fuzz/guided`.
//! The proved library cannot be instrumented; the second converter is, and what is new to it is what AFL++ follows.

#[cfg(guided)]
mod loops {
    use compare::case::Case;
    use compare::library::PROVED;
    use fuzz::calls::{Caller, MOST_BYTES};
    use fuzz::state::State;
    use second::stack;

    extern "C" {
        fn __afl_manual_init();
        fn __afl_persistent_loop(count: u32) -> i32;
        static __afl_fuzz_ptr: *const u8;
        static __afl_fuzz_len: *const u32;
    }

    /// AFL++ looks for these in the program's bytes, so that they have to stay in it, each with its zero byte.
    const SIGNATURES: [&str; 2] = ["##SIG_AFL_PERSISTENT##\0", "##SIG_AFL_DEFER_FORKSRV##\0"];

    /// Texts come in shared memory.
    #[no_mangle]
    static __afl_sharedmem_fuzzing: i32 = 1;

    /// Texts before the process is started anew.
    const TEXTS: u32 = 20_000;

    /// Rooms and form follow from the text, so that it shows the same again.
    fn case_of(text: &[u8]) -> Case {
        let index = text.iter().fold(0u64, |sum, byte| {
            (sum ^ u64::from(*byte)).wrapping_mul(0x100_0000_01b3)
        });
        Case { seed: 1, index }
    }

    fn call(caller: &mut Caller, text: &[u8]) {
        let case = case_of(text);
        if let Err(difference) = caller.text(case, &mut case.rng(), text) {
            eprintln!("{difference:?}");
            std::process::abort();
        }
    }

    /// One text of a file, or texts from AFL++.
    pub fn run() {
        let file = std::env::args().nth(1);
        let state = std::env::temp_dir().join(format!("fuzz-guided-{}", std::process::id()));
        std::hint::black_box(SIGNATURES);
        unsafe { __afl_manual_init() };
        stack::deep(|| {
            let mut caller = Caller::new(PROVED, State::of(&state), false);
            std::fs::remove_file(&state).expect("the state's file is there");
            if let Some(file) = file {
                return call(
                    &mut caller,
                    &std::fs::read(file).expect("the text can be read"),
                );
            }
            while unsafe { __afl_persistent_loop(TEXTS) } != 0 {
                let text =
                    unsafe { std::slice::from_raw_parts(__afl_fuzz_ptr, *__afl_fuzz_len as usize) };
                call(&mut caller, &text[..text.len().min(MOST_BYTES)]);
            }
        });
    }
}

fn main() {
    #[cfg(guided)]
    loops::run();
    #[cfg(not(guided))]
    eprintln!("built without AFL++: use fuzz/guided");
}
