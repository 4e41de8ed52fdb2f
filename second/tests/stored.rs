//! The stored cases of the crate `second_cases` are what `stored` writes.

use std::process::Command;

#[test]
fn stored_cases_are_what_is_written() {
    let directory = concat!(env!("CARGO_MANIFEST_DIR"), "/../crates/second_cases/specs");
    let run = Command::new(env!("CARGO_BIN_EXE_stored"))
        .args(["check", directory])
        .status();
    assert!(run.expect("the command runs").success());
}
