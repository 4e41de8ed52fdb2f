//! The program on standard input and output.

use std::io::Write;
use std::process::{Command, Stdio};

fn run(arguments: &[&str], input: &[u8]) -> String {
    let mut child = Command::new(env!("CARGO_BIN_EXE_second"))
        .args(arguments)
        .stdin(Stdio::piped())
        .stdout(Stdio::piped())
        .spawn()
        .expect("the program starts");
    let mut stdin = child.stdin.take().expect("standard input is a pipe");
    // The program may stop reading a text that is too long.
    let _ = stdin.write_all(input);
    drop(stdin);
    let output = child.wait_with_output().expect("the program ends");
    String::from_utf8(output.stdout).expect("the listing is plain text")
}

#[test]
fn listings() {
    let text =
        b"INFO{TITLE:\"\"DESCRIPTION:\"\"SEMANTICS:Mealy TARGET:Mealy}MAIN{INPUTS{}OUTPUTS{}}";
    let listing = run(&["read"], text);
    assert!(listing.starts_with("accepted 13 0\n0 0 0 0\n"));
    assert!(listing.ends_with("\n12 6 0 11\n"));
    assert_eq!(run(&["read"], b""), "refused 4 0\n");
    assert!(run(&["write"], text).starts_with("INFO { TITLE : \"converted\" "));
    assert_eq!(run(&["write"], b""), "refused 4 0\n");
    assert_eq!(run(&["read"], &[b' '; 32769]), "refused 1 32768\n");
    assert_eq!(run(&["read"], &[b' '; 100_000]), "refused 1 32768\n");
    assert_eq!(run(&["read"], b" #"), "refused 2 1\n");
}

#[test]
fn generated_lines() {
    for command in ["cases", "rooms", "tables", "recordings"] {
        let once = run(&[command, "5", "40"], b"");
        assert_eq!(once.lines().count(), 40);
        assert_eq!(once, run(&[command, "5", "40"], b""));
        for line in once.lines() {
            assert!(
                line.contains(" accepted ") || line.contains(" refused "),
                "{line}"
            );
        }
    }
}
