//! Odd files and odd names, as they come to a desk: other line ends, marks of an editor, names that are no UTF-8, files that may not be read, and outputs
//! that would take the place of an input.

mod common;

use common::{Folder, Ran, HOLDS, STARRED, STARRED_LISTING};
use std::ffi::OsStr;
use std::fs::{self, Permissions};
use std::os::unix::ffi::OsStrExt;
use std::os::unix::fs::PermissionsExt;
use std::process::Command;

#[test]
fn other_line_ends_and_a_byte_order_mark() {
    let folder = Folder::new();
    folder.file("crlf.tlsf", STARRED.replace("} ", "}\r\n"));
    let ran = folder.run(&["convert", "crlf.tlsf"]);
    assert_eq!((ran.status, ran.text().as_str()), (0, STARRED_LISTING));
    folder.file("bad.tlsf", STARRED.replace("} ", "}\r\n").replace("F g", "F q"));
    let ran = folder.run(&["check", "bad.tlsf"]);
    assert!(ran.told.contains("bad.tlsf:4:23\n") && !ran.told.contains('\r'), "{}", ran.told);
    folder.file("marked.tlsf", format!("\u{feff}{STARRED}"));
    let ran = folder.run(&["check", "marked.tlsf"]);
    assert!(ran.status == 1 && ran.told.contains("marked.tlsf:1:1\n"), "{}", ran.told);
    assert!(
        ran.told.contains("error[2]: the file begins with a byte order mark\n"),
        "{}",
        ran.told
    );
    assert!(ran.told.contains("Save it as UTF-8 without byte order mark."), "{}", ran.told);
}

#[test]
fn names_that_are_no_utf_8() {
    let folder = Folder::new();
    let name = OsStr::from_bytes(b"n\xffme.tlsf");
    fs::write(folder.path.join(name), STARRED).expect("a file");
    folder.file("two\nlines.tlsf", "#");
    let mut command = folder.command();
    command
        .args(["convert", "--out", "out", "--report", "report.json"])
        .arg(name)
        .arg("two\nlines.tlsf");
    let ran = Ran::of(command.output().expect("the program starts"));
    assert_eq!(ran.status, 1);
    assert!(
        ran.told
            .starts_with("n\u{fffd}me.tlsf: accepted, 17 nodes, 2 signals\ntwo\u{fffd}lines.tlsf:1:1: error[2]"),
        "{}",
        ran.told
    );
    let written = folder.path.join("out").join(OsStr::from_bytes(b"n\xffme.listing"));
    assert_eq!(fs::read_to_string(written).ok().as_deref(), Some(STARRED_LISTING));
    let report: serde_json::Value = serde_json::from_slice(&folder.read("report.json")).expect("JSON");
    assert_eq!(report["summary"]["accepted"], 1);
}

/// As a user who may not do everything, in a folder where the program stands too.
fn run_as_nobody(folder: &Folder, arguments: &[&str]) -> Ran {
    let program = folder.path.join("vasculpi");
    fs::copy(env!("CARGO_BIN_EXE_vasculpi"), &program).expect("a copy of the program");
    let id = Command::new("id").arg("-u").output().expect("id").stdout;
    let mut command = Command::new(if id == b"0\n" { "setpriv" } else { "env" });
    if id == b"0\n" {
        command.args(["--reuid=65534", "--regid=65534", "--clear-groups"]);
    }
    Ran::of(
        command
            .arg(&program)
            .args(arguments)
            .current_dir(&folder.path)
            .output()
            .expect("the program starts"),
    )
}

#[test]
fn files_that_may_not_be_read_or_written() {
    let folder = Folder::new();
    let forbid = |name: &str, mode: u32| fs::set_permissions(folder.path.join(name), Permissions::from_mode(mode)).expect("a mode");
    folder.file("a.tlsf", STARRED);
    folder.file("b.tlsf", STARRED);
    for (name, mode) in [("open", 0o777), ("shut", 0o555)] {
        fs::create_dir(folder.path.join(name)).expect("a folder");
        forbid(name, mode);
    }
    forbid("", 0o755);
    forbid("a.tlsf", 0o000);
    let ran = run_as_nobody(&folder, &["convert", "--out", "open", "a.tlsf", "b.tlsf"]);
    assert_eq!(ran.status, 2);
    assert!(
        ran.told
            .starts_with("error: a.tlsf: cannot be read: Permission denied\nb.tlsf: accepted"),
        "{}",
        ran.told
    );
    assert_eq!(folder.names("open"), ["b.listing"]);
    let ran = run_as_nobody(&folder, &["convert", "--out", "shut", "b.tlsf"]);
    assert_eq!(
        (ran.status, ran.told.as_str()),
        (2, "error: shut/b.listing: cannot be written: Permission denied\n")
    );
    assert_eq!(folder.names("shut").len(), 0);
}

#[test]
fn no_output_takes_an_inputs_place() {
    let folder = Folder::new();
    folder.file("t.tlsf", STARRED);
    folder.file("t.txt", STARRED);
    folder.file("t.ltl", STARRED);
    folder.file("run", HOLDS);
    folder.file("run.csv", "r,g\n1,0\n");
    fs::hard_link(folder.path.join("run"), folder.path.join("same")).expect("a link");
    for arguments in [
        &["judge", "t.tlsf", "run", "--svg", "./run"][..],
        &["judge", "t.tlsf", "run", "--svg", "same"],
        &["judge", "t.txt", "run", "--svg", "t.txt"],
        &["record", "--spec", "t.tlsf", "--csv", "run.csv", "--loop", "0", "-o", "run.csv"],
        &["record", "--spec", "t.txt", "--csv", "run.csv", "--loop", "0", "-o", "t.txt"],
        &["convert", "t.tlsf", "t.txt", "--report", "t.txt"],
        &["convert", "t.tlsf", "t.ltl", "--to", "ltl", "--out", "."],
    ] {
        let ran = folder.run(arguments);
        assert_eq!((ran.status, ran.text().as_str()), (2, ""), "{arguments:?}");
        assert!(
            ran.told.ends_with(": cannot be written: the same command reads it\n"),
            "{}",
            ran.told
        );
    }
    assert_eq!(folder.read("run"), HOLDS);
    assert_eq!(
        (folder.read("t.txt"), folder.read("run.csv")),
        (STARRED.into(), "r,g\n1,0\n".into())
    );
    assert_eq!(folder.run(&["judge", "t.tlsf", "run", "--svg", "/dev/null"]).status, 0);
}

#[test]
fn equal_names_from_two_folders() {
    let folder = Folder::new();
    for name in ["a", "b"] {
        fs::create_dir(folder.path.join(name)).expect("a folder");
        folder.file(&format!("{name}/t.tlsf"), STARRED);
    }
    let ran = folder.run(&["convert", "--out", "out", "a/t.tlsf", "b/t.tlsf"]);
    assert_eq!(ran.status, 2);
    assert!(
        ran.told
            .starts_with("error: a/t.tlsf and b/t.tlsf would be written to one file in out: "),
        "{}",
        ran.told
    );
    assert!(!folder.path.join("out").exists());
    let ran = folder.run(&["convert", "a/t.tlsf", "b/t.tlsf"]);
    assert_eq!((ran.status, ran.text()), (0, STARRED_LISTING.repeat(2)));
}
