//! Many files in one run, files that cannot be read or written, workers that end, and nobody who reads.

mod common;

use common::{endless, with_bus, Folder, Ran, STARRED, STARRED_LISTING};
use std::fs;
use std::io::Read;
use std::os::unix::fs::{symlink, MetadataExt};
use std::process::{Command, Stdio};

#[test]
fn one_bad_file_never_stops_the_others() {
    let folder = Folder::new();
    folder.file("a.tlsf", STARRED);
    folder.file("b.tlsf", "#");
    folder.file("c.tlsf", endless());
    folder.file("e.tlsf", with_bus());
    fs::create_dir(folder.path.join("none")).expect("a folder");
    let files = ["a.tlsf", "b.tlsf", "c.tlsf", "missing.tlsf", "none", "e.tlsf"];
    let options = [
        "convert",
        "--to",
        "ltl",
        "--out",
        "out",
        "--seconds",
        "1",
        "--report",
        "report.json",
    ];
    let ran = folder.run(&[&options[..], &files].concat());
    assert_eq!(ran.status, 2);
    assert_eq!(
        folder.names("out"),
        ["a.ltl", "a.names", "b.refused.txt", "c.refused.txt", "e.ltl", "e.names"]
    );
    let lines: Vec<&str> = ran.told.lines().collect();
    assert_eq!(lines[0], "a.tlsf: accepted, 17 nodes, 2 signals");
    assert_eq!(lines[1], "b.tlsf:1:1: error[2]: unexpected character '#'");
    assert_eq!(lines[2], "error: c.tlsf: given up, out of time (--seconds)");
    assert!(lines[3].starts_with("error: missing.tlsf: cannot be read: "));
    assert_eq!(lines[4], "error: none: no .tlsf file in this folder");
    assert!(lines[5].starts_with("e.tlsf: accepted, "));
    assert!(ran.told.contains(
        "2 accepted, 1 refused, 1 given up, out of time (--seconds), 2 unreadable\n     1 refused by 2: What begins here is no token\n"
    ));
    let report: serde_json::Value = serde_json::from_slice(&folder.read("report.json")).expect("JSON");
    assert_eq!(report["summary"]["refused"]["2"], 1);
    assert_eq!(report["summary"]["out of time"], 1);
    let answers: Vec<&str> = report["files"]
        .as_array()
        .expect("files")
        .iter()
        .filter_map(|file| file["answer"].as_str())
        .collect();
    assert_eq!(
        answers,
        ["accepted", "refused", "out of time", "unreadable", "unreadable", "accepted"]
    );
}

#[test]
fn outputs_are_whole_or_not_there() {
    let folder = Folder::new();
    folder.file("a.tlsf", STARRED);
    folder.file("b.tlsf", STARRED);
    folder.file("taken", "");
    let ran = folder.run(&["convert", "--out", "taken", "a.tlsf"]);
    assert_eq!(ran.status, 2);
    assert!(ran.told.contains("taken: the folder cannot be made"), "{}", ran.told);
    fs::create_dir_all(folder.path.join("out/a.listing")).expect("a folder in the way");
    let ran = folder.run(&["convert", "--out", "out", "a.tlsf", "b.tlsf"]);
    assert_eq!(ran.status, 2);
    assert!(ran.told.contains("a.listing: cannot be written"), "{}", ran.told);
    assert_eq!(folder.names("out"), ["a.listing", "b.listing"]);
    assert_eq!(folder.read("out/b.listing"), STARRED_LISTING.as_bytes());
    let ran = folder.run(&["convert", "--report", "no/such/folder.json", "a.tlsf"]);
    assert_eq!((ran.status, ran.text().as_str()), (2, ""));
    assert_eq!(ran.told, "error: no/such/folder.json: cannot be written: there is no such folder\n");
}

#[test]
fn a_pipe_closed_early_is_no_fault() {
    let folder = Folder::new();
    let large = STARRED.replace("F g", "X[8000] g");
    let files: Vec<String> = (0..20).map(|number| format!("{number}.tlsf")).collect();
    for file in &files {
        folder.file(file, &large);
    }
    let mut child = folder
        .command()
        .arg("convert")
        .args(&files)
        .stdout(Stdio::piped())
        .stderr(Stdio::piped())
        .spawn()
        .expect("the program starts");
    let mut first = [0; 8];
    child
        .stdout
        .take()
        .expect("its output")
        .read_exact(&mut first)
        .expect("some output");
    assert_eq!(&first, b"accepted");
    let ran = Ran::of(child.wait_with_output().expect("the program ends"));
    assert_eq!(ran.status, 0);
    assert!(ran.told.contains("20 accepted, 0 refused"));
}

#[test]
fn a_full_device_is_told() {
    let folder = Folder::new();
    folder.file("a.tlsf", STARRED);
    let full = fs::OpenOptions::new().write(true).open("/dev/full").expect("a full device");
    let ran = Ran::of(
        folder
            .command()
            .args(["convert", "a.tlsf"])
            .stdout(full)
            .output()
            .expect("the program starts"),
    );
    assert_eq!(ran.status, 2);
    assert!(ran.told.contains("standard output: cannot be written"), "{}", ran.told);
    assert_eq!(folder.run(&["convert", "--report", "/dev/full", "a.tlsf"]).status, 2);
}

#[test]
fn nobody_to_be_told() {
    let folder = Folder::new();
    folder.file("b.tlsf", "#");
    let program = env!("CARGO_BIN_EXE_vasculpi");
    let closed = format!("'{program}' check b.tlsf 2>&-; test $? = 1 && '{program}' convert b.tlsf >&- 2>&-; test $? -lt 3");
    let ran = Ran::of(
        Command::new("sh")
            .current_dir(&folder.path)
            .args(["-c", &closed])
            .output()
            .expect("sh"),
    );
    assert_eq!(ran.status, 0);
}

/// In a shell that runs `before` first.
fn run_after(folder: &Folder, before: &str, arguments: &str) -> Ran {
    let program = env!("CARGO_BIN_EXE_vasculpi");
    let command = format!("{before}; exec '{program}' {arguments}");
    let output = Command::new("sh").current_dir(&folder.path).args(["-c", &command]).output();
    Ran::of(output.expect("sh"))
}

#[test]
fn a_full_disk_leaves_no_part_of_a_file() {
    let folder = Folder::new();
    folder.file("large.tlsf", STARRED.replace("F g", "X[8000] g"));
    folder.file("small.tlsf", STARRED);
    // What a full disk does to a write, a limit of 1 KiB for a file does too.
    let limit = "trap '' XFSZ; ulimit -f 2";
    let ran = run_after(&folder, limit, "convert --to ltl --out out large.tlsf small.tlsf");
    assert_eq!(ran.status, 2);
    assert!(
        ran.told.contains("error: out/large.ltl: cannot be written: File too large\n"),
        "{}",
        ran.told
    );
    assert!(ran.told.contains(": 1 accepted, 0 refused, 1 not written\n"), "{}", ran.told);
    assert_eq!(folder.names("out"), ["small.ltl", "small.names"]);
    folder.file("out/large.ltl", "as before");
    let ran = run_after(&folder, limit, "convert --to ltl --out out large.tlsf");
    assert_eq!((ran.status, folder.read("out/large.ltl")), (2, b"as before".to_vec()));
    assert_eq!(folder.names("out"), ["large.ltl", "small.ltl", "small.names"]);
}

#[test]
fn files_that_belong_together_come_together() {
    let folder = Folder::new();
    folder.file("a.tlsf", STARRED);
    fs::create_dir_all(folder.path.join("out/a.names")).expect("a folder in the way");
    let ran = folder.run(&["convert", "--to", "ltl", "--out", "out", "a.tlsf"]);
    assert_eq!(
        (ran.status, ran.told.as_str()),
        (2, "error: out/a.names: cannot be written: it is a folder\n")
    );
    assert_eq!(folder.names("out"), ["a.names"]);
}

#[test]
fn files_with_the_same_bytes_stay_as_they_are() {
    let folder = Folder::new();
    let convert = |text: &str| {
        folder.file("a.tlsf", text);
        assert_eq!(folder.run(&["convert", "--out", "out", "a.tlsf"]).status, 0);
        fs::metadata(folder.path.join("out/a.listing")).expect("a listing").ino()
    };
    let first = convert(STARRED);
    assert_eq!(convert(&STARRED.replace("G (r", "G  (r")), first);
    let changed = STARRED.replace("r -> F g", "g -> F r");
    assert_ne!(convert(&changed), first);
    let listing = folder.run(&["convert", "a.tlsf"]).out;
    assert!(listing.len() == STARRED_LISTING.len() && folder.read("out/a.listing") == listing);
    assert_eq!(folder.names("out"), ["a.listing"]);
}

#[test]
fn texts_are_not_written_over_and_links_are_followed() {
    let folder = Folder::new();
    folder.file("a.tlsf", STARRED);
    folder.file("b.tlsf", STARRED);
    let ran = folder.run(&["convert", "--report", "a.tlsf", "b.tlsf"]);
    assert_eq!(
        (ran.status, ran.told.as_str()),
        (2, "error: a.tlsf: a report is not written to a .tlsf file\n")
    );
    assert_eq!(folder.read("a.tlsf"), STARRED.as_bytes());
    folder.file("real.json", "");
    symlink("real.json", folder.path.join("link.json")).expect("a link");
    assert_eq!(folder.run(&["convert", "--report", "link.json", "b.tlsf"]).status, 0);
    assert!(folder.read("real.json").starts_with(b"{") && folder.path.join("link.json").is_symlink());
    assert_eq!(folder.names(""), ["a.tlsf", "b.tlsf", "link.json", "real.json"]);
}

#[test]
fn standard_input_and_output_in_place_of_files() {
    let folder = Folder::new();
    folder.file("a.tlsf", STARRED);
    let ran = folder.run_with_input(&["check", "-", "a.tlsf", "-"], STARRED.as_bytes());
    assert_eq!(
        (ran.status, ran.told.as_str()),
        (2, "error: standard input: can stand for one file only\n")
    );
    let ran = folder.run_with_input(&["convert", "--out", "out", "--report", "-"], STARRED.as_bytes());
    assert_eq!((ran.status, folder.names("out")), (0, vec!["standard-input.listing".to_string()]));
    assert!(ran.text().starts_with('{'));
}

#[test]
fn colours_and_a_bar_on_a_terminal_only() {
    let folder = Folder::new();
    folder.file("a.tlsf", STARRED);
    folder.file("b.tlsf", "#");
    let program = env!("CARGO_BIN_EXE_vasculpi");
    let on_a_terminal = |variables: &str, arguments: &str| {
        let command = format!("{variables} '{program}' {arguments}");
        let output = Command::new("script")
            .current_dir(&folder.path)
            .args(["-qec", &command, "/dev/null"])
            .stdin(Stdio::null())
            .output();
        Ran::of(output.expect("script")).text()
    };
    assert!(on_a_terminal("NO_COLOR=", "check b.tlsf").contains("\x1b["));
    assert!(!on_a_terminal("NO_COLOR=1", "check b.tlsf").contains("\x1b["));
    assert!(on_a_terminal("", "convert --out out a.tlsf b.tlsf").contains("of 2 files"));
    let ran = folder.run(&["convert", "--out", "out", "a.tlsf", "b.tlsf"]);
    assert!(!ran.told.contains("of 2 files") && !ran.told.contains('\x1b'));
}
