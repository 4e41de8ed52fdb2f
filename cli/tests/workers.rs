//! Workers that end: by a fault of their stack, or from outside, as the system would end them.

mod common;

use common::{endless, Folder, Ran, STARRED};
use second::corpus::deep;
use std::fs;
use std::process::{Child, Command, Stdio};
use std::thread::sleep;
use std::time::{Duration, Instant};

struct Process {
    id: String,
    parent: u32,
    /// Hundredths of a second on a processor.
    used: u64,
}

fn process(id: String) -> Option<Process> {
    let stat = fs::read_to_string(format!("/proc/{id}/stat")).ok()?;
    let fields: Vec<&str> = stat.rsplit(')').next()?.split_whitespace().collect();
    Some(Process {
        id,
        parent: fields.get(1)?.parse().ok()?,
        used: fields.get(11)?.parse().ok()?,
    })
}

fn workers(program: &Child) -> Vec<Process> {
    let entries = fs::read_dir("/proc").expect("processes");
    let ids = entries.flatten().map(|entry| entry.file_name().to_string_lossy().into_owned());
    let all = ids.filter(|id| id.bytes().all(|byte| byte.is_ascii_digit())).filter_map(process);
    all.filter(|process| process.parent == program.id()).collect()
}

fn end(worker: &Process, signal: &str) {
    let sent = Command::new("sh")
        .args(["-c", &format!("kill -s {signal} {}", worker.id)])
        .stderr(Stdio::null())
        .status();
    sent.expect("sh");
}

/// How many texts have a result in a folder.
fn listings(folder: &Folder, below: &str) -> usize {
    folder.names(below).iter().filter(|name| name.ends_with(".listing")).count()
}

fn start(folder: &Folder, arguments: &[&str]) -> Child {
    let mut command = folder.command();
    command
        .args(arguments)
        .stdin(Stdio::null())
        .stdout(Stdio::piped())
        .stderr(Stdio::piped());
    command.spawn().expect("the program starts")
}

/// Does something now and then until it is done.
fn persist(mut done: impl FnMut() -> bool) {
    let patience = Instant::now() + Duration::from_secs(60);
    while !done() {
        assert!(Instant::now() < patience, "nothing comes of it");
        sleep(Duration::from_millis(10));
    }
}

#[test]
fn a_worker_that_ends_takes_no_other_file_with_it() {
    for (signal, told) in [("KILL", "SIGKILL"), ("SEGV", "SIGSEGV"), ("ABRT", "SIGABRT")] {
        let folder = Folder::new();
        let mut files: Vec<String> = (0..40).map(|number| format!("{number:02}.tlsf")).collect();
        for file in &files {
            folder.file(file, STARRED);
        }
        files[7] = "endless.tlsf".to_string();
        folder.file("endless.tlsf", endless());
        let names: Vec<&str> = files.iter().map(String::as_str).collect();
        let options = ["convert", "--seconds", "0", "--out", "out", "--report", "report.json"];
        let mut program = start(&folder, &[&options[..], &names].concat());
        persist(|| {
            for worker in workers(&program).iter().filter(|worker| worker.used >= 20) {
                end(worker, signal);
            }
            program.try_wait().expect("its state").is_some()
        });
        let ran = Ran::of(program.wait_with_output().expect("the program ends"));
        assert_eq!(ran.status, 1, "{}", ran.told);
        let line = ran.told.lines().find(|line| line.contains("endless")).unwrap_or_default();
        assert!(
            line.starts_with("error: endless.tlsf: the conversion ended without an answer (signal: "),
            "{line}"
        );
        assert!(line.contains(told), "{line}");
        assert!(
            ran.told.contains(": 39 accepted, 0 refused, 1 ended without a result\n"),
            "{}",
            ran.told
        );
        assert_eq!(listings(&folder, "out"), 39);
        let report: serde_json::Value = serde_json::from_slice(&folder.read("report.json")).expect("JSON");
        assert_eq!(
            (&report["summary"]["broken"], &report["files"][7]["answer"]),
            (&1.into(), &"broken".into())
        );
    }
}

#[test]
fn a_worker_that_ends_between_texts_harms_none() {
    let folder = Folder::new();
    folder.file("a.tlsf", STARRED);
    let made = Command::new("mkfifo")
        .current_dir(&folder.path)
        .arg("later.tlsf")
        .status()
        .expect("mkfifo");
    assert!(made.success());
    // On one thread the pipe is read after the first text, and the program waits there.
    let mut command = folder.command();
    command
        .env("RAYON_NUM_THREADS", "1")
        .args(["convert", "--out", "out", "a.tlsf", "later.tlsf"]);
    let program = command.stderr(Stdio::piped()).spawn().expect("the program starts");
    persist(|| folder.path.join("out/a.listing").exists());
    let waiting = workers(&program);
    assert_eq!(waiting.len(), 1);
    end(&waiting[0], "KILL");
    fs::write(folder.path.join("later.tlsf"), STARRED).expect("a text through the pipe");
    let ran = Ran::of(program.wait_with_output().expect("the program ends"));
    assert_eq!((ran.status, folder.names("out").len()), (0, 2), "{}", ran.told);
}

#[test]
fn a_message_waits_for_no_endless_text() {
    let folder = Folder::new();
    let text = endless();
    // With the brace that is missing at its end, or another type, the text would take for ever.
    folder.file("open.tlsf", text.trim_end_matches(['}', ' ']));
    folder.file("type.tlsf", text.replace("== 0;", "== 0; 7;"));
    let start = Instant::now();
    let ran = Ran::of(
        folder
            .command()
            .args(["check", "--seconds", "0", "open.tlsf", "type.tlsf"])
            .output()
            .expect("the program starts"),
    );
    assert_eq!(ran.status, 1);
    assert!(ran.told.contains("error[4]: the text ends too early"), "{}", ran.told);
    assert!(ran.told.contains("error[9]: wrong type"), "{}", ran.told);
    assert!(start.elapsed() < Duration::from_secs(30));
}

#[test]
fn workers_end_with_the_program() {
    let folder = Folder::new();
    folder.file("endless.tlsf", endless());
    let mut program = start(&folder, &["check", "--seconds", "0", "endless.tlsf"]);
    persist(|| workers(&program).iter().any(|worker| worker.used >= 5));
    let left = workers(&program);
    program.kill().expect("the program is ended");
    program.wait().expect("it ends");
    persist(|| left.iter().all(|worker| process(worker.id.clone()).is_none()));
}

// Rust ends a process by SIGABRT where a thread meets the end of its stack, the system by SIGSEGV where it steps beyond.
fn ended_by_its_stack(line: &str) -> bool {
    let of_text = line.starts_with("error: deep") && line.contains(".tlsf: the conversion ended without an answer (signal: ");
    of_text && (line.contains("SIGABRT") || line.contains("SIGSEGV"))
}

#[test]
fn a_stack_that_is_too_small_takes_no_other_file_with_it() {
    let folder = Folder::new();
    let deep = deep::texts();
    let mut files: Vec<String> = (0..deep.len()).map(|number| format!("deep{number}.tlsf")).collect();
    for (file, stored) in files.iter().zip(&deep) {
        folder.file(file, &stored.text);
    }
    for number in 0..20 {
        files.insert(2 * number, format!("{number}.tlsf"));
        folder.file(&files[2 * number], STARRED);
    }
    let convert = |stack: &str, out: &str| {
        let mut command = folder.command();
        command
            .env("VASCULPI_STACK", stack)
            .args(["convert", "--out", out, "--report", "report.json"]);
        let ran = Ran::of(command.args(&files).output().expect("the program starts"));
        let report: serde_json::Value = serde_json::from_slice(&folder.read("report.json")).expect("JSON");
        (ran, report["summary"].clone())
    };
    let (ran, summary) = convert("768", "small");
    let ended = ran.told.lines().filter(|line| ended_by_its_stack(line)).count();
    assert_eq!((ran.status, &summary["broken"]), (1, &ended.into()), "{}", ran.told);
    assert!(
        ended > 0 && ran.told.contains(&format!(", {ended} ended without a result\n")),
        "{}",
        ran.told
    );
    let small = folder.names("small");
    assert!((0..20).all(|number| small.contains(&format!("{number}.listing"))), "{small:?}");
    assert_eq!(listings(&folder, "small"), summary["accepted"]);
    // With the stack that they have otherwise, all end.
    let (ran, summary) = convert("", "all");
    assert_eq!(
        (&summary["broken"], &summary["out of time"]),
        (&0.into(), &0.into()),
        "{}",
        ran.told
    );
    assert_eq!(listings(&folder, "all"), summary["accepted"]);
}
