//! A day at the desk: folders of several makers, messages that can be sent to them, reports, and nothing of an earlier day left over.

mod common;

use common::{endless, with_bus, Folder, STARRED};
use serde_json::Value;
use std::fs;

/// Two makers with a file of the same name each, one of them as Windows spells it.
fn day() -> Folder {
    let folder = Folder::new();
    for below in ["in/makerA", "in/makerB/doors"] {
        fs::create_dir_all(folder.path.join(below)).expect("a folder");
    }
    folder.file("in/makerA/door.tlsf", STARRED);
    folder.file("in/makerA/notes.txt", "no text of a maker");
    folder.file("in/makerB/door.TLSF", with_bus());
    folder.file("in/makerB/doors/slip.tlsf", STARRED.replace("F g", "F h"));
    folder
}

#[test]
fn a_folder_is_converted_with_its_folders_kept() {
    let folder = day();
    let ran = folder.run(&["convert", "--to", "ltl", "--out", "out", "in"]);
    assert_eq!(ran.status, 1);
    assert_eq!(folder.names("out/makerA"), ["door.ltl", "door.names"]);
    assert_eq!(folder.names("out/makerB"), ["door.ltl", "door.names", "doors"]);
    assert_eq!(folder.names("out/makerB/doors"), ["slip.refused.txt"]);
    assert!(
        ran.told
            .starts_with("in/makerA/door.tlsf: accepted, 17 nodes, 2 signals\nin/makerB/door.TLSF: accepted"),
        "{}",
        ran.told
    );
    // By name the two would meet: that is told before anything is written.
    let ran = folder.run(&["convert", "--out", "flat", "in/makerA/door.tlsf", "in/makerB/door.TLSF"]);
    assert!(
        ran.status == 2 && ran.told.contains("name the folder that they stand in"),
        "{}",
        ran.told
    );
    assert!(!folder.path.join("flat").exists());
}

#[test]
fn the_message_can_be_sent_to_the_maker() {
    let folder = day();
    folder.run(&["convert", "--out", "out", "in"]);
    let message = String::from_utf8(folder.read("out/makerB/doors/slip.refused.txt")).expect("UTF-8");
    assert!(message.starts_with("error[6]: unknown name 'h'\n"), "{message}");
    assert!(
        message.contains("in/makerB/doors/slip.tlsf:1:127\n") && message.contains("G (r -> F h)"),
        "{message}"
    );
    assert!(!message.contains('\x1b'));
}

#[test]
fn nothing_of_an_earlier_day_is_left() {
    let folder = Folder::new();
    let convert = |text: &str| {
        folder.file("door.tlsf", text);
        folder
            .run(&["convert", "--to", "ltl", "--out", "out", "--seconds", "1", "door.tlsf"])
            .status
    };
    assert_eq!(
        (convert(STARRED), folder.names("out")),
        (0, vec!["door.ltl".into(), "door.names".into()])
    );
    let refused = vec!["door.refused.txt".to_string()];
    assert_eq!((convert(&STARRED.replace("F g", "F h")), folder.names("out")), (1, refused.clone()));
    assert_eq!(
        (convert(STARRED), folder.names("out")),
        (0, vec!["door.ltl".into(), "door.names".into()])
    );
    assert_eq!((convert(&endless()), folder.names("out")), (1, refused));
    let message = String::from_utf8(folder.read("out/door.refused.txt")).expect("UTF-8");
    assert_eq!(message, "error: door.tlsf: given up, out of time (--seconds)\n");
    // What cannot be read was perhaps not changed: its results stay.
    assert_eq!(convert(STARRED), 0);
    fs::remove_file(folder.path.join("door.tlsf")).expect("a file");
    assert_eq!(folder.run(&["convert", "--to", "ltl", "--out", "out", "door.tlsf"]).status, 2);
    assert_eq!(folder.names("out"), ["door.ltl", "door.names"]);
}

#[test]
fn quiet_tells_only_what_has_no_result() {
    let folder = day();
    let ran = folder.run(&["convert", "--quiet", "--out", "out", "in"]);
    assert_eq!(ran.told, "in/makerB/doors/slip.tlsf:1:127: error[6]: unknown name 'h'\n");
}

#[test]
fn lines_tell_their_files() {
    let folder = day();
    let ran = folder.run(&["convert", "--to", "ltl", "--syntax", "spot", "in"]);
    let files: Vec<&str> = ran
        .out
        .split(|&byte| byte == b'\n')
        .filter_map(|line| std::str::from_utf8(line).ok()?.split_once('\t'))
        .map(|line| line.0)
        .collect();
    assert_eq!(files, ["in/makerA/door.tlsf", "in/makerB/door.TLSF"]);
    let ran = folder.run(&["convert", "--to", "ltl", "in/makerA"]);
    assert!(!ran.text().contains('\t'));
    for arguments in [
        &["convert", "--report", "-", "in"][..],
        &["convert", "--to", "bosy", "in"],
        &["convert", "--to", "smv", "in"],
        &["convert", "--report", "no/day.html", "--out", "out", "in"],
    ] {
        let ran = folder.run(arguments);
        assert_eq!((ran.status, ran.text().as_str()), (2, ""), "{arguments:?}");
    }
    assert!(!folder.path.join("out").exists());
}

#[test]
fn the_report_has_all_that_is_needed_later() {
    let folder = day();
    for arguments in [
        &["convert", "--out", "out", "--report", "day.json", "in"][..],
        &["check", "--report", "day.json", "in"],
    ] {
        assert_eq!(folder.run(arguments).status, 1);
        let report: Value = serde_json::from_slice(&folder.read("day.json")).expect("JSON");
        let date = report["date"].as_str().expect("a date");
        assert!(date.len() == 20 && date.ends_with('Z'), "{date}");
        assert_eq!(report["program"], concat!("vasculpi ", env!("CARGO_PKG_VERSION")));
        let files = report["files"].as_array().expect("files");
        assert_eq!(files.len(), 3);
        for file in files {
            let path = file["file"].as_str().expect("a name");
            let sum = std::process::Command::new("sha256sum")
                .current_dir(&folder.path)
                .arg(path)
                .output()
                .expect("sha256sum");
            assert!(String::from_utf8_lossy(&sum.stdout).starts_with(file["sha256"].as_str().expect("a checksum")));
        }
        assert_eq!(
            (&files[0]["info"]["title"], &files[0]["info"]["target"]),
            (&"t".into(), &"Mealy".into())
        );
        assert_eq!((&files[2]["title"], &files[2]["line"]), (&"unknown name 'h'".into(), &1.into()));
        assert!(files[2]["message"].as_str().is_some_and(|message| message.contains("G (r -> F h)")));
    }
}

#[test]
fn the_page_of_the_day() {
    let folder = day();
    folder.file("in/makerA/odd <name>&.tlsf", STARRED.replace("\"t\"", "\"<b>bold</b>\""));
    let ran = folder.run(&["convert", "--out", "out", "--report", "day.html", "--report", "day.json", "in"]);
    assert_eq!(ran.status, 1, "{}", ran.told);
    let page = String::from_utf8(folder.read("day.html")).expect("UTF-8");
    assert!(page.starts_with("<!DOCTYPE html>") && page.trim_end().ends_with("</html>"));
    assert!(page.contains("<h1>4 TLSF files: 3 accepted, 1 refused</h1>"), "{page}");
    assert!(page.contains("in/makerA/odd &lt;name&gt;&amp;.tlsf") && page.contains("&lt;b&gt;bold&lt;/b&gt;"));
    assert!(!page.contains("<b>bold") && !page.contains("http"));
    assert!(page.contains("GUARANTEE { G (r -&gt; F h); }"), "{page}");
    assert_eq!(page.matches("class=\"entry\"").count(), 4);
    assert!(folder.read("day.json").starts_with(b"{"));
}

/// In a headless browser: the page is searched and printed. Looked at where there is one.
#[test]
fn the_page_in_a_browser() {
    let folder = day();
    folder.run(&["check", "--report", "day.html", "in"]);
    let page = String::from_utf8(folder.read("day.html")).expect("UTF-8");
    let searched = page.replace(
        "</body>",
        "<script>search.value = 'MAKERB/DOOR.'; search.dispatchEvent(new Event('input'));</script></body>",
    );
    folder.file("searched.html", searched);
    let browser = ["chromium", "chromium-headless-shell"]
        .into_iter()
        .find(|program| std::process::Command::new(program).arg("--version").output().is_ok());
    let Some(browser) = browser else {
        println!("no browser: the page is not looked at");
        return;
    };
    let run = |arguments: &[&str]| {
        let output = std::process::Command::new(browser)
            .args(["--headless", "--no-sandbox", "--disable-gpu"])
            .args(arguments)
            .arg(format!("file://{}/searched.html", folder.path.display()))
            .current_dir(&folder.path)
            .output()
            .expect("the browser starts");
        String::from_utf8_lossy(&output.stdout).into_owned()
    };
    let shown = run(&["--dump-dom"]);
    assert_eq!(shown.matches("hidden=\"\"").count(), 2, "{shown}");
    assert!(shown.contains(">1 of 3</span>"), "{shown}");
    run(&["--print-to-pdf=day.pdf"]);
    assert!(folder.read("day.pdf").starts_with(b"%PDF"));
    println!("the page of a day is searched and printed in {browser}");
}

#[test]
fn folders_that_lead_to_themselves() {
    let folder = day();
    std::os::unix::fs::symlink("..", folder.path.join("in/makerA/up")).expect("a link");
    let ran = folder.run(&["check", "--messages", "short", "in"]);
    assert_eq!(ran.status, 2);
    assert!(
        ran.told.contains("in/makerA/up: cannot be read: the folder leads to itself\n"),
        "{}",
        ran.told
    );
}
