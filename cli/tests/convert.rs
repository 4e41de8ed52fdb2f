//! `convert` and `check` on good and bad files.

mod common;

use common::{with_bus, Folder, STARRED, STARRED_LISTING};

#[test]
fn document_01s_listing_from_file_and_from_standard_input() {
    let folder = Folder::new();
    folder.file("t.tlsf", STARRED);
    for ran in [
        folder.run(&["convert", "t.tlsf"]),
        folder.run_with_input(&["convert"], STARRED.as_bytes()),
    ] {
        assert_eq!((ran.status, ran.text().as_str(), ran.told.as_str()), (0, STARRED_LISTING, ""));
    }
}

#[test]
fn nodes_are_the_tables_bytes() {
    let folder = Folder::new();
    let ran = folder.run_with_input(&["convert", "--to", "nodes", "-"], STARRED.as_bytes());
    assert_eq!(ran.out.len(), 17 * 4);
    assert_eq!(ran.out[12..16], [0x90, 0x00, 0x80, 0x00]);
}

#[test]
fn ltl_in_each_syntax_with_the_names_told() {
    let folder = Folder::new();
    let line = |arguments: &[&str]| {
        let ran = folder.run_with_input(&[&["convert", "--to", "ltl"], arguments].concat(), with_bus().as_bytes());
        assert_eq!(ran.status, 0);
        assert!(
            ran.told.contains("3 input b[3] b_3_2\n4 input b_3 b_3\n5 output g g\n"),
            "{}",
            ran.told
        );
        ran.text()
    };
    assert_eq!(
        line(&["--syntax", "spot"]),
        "true -> (true && ((G true && true) -> (G true && G (b_3_2 -> (b_3 W g)))))\n"
    );
    assert_eq!(
        line(&["--syntax", "spin"]),
        "true -> (true && (([] true && true) -> ([] true && [] (b_3_2 -> ((b_3 U g) || [] b_3)))))\n"
    );
    let common = line(&[]);
    assert!(!common.contains(['G', 'F', 'R', 'W', '[']), "{common}");
    assert!(!line(&["--form", "2"]).contains("&&"));
    let spot = folder.run_with_input(&["convert", "--syntax", "spot"], with_bus().as_bytes());
    assert_eq!(spot.text(), line(&["--syntax", "spot"]));
}

#[test]
fn json_has_counts_signals_and_nodes() {
    let folder = Folder::new();
    let ran = folder.run_with_input(&["convert", "--to", "json"], with_bus().as_bytes());
    let value: serde_json::Value = serde_json::from_slice(&ran.out).expect("JSON");
    assert_eq!(value["counts"]["signals"], 6);
    assert_eq!(value["signals"][3]["name"], "b[3]");
    assert_eq!(value["signals"][3]["ltl"], "b_3_2");
    assert_eq!(value["signals"][5]["direction"], "output");
    assert_eq!(
        value["nodes"].as_array().map(Vec::len),
        value["counts"]["nodes"].as_u64().map(|count| count as usize)
    );
}

#[test]
fn a_refusal_as_a_compiler_shows_it() {
    let folder = Folder::new();
    let text = STARRED.replace("F g", "F q").replace("MAIN", "\nMAIN");
    let ran = folder.run_with_input(&["convert"], text.as_bytes());
    assert_eq!((ran.status, ran.text().as_str()), (1, "refused 6 127\n"));
    for part in [
        "error[6]: unknown name 'q'",
        "standard input:2:59",
        "G (r -> F q)",
        "^ not declared",
        "explain 6",
    ] {
        assert!(ran.told.contains(part), "{part} in {}", ran.told);
    }
    let caret = ran.told.lines().find(|line| line.contains('^')).and_then(|line| line.find('^'));
    let name = ran.told.lines().find(|line| line.contains("F q")).and_then(|line| line.find("q)"));
    assert_eq!(caret, name);
}

#[test]
fn refusals_at_the_ends() {
    let folder = Folder::new();
    let told = |text: &[u8]| folder.run_with_input(&["check", "-"], text).told;
    assert!(told(b"").contains("standard input:1:1"));
    assert!(told(b"INFO {\n").contains("standard input:2:1"));
    assert!(told(&[b' '; 40_000]).contains("standard input:1:32769"));
    assert!(told(b"\x1b[2J\xff").contains("standard input:1:1"));
    assert!(!told(b"\x1b[2J\xff").contains('\x1b'));
    let deep = STARRED.replace("G (r", "X[8192] G (r");
    assert!(told(deep.as_bytes()).contains("error[16]: the formula has more than 8,192 nodes"));
}

#[test]
fn wrong_usage_is_2() {
    let folder = Folder::new();
    folder.file("a.tlsf", STARRED);
    std::fs::create_dir_all(folder.path.join("x")).expect("a folder");
    folder.file("x/a.tlsf", STARRED);
    for arguments in [
        &["convert", "--form", "3", "a.tlsf"][..],
        &["convert", "--to", "nodes", "a.tlsf", "x/a.tlsf"],
        &["convert", "--out", "out", "a.tlsf", "x/a.tlsf"],
        &["convert", "--to", "ltl", "--tick", "X", "a.tlsf"],
        &["convert", "--to", "listing", "--tick", "t", "a.tlsf"],
        &["convert", "--to", "json", "--syntax", "spin", "a.tlsf"],
        &["check"],
        &["explain", "24"],
        &["nothing"],
        &[],
    ] {
        let ran = folder.run(arguments);
        assert_eq!(ran.status, 2, "{arguments:?}");
        assert!(!ran.told.is_empty());
    }
}

#[test]
fn check_tells_refusals_only() {
    let folder = Folder::new();
    folder.file("a.tlsf", STARRED);
    folder.file("b.tlsf", "#");
    let status_and_silence = |files: &[&str]| {
        let ran = folder.run(&[&["check"], files].concat());
        assert_eq!(ran.text(), "");
        (ran.status, ran.told.is_empty())
    };
    assert_eq!(status_and_silence(&["a.tlsf", "a.tlsf"]), (0, true));
    assert_eq!(status_and_silence(&["a.tlsf", "b.tlsf"]), (1, false));
    assert_eq!(status_and_silence(&["a.tlsf", "b.tlsf", "missing"]), (2, false));
}

#[test]
fn the_manual_and_the_completions_know_every_command() {
    let folder = Folder::new();
    let help = folder.run(&["-h"]).text();
    let lines = help
        .lines()
        .skip_while(|line| *line != "Commands:")
        .skip(1)
        .take_while(|line| !line.is_empty());
    let commands: Vec<&str> = lines
        .filter_map(|line| line.split_whitespace().next())
        .filter(|word| *word != "help")
        .collect();
    assert!(commands.contains(&"convert") && commands.len() >= 7, "{commands:?}");
    let page = folder.run(&["man"]).text();
    assert!(page.contains(".TH VASCULPI 1 "));
    for shell in ["bash", "zsh", "fish"] {
        let script = folder.run(&["completion", shell]).text();
        for command in &commands {
            assert!(script.contains(*command), "{command} of {shell}");
            assert!(page.contains(&format!(".SS \"vasculpi {command}\"")), "{command}");
        }
        assert!(script.contains("vacuous-fails"));
    }
    assert!(page.contains("\\-\\-vacuous\\-fails") && !page.contains("worker"));
}

#[test]
fn explain_prints_the_pages() {
    let folder = Folder::new();
    let ran = folder.run(&["explain", "13"]);
    assert!(ran.status == 0 && ran.text().starts_with("13. A width or an index that does not fit\n\n"));
    assert!(ran.text().contains("To mend it: ") && !ran.text().contains("14. "));
    assert!(
        ran.text().contains("\nIts answer: refused 13 166\n") && !ran.text().contains('`'),
        "{}",
        ran.text()
    );
    assert!(
        ran.text()
            .contains("\nThe mended line:\n\n      GUARANTEE { G (button[1] -> F open); }\n"),
        "{}",
        ran.text()
    );
    let unused = folder.run(&["explain", "14"]);
    assert!(unused.text().contains("\nIts answer: accepted 18 2\n"), "{}", unused.text());
    assert_eq!(folder.run(&["explain"]).text().lines().count(), 23);
}
