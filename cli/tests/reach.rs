//! `reach`: how many letters decide, in words.

mod common;

use common::{Folder, FAILS, STARRED};

const UNBOUNDED: &str = "unbounded: no number of letters decides";

/// The starred text with another line.
fn text(line: &str) -> String {
    STARRED.replace("G (r -> F g)", line)
}

fn reach(line: &str, form: &str) -> String {
    let folder = Folder::new();
    folder.file("t.tlsf", text(line));
    let ran = folder.run(&["reach", "--form", form, "t.tlsf"]);
    assert_eq!((ran.status, ran.told.as_str()), (0, ""), "{line}");
    ran.text()
}

#[test]
fn in_words_and_the_same_in_every_form() {
    for form in ["0", "1", "2"] {
        assert_eq!(reach("r -> X X X g", form), "reach 3: letters 0 to 3 decide\n");
        assert_eq!(reach("(X r) <-> X (true && g)", form), "reach 1: letters 0 to 1 decide\n");
        assert_eq!(reach("r || g", form), "reach 0: letter 0 decides\n");
        assert_eq!(reach("X G true", form), "reach 0: letter 0 decides\n");
        assert_eq!(reach("G (r -> F g)", form), format!("{UNBOUNDED}\n"));
        assert_eq!(reach("false && G r", form), format!("{UNBOUNDED}\n"));
    }
}

/// Two recordings that agree on letters 0 to the reach get one verdict; one letter fewer is not enough.
#[test]
fn what_the_number_promises() {
    let folder = Folder::new();
    folder.file("t.tlsf", text("r -> X g"));
    let recording = |letters: u8| [0x00, 0x30, 0x02, 0x02, letters];
    for (name, letters) in [("both", 0b1001_0000), ("later", 0b1001_1100), ("earlier", 0b1000_0000)] {
        folder.file(name, recording(letters));
    }
    assert_eq!(folder.run(&["reach", "t.tlsf"]).text(), "reach 1: letters 0 to 1 decide\n");
    assert_eq!(folder.run(&["judge", "t.tlsf", "both"]).text(), "holds\n");
    assert_eq!(folder.run(&["judge", "t.tlsf", "later"]).text(), "holds\n");
    assert!(folder.run(&["judge", "t.tlsf", "earlier"]).text().starts_with("fails\n"));
}

#[test]
fn many_files_and_those_without_an_answer() {
    let folder = Folder::new();
    folder.file("near.tlsf", text("X g"));
    folder.file("far.tlsf", STARRED);
    folder.file("bad.tlsf", "#");
    let ran = folder.run(&["reach", "near.tlsf", "far.tlsf"]);
    assert_eq!(ran.status, 0);
    assert_eq!(
        ran.text(),
        format!("near.tlsf: reach 1: letters 0 to 1 decide\nfar.tlsf: {UNBOUNDED}\n")
    );
    let ran = folder.run(&["reach", "bad.tlsf", "near.tlsf"]);
    assert_eq!(
        (ran.status, ran.text().as_str()),
        (1, "near.tlsf: reach 1: letters 0 to 1 decide\n")
    );
    assert!(ran.told.starts_with("bad.tlsf:1:1: error[2]"), "{}", ran.told);
    let ran = folder.run(&["reach", "bad.tlsf"]);
    assert!(
        (ran.status, ran.text().as_str()) == (1, "") && ran.told.contains("unexpected character '#'"),
        "{}",
        ran.told
    );
    assert_eq!(folder.run(&["reach", "missing", "near.tlsf"]).status, 2);
    assert_eq!(folder.run(&["reach"]).status, 2);
    folder.file("no-text", FAILS);
    assert_eq!(folder.run(&["reach", "no-text"]).status, 1);
    let ran = folder.run_with_input(&["reach", "-"], text("X g").as_bytes());
    assert_eq!((ran.status, ran.text().as_str()), (0, "reach 1: letters 0 to 1 decide\n"));
}
