//! `convert --to basic`: texts for tools that read basic TLSF alone.

mod common;

use common::{with_bus, Folder, STARRED};

const BASIC: &str = "INFO { TITLE : \"converted\" DESCRIPTION : \"converted\" SEMANTICS : Mealy TARGET : Mealy } MAIN { INPUTS { r ; } OUTPUTS { g ; } GUARANTEE { \
( ( true ) -> ( ( true ) && ( ( ( G ( true ) ) && ( true ) ) -> ( ( G ( true ) ) && ( G ( ( r ) -> ( F ( g ) ) ) ) ) ) ) ) ; } }";

#[test]
fn document_01s_file_is_written_and_read_back() {
    let folder = Folder::new();
    let ran = folder.run_with_input(&["convert", "--to", "basic"], STARRED.as_bytes());
    assert_eq!((ran.status, ran.text().as_str(), ran.told.as_str()), (0, BASIC, ""));
    let ran = folder.run_with_input(&["convert"], BASIC.as_bytes());
    assert_eq!(ran.status, 0);
    assert!(ran.text().starts_with("accepted 29 2\n"));
}

#[test]
fn a_folder_receives_files_that_end_in_basic() {
    let folder = Folder::new();
    folder.file("t.tlsf", STARRED);
    folder.file("bus.tlsf", with_bus());
    let ran = folder.run(&["convert", "--to", "basic", "--out", "out", "t.tlsf", "bus.tlsf"]);
    assert_eq!(ran.status, 0, "{}", ran.told);
    assert_eq!(std::fs::read_to_string(folder.path.join("out/t.basic")).unwrap(), BASIC);
    let bus = std::fs::read_to_string(folder.path.join("out/bus.basic")).unwrap();
    assert!(bus.contains("INPUTS { b@0 ; b@1 ; b@2 ; b@3 ; b_3 ; }"), "{bus}");
}

#[test]
fn a_name_that_cannot_be_written_is_told_with_its_signal() {
    let folder = Folder::new();
    folder.file("t.tlsf", STARRED.replace("r;", "b@0; b[1]; r;"));
    let ran = folder.run(&["convert", "--to", "basic", "t.tlsf"]);
    assert_eq!((ran.status, ran.text().as_str()), (1, ""));
    assert!(
        ran.told
            .contains("t.tlsf: refused 22 at signal 1, b[0]: The writer calls bit i of bus b"),
        "{}",
        ran.told
    );
    folder.run(&["convert", "--to", "basic", "--out", "out", "t.tlsf"]);
    assert!(!folder.path.join("out/t.basic").exists());
}

#[test]
fn one_form_and_one_text_at_a_time_on_standard_output() {
    let folder = Folder::new();
    folder.file("t.tlsf", STARRED);
    folder.file("u.tlsf", STARRED);
    let ran = folder.run(&["convert", "--to", "basic", "--form", "1", "t.tlsf"]);
    assert_eq!(ran.status, 2);
    assert!(ran.told.contains("--to basic writes the formula as expanded"), "{}", ran.told);
    assert_eq!(folder.run(&["convert", "--to", "basic", "t.tlsf", "u.tlsf"]).status, 2);
}

#[test]
fn the_deepest_table_is_written() {
    let folder = Folder::new();
    let ran = folder.run_with_input(
        &["convert", "--to", "basic"],
        STARRED.replace("G (r -> F g)", "X[8170] r").as_bytes(),
    );
    assert_eq!(ran.status, 0, "{}", ran.told);
    assert_eq!(ran.out.len(), 49_261);
}
