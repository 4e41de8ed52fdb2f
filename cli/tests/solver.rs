//! What solver makers take: other programs' input, INFO, parameters with other values, formulas without constants.

mod common;

use common::{with_bus, Folder, STARRED};
use serde_json::Value;

const ARBITER: &str = "INFO {
  TITLE: \"Arbiter\"
  DESCRIPTION: \"Every request is granted\"
  SEMANTICS: Mealy,Strict
  TARGET: Mealy
  TAGS: arbiter, \"two words\"
}
GLOBAL { PARAMETERS { n = 2; m = n + 1; } }
MAIN {
  INPUTS { r[n]; HREADY; } OUTPUTS { g[n]; max; }
  ASSERT { &&[0 <= i < n] (g[i] -> r[i]); }
  GUARANTEE { &&[0 <= i < n] G (r[i] -> F g[i]); G (max W HREADY); }
}
";

fn written(to: &str, arguments: &[&str], text: &str) -> String {
    let folder = Folder::new();
    let ran = folder.run_with_input(&[&["convert", "--to", to], arguments].concat(), text.as_bytes());
    assert_eq!(ran.status, 0, "{}", ran.told);
    ran.text()
}

#[test]
fn command_lines_of_solvers() {
    let formula = "true -> (true && ((G true && true) -> (G true && G (b_3_2 -> (b_3 W g)))))";
    let inputs = "b_0,b_1,b_2,b_3_2,b_3";
    assert_eq!(
        written("ltlsynt", &[], &with_bus()),
        format!("ltlsynt --formula='{formula}' --ins='{inputs}' --outs='g' # target Mealy\n")
    );
    assert_eq!(
        written("strix", &["--simplify"], &with_bus()),
        format!("strix -f 'G (b_3_2 -> (b_3 W g))' --ins='{inputs}' --outs='g' # target Mealy, simplified, which is not proved\n")
    );
}

#[test]
fn bosy_and_smv() {
    let moore = STARRED.replace("Mealy", "Moore");
    let object: Value = serde_json::from_str(&written("bosy", &[], &moore)).expect("JSON");
    assert_eq!(
        (&object["semantics"], &object["inputs"][0], &object["outputs"][0]),
        (&"moore".into(), &"r".into(), &"g".into())
    );
    assert_eq!(
        object["guarantees"][0],
        "true -> (true && ((G true && true) -> (G true && G (r -> F g))))"
    );
    let module = written("smv", &["--simplify"], ARBITER);
    let due = "-- Arbiter, target Mealy
-- simplified, which is not proved
MODULE main
  VAR
    r_0 : boolean; -- input r[0]
    r_1 : boolean; -- input r[1]
    p_HREADY : boolean; -- input HREADY
    g_0 : boolean; -- output g[0]
    g_1 : boolean; -- output g[1]
    p_max : boolean; -- output max
";
    assert!(module.starts_with(due), "{module}");
    assert!(module.contains("G ((p_max U p_HREADY) | G p_max)"), "{module}");
    assert!(module.contains("  LTLSPEC ") && !module.contains("&&") && !module.contains("true"));
}

#[test]
fn the_texts_own_names_in_quotes() {
    let line = written("ltl", &["--syntax", "spot", "--quoted-names", "--simplify"], &with_bus());
    assert_eq!(line, "G (\"b[3]\" -> (\"b_3\" W \"g\"))\n");
    let folder = Folder::new();
    let ran = folder.run_with_input(&["convert", "--quoted-names"], STARRED.as_bytes());
    assert_eq!(
        (ran.status, ran.told.as_str()),
        (2, "error: --quoted-names goes with --syntax spot\n")
    );
}

#[test]
fn info_prints_what_a_text_says_of_itself() {
    let folder = Folder::new();
    folder.file("t.tlsf", ARBITER);
    let due = "title: Arbiter
description: Every request is granted
semantics: Mealy,Strict
target: Mealy
tags: arbiter, two words
parameter: n = 2
parameter: m = n + 1
input: r[2]
input: HREADY
output: g[2]
output: max
ASSERT: 1 line
GUARANTEE: 2 lines
formula: 36 nodes, 6 signals
";
    assert_eq!(folder.run(&["info", "t.tlsf"]).text(), due);
    assert!(folder.run(&["info", "t.tlsf", "--set", "n=4"]).text().contains("input: r[4]\n"));
    let json: Value = serde_json::from_str(&written("json", &[], ARBITER)).expect("JSON");
    assert_eq!(json["info"]["semantics"], "Mealy,Strict");
    assert_eq!(json["info"]["tags"][1], "two words");
}

#[test]
fn parameters_with_other_values() {
    let folder = Folder::new();
    folder.file("t.tlsf", ARBITER);
    let signals = |arguments: &[&str]| {
        let ran = folder.run(&[&["convert", "--to", "json", "t.tlsf"], arguments].concat());
        assert_eq!(ran.status, 0, "{}", ran.told);
        let json: Value = serde_json::from_slice(&ran.out).expect("JSON");
        json["signals"].as_array().map(Vec::len).unwrap_or(0)
    };
    assert_eq!(
        (signals(&[]), signals(&["--set", "n=4"]), signals(&["--set", "n=1", "--set", "m=9"])),
        (6, 10, 4)
    );
    // Places are told in the text as it is written.
    folder.file("slip.tlsf", ARBITER.replace("max W", "mxa W"));
    let told = |arguments: &[&str]| folder.run(&[&["check", "slip.tlsf"], arguments].concat()).told;
    assert_eq!(told(&["--set", "n=123"]), told(&[]));
    let ran = folder.run(&["convert", "t.tlsf", "--set", "k=1"]);
    assert_eq!(
        (ran.status, ran.told.as_str()),
        (1, "error: t.tlsf: --set k: the text has no such parameter\n")
    );
    assert_eq!(folder.run(&["convert", "t.tlsf", "--set", "n"]).status, 2);
}

#[test]
fn names_tell_the_model() {
    let folder = Folder::new();
    folder.file("t.tlsf", ARBITER);
    folder.run(&["convert", "--to", "ltl", "--out", "out", "t.tlsf"]);
    let names = String::from_utf8(folder.read("out/t.names")).expect("UTF-8");
    assert!(
        names.starts_with("# Arbiter\n# semantics Mealy,Strict, target Mealy\n0 input r[0] r_0\n"),
        "{names}"
    );
}
