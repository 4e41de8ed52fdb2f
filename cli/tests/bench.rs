//! Runs as benches have them: tables and dumps judged by name, many at once, with the reason for each verdict.

mod common;

use common::drawing;
use common::Folder;

const LIFT: &str = "INFO {
  TITLE: \"Lift\"
  DESCRIPTION: \"A lift's door\"
  SEMANTICS: Mealy
  TARGET: Mealy
}
MAIN {
  INPUTS { call; moving; }
  OUTPUTS { open; lamp[2]; }
  ASSUME { G F !moving; }
  ASSERT { open -> !moving; }
  GUARANTEE { G (call -> F open); lamp[0] W open; }
}
";

fn lift() -> Folder {
    let folder = Folder::new();
    folder.file("lift.tlsf", LIFT);
    folder.file("good.csv", "call,moving,open,lamp[0],lamp[1]\n1,0,0,1,0\n0,0,1,1,1\n0,0,0,0,0\n");
    folder.file("vacuous.csv", "call,moving,open,lamp[0],lamp[1]\n1,0,0,1,0\n0,1,1,1,1\n0,1,0,0,0\n");
    folder.file(
        "failing.csv",
        "t;moving;open;lamp_0;lamp_1;call\r\n0,1;0;0;1;0;0\r\n0,2;0;0;1;0;1\r\n0,3;0;0;1;0;0\r\n",
    );
    folder
}

#[test]
fn many_tables_at_once() {
    let folder = lift();
    let options = ["judge", "lift.tlsf", "good.csv", "vacuous.csv", "failing.csv", "--loop", "last"];
    let ran = folder.run(&[&options[..], &["--ignore-other-columns"]].concat());
    let due = "good.csv: holds
vacuous.csv: holds
  nothing was owed: ASSUME line 1 is false at position 0
    lift.tlsf:10:12: G F !moving
    !moving holds nowhere from 1 on
  ASSERT line 1 is false at position 1 (which was not owed)
    lift.tlsf:11:12: open -> !moving
failing.csv: fails
  GUARANTEE line 1 is false at position 0
    lift.tlsf:12:15: G (call -> F open)
    call holds at 1, and open nowhere from there on
";
    assert_eq!((ran.status, ran.text().as_str()), (1, due), "{}", ran.told);
    assert_eq!(ran.told, "3 runs: 2 hold, 1 fail\n");
    // A table that cannot be read stops none of the others.
    let ran = folder.run(&options);
    assert_eq!(ran.status, 3);
    assert!(ran.text().starts_with("good.csv: holds\nvacuous.csv: holds\n"));
    assert!(ran.told.starts_with("error: the text has no signal \"t\""), "{}", ran.told);
    assert!(ran.told.ends_with("3 runs: 2 hold, 0 fail, 1 not judged\n"), "{}", ran.told);
}

#[test]
fn a_vacuous_run_has_a_status_of_its_own() {
    let folder = lift();
    let status = |arguments: &[&str]| folder.run(&[&["judge", "lift.tlsf", "--loop", "last"], arguments].concat()).status;
    assert_eq!(status(&["vacuous.csv"]), 0);
    assert_eq!(status(&["vacuous.csv", "--vacuous-fails"]), 4);
    assert_eq!(status(&["good.csv", "--vacuous-fails"]), 0);
    assert_eq!(status(&["good.csv", "vacuous.csv", "--vacuous-fails"]), 4);
    assert_eq!(
        status(&["failing.csv", "vacuous.csv", "--ignore-other-columns", "--vacuous-fails"]),
        1
    );
    // The same run with the loop over all of it owes everything.
    let ran = folder.run(&["judge", "lift.tlsf", "--loop", "0", "vacuous.csv", "--vacuous-fails"]);
    let due = "fails\n  ASSERT line 1 is false at position 1\n    lift.tlsf:11:12: open -> !moving\n";
    assert_eq!((ran.status, ran.text().as_str()), (1, due));
}

#[test]
fn what_excuses_a_run() {
    let folder = Folder::new();
    let text = |semantics: &str| {
        format!(
            "INFO {{ TITLE: \"t\" DESCRIPTION: \"d\" SEMANTICS: {semantics} TARGET: Mealy }} MAIN {{ INPUTS {{ a; b; }} OUTPUTS {{ c; }}
             INITIALLY {{ a; }} PRESET {{ !c; }} REQUIRE {{ true; b; }} ASSERT {{ c || !c; }} GUARANTEE {{ G !c; }} }}"
        )
    };
    let judge = |semantics: &str, rows: &str| {
        folder.file("t.tlsf", text(semantics));
        folder.file("run.csv", format!("a,b,c\n{rows}"));
        folder.run(&["judge", "t.tlsf", "run.csv", "--loop", "last"]).text()
    };
    assert_eq!(
        judge("Mealy", "0,1,1\n"),
        "holds\n  nothing was owed: INITIALLY line 1 is false at position 0\n    t.tlsf:2:26: a\n  \
         PRESET line 1 is false at position 0 (which was not owed)\n    t.tlsf:2:40: !c\n    c is true at 0\n"
    );
    // Under strict semantics ASSERT is owed as long as REQUIRE holds.
    let later = "1,1,0\n1,1,0\n1,0,0\n";
    let required = |owed: &str, at: usize| format!("holds\n  {owed}: REQUIRE line 2 is false at position {at}\n    t.tlsf:2:62: b\n");
    assert_eq!(judge("Mealy", later), required("nothing but PRESET was owed", 2));
    assert_eq!(judge("Mealy,Strict", later), required("ASSERT was owed before position 2 only", 2));
    assert_eq!(judge("Mealy,Strict", "1,0,0\n"), required("nothing but PRESET was owed", 0));
    assert_eq!(judge("Mealy", "1,1,0\n"), "holds\n");
}

/// Under strict semantics ASSUME stands before GUARANTEE, and before nothing else.
#[test]
fn what_a_broken_assumption_leaves_owed() {
    let folder = Folder::new();
    let judge = |sections: &str, rows: &str| {
        let info = "TITLE: \"t\" DESCRIPTION: \"d\" SEMANTICS: Mealy,Strict TARGET: Mealy";
        folder.file(
            "t.tlsf",
            format!("INFO {{ {info} }} MAIN {{ INPUTS {{ a; }} OUTPUTS {{ c; }} {sections} }}"),
        );
        folder.file("run.csv", format!("a,c\n{rows}"));
        let ran = folder.run(&["judge", "t.tlsf", "run.csv", "--loop", "last", "--vacuous-fails"]);
        (ran.status, ran.text().lines().nth(1).unwrap_or_default().trim().to_string())
    };
    let told = |said: &str| format!("{said}: ASSUME line 1 is false at position 0");
    assert_eq!(
        judge("ASSUME { a; } ASSERT { c; } GUARANTEE { !c; }", "0,1\n"),
        (4, told("GUARANTEE was not owed"))
    );
    assert_eq!(judge("ASSUME { a; } GUARANTEE { c; }", "0,0\n"), (4, told("nothing was owed")));
    assert_eq!(judge("ASSUME { a; } ASSERT { c; }", "0,1\n"), (0, String::new()));
    let broken = "ASSERT line 1 is false at position 0".to_string();
    assert_eq!(judge("ASSUME { a; } ASSERT { c; } GUARANTEE { !c; }", "0,0\n"), (1, broken));
}

/// The line that the library names, with its number, its bus, and the position where its bits are read.
#[test]
fn implied_lines_are_named() {
    let folder = Folder::new();
    let judge = |target: &str, rows: &str| {
        let info = format!("TITLE: \"t\" DESCRIPTION: \"d\" SEMANTICS: Mealy TARGET: {target}");
        let global = "DEFINITIONS { enum Two = A: 10 B: 01; enum All = C: 0 D: 1; }";
        let main = "INPUTS { Two in; } OUTPUTS { All v; Two o; Two p; } ASSERT { true; v == C; }";
        folder.file("t.tlsf", format!("INFO {{ {info} }} GLOBAL {{ {global} }} MAIN {{ {main} }}"));
        folder.file("run.csv", format!("in_0,in_1,v_0,o_0,o_1,p_0,p_1\n{rows}"));
        folder.run(&["judge", "t.tlsf", "run.csv", "--loop", "last"]).text()
    };
    let good = "1,0,0,1,0,0,1\n";
    assert_eq!(judge("Mealy", good), "holds\n");
    // All of v's words are named: it implies no line, o the third and p the fourth.
    let implied = |line: usize, at: usize, said: &str| {
        format!("fails\n  ASSERT line {line}, an implied one, is false at position {at}: {said}, which no identifier of Two names\n")
    };
    assert_eq!(judge("Mealy", &format!("{good}1,0,0,1,1,0,1\n")), implied(3, 1, "o is 11"));
    assert_eq!(judge("Mealy", &format!("{good}{good}1,0,0,1,0,0,0\n")), implied(4, 2, "p is 00"));
    assert_eq!(judge("Mealy", "1,0,0,0,0,0,0\n"), implied(3, 0, "o is 00"));
    assert!(judge("Mealy", "1,0,1,1,0,0,0\n").contains("ASSERT line 2 is false at position 0\n"));
    // Converted to Moore, the outputs are read one position later.
    assert_eq!(
        judge("Moore", &format!("{good}{good}1,0,0,1,0,0,0\n")),
        implied(4, 1, "p is 00 at 2")
    );
    assert_eq!(judge("Moore", &format!("1,0,0,1,1,0,0\n{good}")), "holds\n");
    // An input's line is an assumption.
    let excused = "holds\n  nothing was owed: REQUIRE is false at position 0: in is 11, which no identifier of Two names\n";
    assert_eq!(judge("Mealy", "1,1,0,0,0,0,1\n"), excused);
}

const BARRIER: &str = "INFO { TITLE: \"t\" DESCRIPTION: \"d\" SEMANTICS: Mealy TARGET: Mealy }
GLOBAL { PARAMETERS { n = 3; } DEFINITIONS { enum Colour = RED: 00 AMBER: 01 GREEN: 10; } }
MAIN {
  INPUTS { r[n]; } OUTPUTS { g[n]; Colour lamp; }
  GUARANTEE { &&[0 <= i < n] G (r[i] -> F g[i]); G (lamp == GREEN -> X lamp != RED); }
}
";

#[test]
fn the_bit_and_the_position_that_are_to_blame() {
    let folder = Folder::new();
    folder.file("t.tlsf", BARRIER);
    let run = |rows: &str| {
        folder.file("run.csv", format!("r_0,r_1,r_2,g_0,g_1,g_2,lamp_0,lamp_1\n{rows}"));
        let ran = folder.run(&["judge", "t.tlsf", "run.csv", "--loop", "last", "--svg", "run.svg"]);
        (
            ran.text(),
            drawing::strips(&String::from_utf8(folder.read("run.svg")).expect("UTF-8")),
        )
    };
    let (told, strips) = run("0,0,0,0,0,0,0,0\n0,0,0,0,0,0,1,0\n0,0,1,0,0,0,0,1\n0,0,0,0,0,0,0,0\n");
    assert!(told.ends_with("    r[2] holds at 2, and g[2] nowhere from there on\n"), "{told}");
    assert_eq!(
        strips[0].values,
        [("lamp".to_string(), ["RED", "GREEN", "AMBER", "RED"].map(str::to_string).to_vec())]
    );
    let (told, strips) = run("0,0,0,0,0,0,0,0\n0,0,0,0,0,0,1,1\n0,0,0,0,0,0,0,0\n");
    assert_eq!(
        told,
        "fails\n  ASSERT line 1, an implied one, is false at position 1: lamp is 11, which no identifier of Colour names\n"
    );
    assert_eq!(strips[0].values[0].1, ["RED", "11", "RED"]);
    let (told, _) = run("0,0,0,0,0,0,1,0\n0,0,0,0,0,0,0,0\n");
    assert!(told.contains("GUARANTEE line 2 is false at position 0\n"), "{told}");
    assert!(
        told.ends_with("lamp[0] && !lamp[1] holds at 0, X !(!lamp[0] && !lamp[1]) does not\n"),
        "{told}"
    );
}

#[test]
fn a_star_of_an_enumeration_is_both() {
    let folder = Folder::new();
    let text = BARRIER.replace("RED: 00 AMBER: 01 GREEN: 10", "RED: 0* GREEN: 10");
    folder.file("t.tlsf", text.replace("G (lamp == GREEN -> X lamp != RED);", ""));
    folder.file(
        "run.csv",
        "r_0,r_1,r_2,g_0,g_1,g_2,lamp_0,lamp_1\n0,0,0,0,0,0,0,1\n0,0,0,0,0,0,1,0\n",
    );
    let ran = folder.run(&["judge", "t.tlsf", "run.csv", "--loop", "last", "--svg", "run.svg"]);
    assert_eq!(ran.text(), "holds\n");
    let strips = drawing::strips(&String::from_utf8(folder.read("run.svg")).expect("UTF-8"));
    assert_eq!(strips[0].values[0].1, ["RED", "GREEN"]);
}

#[test]
fn signals_and_positions_of_a_picture() {
    let folder = Folder::new();
    folder.file("t.tlsf", BARRIER);
    folder.file(
        "run.csv",
        format!("r_0,r_1,r_2,g_0,g_1,g_2,lamp_0,lamp_1\n{}", "1,0,0,1,0,0,0,0\n".repeat(50)),
    );
    let run = |arguments: &[&str]| {
        let all = [&["judge", "t.tlsf", "run.csv", "--loop", "0", "--svg", "run.svg"], arguments].concat();
        let ran = folder.run(&all);
        (ran.status, ran.told)
    };
    assert_eq!(run(&["--signals", "r,g[1]", "--positions", "20..29"]).0, 0);
    let strips = drawing::strips(&String::from_utf8(folder.read("run.svg")).expect("UTF-8"));
    let titles: Vec<&str> = strips[0].rows.iter().take(4).map(|row| row.title.as_str()).collect();
    assert_eq!(titles, ["r[0]", "r[1]", "r[2]", "g[1]"]);
    let numbers: Vec<usize> = strips[0].numbers.iter().map(|number| number.0).collect();
    assert_eq!(numbers, (20..30).collect::<Vec<usize>>());
    assert_eq!(strips.len(), 1);
    assert_eq!(
        run(&["--positions", "50..60"]),
        (2, "error: --positions: the last position is 49\n".to_string())
    );
    assert_eq!(
        run(&["--signals", "lmap"]),
        (2, "error: --signals: the text has no signal lmap: did you mean lamp?\n".to_string())
    );
    assert_eq!(run(&["--positions", "9..2"]).0, 2);
    assert_eq!(
        run(&["run.csv"]),
        (2, "error: --svg draws one run: judge them one by one\n".to_string())
    );
}

const DUMP: &str = "$timescale 1ns $end
$scope module bench $end
$var wire 1 ! clk $end
$var wire 1 a call $end
$var wire 1 b moving $end
$scope module door $end
$var wire 1 c open $end
$var reg 2 d lamp [1:0] $end
$upscope $end
$upscope $end
$enddefinitions $end
#0
$dumpvars
0! 0a 0b 0c b1 d
$end
#5 1! 1a
#10 0!
#15 1! 0a 1c b11 d
#20 0!
#25 1!
#30 0!
";

#[test]
fn a_value_change_dump_is_a_run() {
    let folder = lift();
    folder.file("run.vcd", DUMP);
    let ran = folder.run(&["judge", "lift.tlsf", "run.vcd", "--clock", "clk", "--loop", "last"]);
    assert_eq!((ran.status, ran.text().as_str()), (0, "holds\n"), "{}", ran.told);
    let ran = folder.run(&[
        "record",
        "--spec",
        "lift.tlsf",
        "--csv",
        "run.vcd",
        "--clock",
        "clk",
        "--loop",
        "last",
        "-o",
        "run.rec",
    ]);
    assert_eq!(ran.status, 0);
    let shown = folder.run(&["show", "run.rec", "--spec", "lift.tlsf"]);
    assert_eq!(shown.text(), "call,moving,open,lamp[0],lamp[1]\n0,0,0,1,0\n1,0,0,1,0\n0,0,1,1,1\n");
    let ran = folder.run(&["judge", "lift.tlsf", "run.vcd", "--step", "10", "--loop", "last"]);
    assert_eq!((ran.status, ran.text().as_str()), (0, "holds\n"), "{}", ran.told);
    let ran = folder.run(&["judge", "lift.tlsf", "run.vcd", "--loop", "last"]);
    assert!(ran.status == 2 && ran.told.contains("--clock NAME"), "{}", ran.told);
    let ran = folder.run(&["judge", "lift.tlsf", "run.vcd", "--clock", "klk", "--loop", "last"]);
    assert!(
        ran.status == 3 && ran.told.contains("no variable klk of one bit (it has clk)"),
        "{}",
        ran.told
    );
}

#[test]
fn tables_of_other_programs() {
    let folder = lift();
    let table = "call\tmoving\topen\tlamp_0\tlamp_1\tÖldruck\r\n1\t0\t0\t1\t0\t3\r\n0\t0\t1\t1\t1\t3\r\n";
    let utf_16: Vec<u8> = "\u{feff}"
        .encode_utf16()
        .chain(table.encode_utf16())
        .flat_map(u16::to_le_bytes)
        .collect();
    folder.file("excel.txt", utf_16);
    let latin: Vec<u8> = table
        .chars()
        .map(|c| u8::try_from(u32::from(c)).expect("a letter of Latin-1"))
        .collect();
    folder.file("old.txt", latin);
    for file in ["excel.txt", "old.txt"] {
        let ran = folder.run(&["judge", "lift.tlsf", file, "--loop", "0", "--ignore-other-columns"]);
        assert_eq!((ran.status, ran.text().as_str()), (0, "holds\n"), "{}", ran.told);
    }
    let ran = folder.run(&["judge", "lift.tlsf", "good.csv"]);
    assert!(
        ran.status == 2 && ran.told.contains("--loop last repeats the last one"),
        "{}",
        ran.told
    );
    folder.file("noname", "call,moving,open,lamp[0],lamp[1]\n1,0,1,1,0\n");
    assert_eq!(folder.run(&["judge", "lift.tlsf", "noname", "--loop", "last"]).text(), "holds\n");
}
