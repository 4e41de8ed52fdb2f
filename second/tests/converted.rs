//! Texts that state one model and target the other (02, F-2): where the X stand, what counts, and what is written.

mod common;
use common::*;
use second::answer::Answer;
use second::basic;
use second::limits::WORK_BYTES;
use second::meaning::meaning;
use second::node::Node;
use second::reader::Reading;
use second::recording::Lasso;

/// The text with these models instead of Mealy and Mealy.
fn models(text: &str, semantics: &str, target: &str) -> String {
    let text = text.replacen("TARGET: Mealy", &format!("TARGET: {target}"), 1);
    text.replacen("SEMANTICS: Mealy", &format!("SEMANTICS: {semantics}"), 1)
}

fn to_mealy(text: &str) -> String {
    models(text, "Moore", "Mealy")
}

fn to_moore(text: &str) -> String {
    models(text, "Mealy", "Moore")
}

fn listed(nodes: &[u32], from: usize, to: usize) -> Vec<(u32, usize, usize)> {
    let fields = |bits: &u32| {
        (
            Node(*bits).kind(),
            Node(*bits).first(),
            Node(*bits).second(),
        )
    };
    nodes[from..=to].iter().map(fields).collect()
}

const FILE: &str =
    "INFO { TITLE: \"t\" DESCRIPTION: \"d\" SEMANTICS: Mealy TARGET: Mealy } MAIN { \
                    INPUTS { r; } OUTPUTS { g; } GUARANTEE { G (r -> F g); } }";

#[test]
fn document_01s_file() {
    let count = |reading: &Reading| {
        reading.answer
            == Answer::Accepted {
                nodes: 18,
                signals: 2,
            }
    };
    let mealy = accepted(&to_mealy(FILE));
    assert!(count(&mealy));
    assert_eq!(
        listed(&mealy.nodes, 8, 12),
        [(2, 0, 0), (8, 8, 0), (2, 1, 0), (10, 10, 0), (6, 9, 11)]
    );
    let moore = accepted(&to_moore(FILE));
    assert!(count(&moore));
    assert_eq!(
        listed(&moore.nodes, 8, 12),
        [(2, 0, 0), (2, 1, 0), (8, 9, 0), (10, 10, 0), (6, 8, 11)]
    );
    // Equal models give the nodes they gave; the signal list does not show the conversion.
    assert_eq!(
        accepted(&models(FILE, "Moore", "Moore")).nodes,
        accepted(FILE).nodes
    );
    assert_eq!(mealy.signals, accepted(FILE).signals);
}

/// The line as Moore for Mealy, and as Mealy for Moore; a and b are inputs s0 and s1, c and v outputs s2 and s3 to s5.
#[track_caller]
fn shifts(line: &str, mealy: &str, moore: &str) {
    assert_eq!(guarantee(&to_mealy(&lines(line))), mealy, "{line}");
    assert_eq!(guarantee(&to_moore(&lines(line))), moore, "{line}");
}

#[test]
fn directly_above_the_signal() {
    shifts("a", "X(s0)", "s0");
    shifts("c", "s2", "X(s2)");
    shifts("!a", "!(X(s0))", "!(s0)");
    shifts("!c", "!(s2)", "!(X(s2))");
    shifts("X a U v[1]", "(X(X(s0)) U s4)", "(X(s0) U X(s4))");
    shifts(
        "F[1:2] (a && c)",
        "X(((X(s0) && s2) || X((X(s0) && s2))))",
        "X(((s0 && X(s2)) || X((s0 && X(s2)))))",
    );
    shifts("true && 1 == 1", "(true && true)", "(true && true)");
    shifts("&&[0<=i<2] v[i]", "(s3 && s4)", "(X(s3) && X(s4))");
}

#[test]
fn definitions_and_comparisons() {
    let both = |definitions: &str, line: &str| {
        let text = defined(definitions, line);
        (guarantee(&to_mealy(&text)), guarantee(&to_moore(&text)))
    };
    // Once, however many names it came through.
    let (mealy, moore) = both("d = a && c; e = !d;", "e");
    assert_eq!(mealy, "!((X(s0) && s2))");
    assert_eq!(moore, "!((s0 && X(s2)))");
    let (mealy, moore) = both("enum T = A: 1*0 B: 0**;", "v == A");
    assert_eq!(mealy, "(s3 && !(s5))");
    assert_eq!(moore, "(X(s3) && !(X(s5)))");
    let (mealy, moore) = both("enum T = A: ***, 111;", "v != A");
    assert_eq!(mealy, "!((true || ((s3 && s4) && s5)))");
    assert_eq!(moore, "!((true || ((X(s3) && X(s4)) && X(s5))))");
}

#[test]
fn implied_lines() {
    let text = after_info(
        "GLOBAL { DEFINITIONS { enum T = A: 10 B: 01; } } MAIN { INPUTS { T t; } OUTPUTS { T o; } }",
    );
    let formula = |text: &str| {
        let nodes = accepted(text).nodes;
        infix(&nodes, nodes.len() - 1)
    };
    let plain = |first: usize| {
        format!(
            "((s{first} && !(s{})) || (!(s{first}) && s{}))",
            first + 1,
            first + 1
        )
    };
    let late = |first: usize| {
        format!(
            "((X(s{first}) && !(X(s{}))) || (!(X(s{first})) && X(s{})))",
            first + 1,
            first + 1
        )
    };
    let whole = |require: String, assert: String| {
        format!("(true -> (true && ((G({require}) && true) -> (G({assert}) && true))))")
    };
    assert_eq!(formula(&text), whole(plain(0), plain(2)));
    assert_eq!(formula(&to_mealy(&text)), whole(late(0), plain(2)));
    assert_eq!(formula(&to_moore(&text)), whole(plain(0), late(2)));
    // Strict keeps its formula.
    let strict = models(&text, "Moore, Strict", "Mealy");
    let (require, assert) = (late(0), plain(2));
    let due = format!(
        "(true -> ((true && ({assert} W !({require}))) && ((G({require}) && true) -> true)))"
    );
    assert_eq!(formula(&strict), due);
}

#[test]
fn counts() {
    let nodes = |text: &str| accepted(text).nodes.len();
    let long = |steps: usize| lines(&format!("X[{steps}] a"));
    assert_eq!(nodes(&long(8179)), 8192);
    assert_eq!(
        reading(&to_mealy(&long(8179))).answer,
        Answer::refused(16, 0)
    );
    assert_eq!(nodes(&to_mealy(&long(8178))), 8192);
    assert_eq!(nodes(&to_moore(&long(8179))), 8192);
    // 15 and 13 as before.
    refused(15, &to_mealy(&signals("a[200]; ^b[56];", "")));
    refused(13, &to_moore(&lines("^v[3]")));
    // 16 counts the X, and 15 comes before it.
    let wide =
        signals("a[200]; ^b[56]", "").replace("OUTPUTS { }", "OUTPUTS { } ASSERT { X[9000] a[0] }");
    refused(15, &to_mealy(&wide));
}

#[test]
fn the_meaning_reads_late_signals_one_position_later() {
    // a at 1 alone, loop to 1: at 0 and at 2 it is met one position later.
    let word = |columns: [&[usize]; 2]| Lasso {
        loop_start: 1,
        letters: (0..3)
            .map(|p| columns.iter().map(|column| column.contains(&p)).collect())
            .collect(),
    };
    let text = |line: &str| {
        after_info(&format!(
            "MAIN {{ INPUTS {{ a; }} OUTPUTS {{ c; }} GUARANTEE {{ {line} }} }}"
        ))
    };
    let holds =
        |text: &str, columns| meaning(text.as_bytes(), &word(columns)).expect("an accepted text");
    let only_a: [&[usize]; 2] = [&[1], &[]];
    let only_c: [&[usize]; 2] = [&[], &[1]];
    assert_eq!(holds(&text("a"), only_a), [false, true, false]);
    assert_eq!(holds(&to_mealy(&text("a")), only_a), [true, false, true]);
    assert_eq!(holds(&to_moore(&text("a")), only_a), [false, true, false]);
    assert_eq!(holds(&to_mealy(&text("c")), only_c), [false, true, false]);
    assert_eq!(holds(&to_moore(&text("c")), only_c), [true, false, true]);
    assert_eq!(
        holds(&to_mealy(&text("F[1:1] !a")), only_a),
        [true, false, true]
    );
}

#[test]
fn the_basic_text_names_the_target() {
    let written = |text: &str| {
        let bytes =
            basic::write(text.as_bytes(), WORK_BYTES, usize::MAX).expect("an accepted text");
        String::from_utf8(bytes).expect("ASCII")
    };
    let mealy = written(&to_mealy(FILE));
    assert!(mealy.contains("SEMANTICS : Mealy TARGET : Mealy }"));
    assert!(mealy.contains("( G ( ( X ( r ) ) -> ( F ( g ) ) ) )"));
    let moore = written(&to_moore(FILE));
    assert!(moore.contains("SEMANTICS : Moore TARGET : Moore }"));
    assert!(moore.contains("( G ( ( r ) -> ( F ( X ( g ) ) ) ) )"));
    for (text, written) in [(to_mealy(FILE), mealy), (to_moore(FILE), moore)] {
        assert_eq!(
            reading(&written).nodes,
            basic::read_back(&reading(&text).nodes)
        );
    }
}
