//! Texts of document 01: its refusals 11 to 16, its limits, its starred texts; texts that state one
//! model and target the other; and definitions that use the one before twice.

use super::Stored;
use crate::answer::Answer;
use crate::converter;
use crate::generate::limits::LIMITS;
use crate::generate::prng::Prng;
use crate::limits;

const SEED: u64 = 1;

const INFO: &str = "INFO { TITLE: \"t\" DESCRIPTION: \"d\" SEMANTICS: Mealy TARGET: Mealy }";

/// A text with these definitions and this line; signals a, b, c and the bus v[3].
fn defined(definitions: &str, line: &str) -> String {
    format!(
        "{INFO}\nGLOBAL {{ DEFINITIONS {{\n{definitions}\n}} }}\n\
         MAIN {{ INPUTS {{ a; b; }} OUTPUTS {{ c; v[3]; }} GUARANTEE {{ {line}; }} }}"
    )
}

fn line(line: &str) -> String {
    format!("{INFO}\nMAIN {{ INPUTS {{ a; b; }} OUTPUTS {{ c; v[3]; }} GUARANTEE {{ {line}; }} }}")
}

fn signals(inputs: &str, outputs: &str) -> String {
    format!("{INFO}\nMAIN {{ INPUTS {{ {inputs} }} OUTPUTS {{ {outputs} }} }}")
}

/// Lines, one after the other, as a text each.
fn all_lines(number: &str, lines: &[&str]) -> Vec<Stored> {
    let stored = |text: &&str| Stored::new(format!("{number}: {text}"), line(text));
    lines.iter().map(stored).collect()
}

const LINES_11: [&str; 16] = [
    "2 - 3 == 0",
    "1000001 == 0",
    "999999 + 1 + 1 == 0",
    "1001 * 1000 == 0",
    "+[0 <= i < 256] 4000 == 0",
    "1 / 0 == 0",
    "1 % 0 == 0",
    "MIN {} == 0",
    "MAX {} == 0",
    "SIZE ((*)[i IN {}] {i}) == 0",
    "F[2:1] a",
    "G[2:1] a",
    "X[1 - 2] a",
    "true || 1 / 0 == 0",
    "F[1/0 : 2/0] a",
    "1 IN {1, 1 / 0} (+) {2 / 0}",
];

const LINES_12: [&str; 8] = [
    "1 IN {3,3..5}",
    "1 IN {3,2..5}",
    "1 IN {3,3..2}",
    "1 IN {0,1..256}",
    "1 IN {0,1..255} (+) {256}",
    "&&[0 <= i < 257] a",
    "&&[0 <= i <= 256] a",
    "&&[0 < i <= 257] a",
];

/// Rows 11 to 16 of the table, one text for each reason, and their order.
pub fn refusals() -> Vec<Stored> {
    let mut texts = all_lines("11", &LINES_11);
    texts.extend(all_lines("12", &LINES_12));
    let widths = "enum T = A: 01\n B: 10;";
    let more = [
        ("13: width 0", signals("w[0];", "")),
        ("13: width 256", signals("w[256];", "")),
        ("13: width 256 of an output", signals("", "w[256];")),
        ("13: index 3 of v[3]", line("v[3]")),
        ("13: unequal widths", defined(widths, "v == A")),
        (
            "13: SIZEOF of a bus not yet sized",
            signals("u[SIZEOF w]; w[2];", ""),
        ),
        ("13: SIZEOF of the bus itself", signals("w[SIZEOF w];", "")),
        ("15: 256 signals", signals("x[200]; y[56];", "")),
        ("15: inputs before outputs", signals("x[200];", "y[56]; z;")),
        ("16: X[8192] a", line("X[8192] a")),
        ("16: a full square", line("&&[0<=i<256] &&[0<=j<256] a")),
        ("11 before 13", line("2 - 3 == 0; v[3]")),
        ("13 before 11", line("v[3]; 2 - 3 == 0")),
        ("13 before 11, the width first", {
            line("2 - 3 == 0").replace("v[3]", "v[0]")
        }),
        ("15 before 16", {
            line("X[8192] a").replace("v[3]", "v[255]")
        }),
    ];
    texts.extend(more.map(|(name, text)| Stored::new(name, text)));
    texts
}

/// The number of nodes in a form.
fn count(text: &str, form: u32) -> usize {
    let reading = converter::convert(
        text.as_bytes(),
        form,
        limits::WORK_BYTES,
        limits::NODES,
        limits::SIGNALS,
    );
    match reading.answer {
        Answer::Accepted { nodes, .. } => nodes,
        Answer::Refused(refusal) => panic!("{refusal:?}: {text}"),
    }
}

/// A text with exactly 8,192 nodes in a form, and one with a node more: every form keeps X.
fn full_forms() -> Vec<Stored> {
    let mut texts = Vec::new();
    for (form, operand) in [(0, "a"), (1, "(a <-> b)"), (2, "(a && b)"), (2, "G a")] {
        let text = |steps: usize| line(&format!("X[{steps}] {operand}"));
        let steps = limits::NODES - count(&text(0), form);
        for (nodes, steps) in [(limits::NODES, steps), (limits::NODES + 1, steps + 1)] {
            let name = format!("{nodes} nodes in form {form}: X[{steps}] {operand}");
            texts.push(Stored::new(name, text(steps)));
        }
    }
    texts
}

/// A text for the lines `F[n:m]`, at their bounds.
const WINDOWS: [&str; 8] = [
    "F[0:0] a",
    "G[0:0] a",
    "F[3:3] a",
    "G[0:2] a",
    "F[1:3] (a && b)",
    "G[1000000:1000000] a",
    "F[0:1000000] a",
    "F[1000000:999999] a",
];

const VALUES: [&str; 8] = [
    "1000000 == 1000000",
    "999999 + 1 == 1000000",
    "1000 * 1000 == 1000000",
    "1000000 - 1000000 == 0",
    "*[i IN {10, 100, 1000}] i == 1000000",
    "+[i IN {1, 999999}] i == 1000000",
    "1000000 IN {999999, 1000000 .. 1000000}",
    "|{0,1..255}| == 256",
];

/// Every limit at it and one beyond it.
pub fn limits() -> Vec<Stored> {
    let mut rng = Prng::new(SEED);
    let mut texts = Vec::new();
    for limit in &LIMITS {
        for (beyond, word) in [(false, "at the limit"), (true, "one beyond")] {
            let text = (limit.text)(&mut rng, beyond);
            texts.push(Stored::new(format!("{}: {word}", limit.name), text));
        }
    }
    texts.extend(full_forms());
    texts.extend(all_lines("window", &WINDOWS));
    texts.extend(all_lines("value", &VALUES));
    texts
}

/// 01: 'Marked', the texts among them.
pub fn starred() -> Vec<Stored> {
    let file =
        format!("{INFO} MAIN {{ INPUTS {{ r; }} OUTPUTS {{ g; }} GUARANTEE {{ G (r -> F g); }} }}");
    let strict = |text: &str| text.replace("SEMANTICS: Mealy", "SEMANTICS: Mealy, Strict");
    let lines = [
        "8/4/2 == 4",
        "6/2*3 == 1",
        "10-3-2 == 5",
        "|{1,3..8}| == 4",
        "&&[i IN {1,3,5,7}] i IN {1,3..8}",
        "|{3,4..2}| == 0",
        "X[0] a",
        "a U b W c",
    ];
    let mut texts = vec![Stored::new("one file in full", file)];
    texts.extend(all_lines("starred", &lines));
    texts.push(Stored::new("no lines, standard", signals("", "")));
    texts.push(Stored::new("no lines, strict", strict(&signals("", ""))));
    texts
}

/// 02, F-2: each text under both pairs of unlike models, and under equal ones.
pub fn converted() -> Vec<Stored> {
    let words = "enum T = A: 1*0\n B: 01*;\n d = a && v[2];";
    let typed = format!(
        "{INFO}\nGLOBAL {{ DEFINITIONS {{ enum T = A: 10\n B: 01; }} }}\n\
         MAIN {{ INPUTS {{ T t; }} OUTPUTS {{ T o; }} ASSERT {{ o == B; }} }}"
    );
    let strict = |text: &str| text.replace("SEMANTICS: Mealy", "SEMANTICS: Mealy, Strict");
    let texts = [
        ("document 01's file", {
            format!(
                "{INFO} MAIN {{ INPUTS {{ r; }} OUTPUTS {{ g; }} GUARANTEE {{ G (r -> F g); }} }}"
            )
        }),
        ("negated", line("!a && !c; !v[0] || !X !b")),
        ("definition", defined(words, "d && d; F[1:3] d")),
        ("value", defined(words, "v == A; v != B; !(B == (v))")),
        ("value of an input", {
            defined(words, "i == A; i != B").replace("a; b;", "a; i[3];")
        }),
        ("implied lines", typed.clone()),
        ("implied lines, strict", strict(&typed)),
        ("strict", strict(&line("a U c; G (b -> X v[1])"))),
        ("constants alone", line("true; 1 == 2")),
        ("11", line("c; 2 - 3 == 0")),
        ("15", signals("x[200];", "y[56];")),
        ("an input, 8,192 nodes", line("X[8179] a")),
        ("an output, 8,192 nodes", line("X[8179] c")),
        ("an input, 8,191 nodes", line("X[8178] a")),
        ("an output, 8,191 nodes", line("X[8178] c")),
    ];
    let models = [("Mealy", "Moore"), ("Moore", "Mealy"), ("Moore", "Moore")];
    let mut stored = Vec::new();
    for (semantics, target) in models {
        for (name, text) in &texts {
            let text = text
                .replace("TARGET: Mealy", &format!("TARGET: {target}"))
                .replace("SEMANTICS: Mealy", &format!("SEMANTICS: {semantics}"));
            stored.push(Stored::new(
                format!("{semantics} to {target}: {name}"),
                text,
            ));
        }
    }
    stored
}

/// How many definitions each use the one before twice.
const DOUBLINGS: usize = 250;

/// Definitions d1, d2, .. each of which is an operator between two uses of the one before.
fn doubled(first: &str, operator: &str) -> String {
    let mut definitions = format!("d0 = {first};");
    for number in 1..=DOUBLINGS {
        let before = number - 1;
        definitions += &format!("\nd{number} = d{before} {operator} d{before};");
    }
    definitions
}

/// Definitions that use the one before twice, of formulas, numbers and sets.
pub fn doubling() -> Vec<Stored> {
    let cases = [
        ("formulas, &&", "a", "&&", "d250"),
        ("formulas, twelve times", "a", "<->", "d12"),
        ("formulas, U", "a", "U", "d250"),
        ("numbers, +", "0", "+", "d250 == 0"),
        ("numbers, *", "1", "*", "d250 == 1"),
        ("numbers, too large", "1", "+", "d250 == 1"),
        ("sets, (+)", "{1, 2}", "(+)", "|d250| == 2"),
        ("sets, (*)", "{0,1..255}", "(*)", "|d250| == 256"),
        ("formulas over numbers", "0", "+", "X[d250] a"),
    ];
    let stored = |(name, first, operator, line)| {
        Stored::new(
            format!("doubling {name}"),
            defined(&doubled(first, operator), line),
        )
    };
    cases.map(stored).to_vec()
}
