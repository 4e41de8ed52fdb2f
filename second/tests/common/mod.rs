//! Shared by the tests. In a text `^` marks the place of the expected refusal, which is at the
//! next byte that is no blank; the mark is removed.
#![allow(dead_code)]

use second::answer::Answer;
use second::node::Node;
use second::reader::{read_freely, Reading};

pub const INFO: &str = "INFO { TITLE: \"\" DESCRIPTION: \"\" SEMANTICS: Mealy TARGET: Mealy } ";

/// A text with these sections after INFO.
pub fn after_info(rest: &str) -> String {
    format!("{INFO}{rest}")
}

/// A text with this GLOBAL and these lines in GUARANTEE; signals a, b, c and the bus v[3].
pub fn with(global: &str, lines: &str) -> String {
    after_info(&format!(
        "GLOBAL {{ {global} }} MAIN {{ INPUTS {{ a; b; }} OUTPUTS {{ c; v[3]; }} \
         GUARANTEE {{ {lines} }} }}"
    ))
}

/// A text with these definitions and lines.
pub fn defined(definitions: &str, lines: &str) -> String {
    with(&format!("DEFINITIONS {{ {definitions} }}"), lines)
}

/// A text with these parameters and lines.
pub fn parameters(parameters: &str, lines: &str) -> String {
    with(&format!("PARAMETERS {{ {parameters} }}"), lines)
}

/// A text with these lines in GUARANTEE.
pub fn lines(lines: &str) -> String {
    with("", lines)
}

/// A text with these inputs and outputs.
pub fn signals(inputs: &str, outputs: &str) -> String {
    after_info(&format!(
        "MAIN {{ INPUTS {{ {inputs} }} OUTPUTS {{ {outputs} }} }}"
    ))
}

pub fn reading(text: &str) -> Reading {
    read_freely(text.as_bytes())
}

/// The text is refused with the number at the mark `^`.
#[track_caller]
pub fn refused(number: u32, marked: &str) {
    let mark = marked.find('^').expect("the place is marked");
    let text = marked.replacen('^', "", 1);
    let blanks = text[mark..].len() - text[mark..].trim_start().len();
    let place = mark + blanks;
    assert_eq!(
        reading(&text).answer,
        Answer::refused(number, place),
        "{text}"
    );
}

#[track_caller]
pub fn refused_at(number: u32, place: usize, text: &[u8]) {
    let answer = read_freely(text).answer;
    assert_eq!(answer, Answer::refused(number, place));
}

#[track_caller]
pub fn accepted(text: &str) -> Reading {
    let reading = reading(text);
    assert!(reading.answer.is_accepted(), "{:?}: {text}", reading.answer);
    reading
}

/// The single line of GUARANTEE as an infix formula, each operation in brackets.
#[track_caller]
pub fn guarantee(text: &str) -> String {
    let nodes = accepted(text).nodes;
    let root = Node(*nodes.last().expect("an accepted text has nodes"));
    let promise = Node(nodes[root.second()]);
    let granted = Node(nodes[promise.second()]);
    let owed = Node(nodes[granted.second()]);
    infix(&nodes, owed.second())
}

/// A node's tree as text: signals are `s0`, `s1`, ..
pub fn infix(nodes: &[u32], number: usize) -> String {
    const SIGNS: [&str; 14] = [
        "true", "false", "s", "!", "&&", "||", "->", "<->", "X", "G", "F", "U", "R", "W",
    ];
    let node = Node(nodes[number]);
    let sign = SIGNS[node.kind() as usize];
    match node.arity() {
        Some(0) if node.kind() == Node::SIGNAL => format!("s{}", node.first()),
        Some(0) => sign.to_string(),
        Some(1) => format!("{sign}({})", infix(nodes, node.first())),
        _ => format!(
            "({} {sign} {})",
            infix(nodes, node.first()),
            infix(nodes, node.second())
        ),
    }
}

/// The line expands to this formula; a is s0, b s1, c s2, v s3 to s5.
#[track_caller]
pub fn expands(line: &str, formula: &str) {
    assert_eq!(guarantee(&lines(line)), formula, "{line}");
}

/// The number expression has this value.
#[track_caller]
pub fn is_number(expression: &str, value: u32) {
    expands(&format!("({expression}) == {value}"), "true");
}

/// The set expression has these elements.
#[track_caller]
pub fn is_set(expression: &str, elements: &[u32]) {
    expands(&format!("|{expression}| == {}", elements.len()), "true");
    for element in elements {
        expands(&format!("{element} IN ({expression})"), "true");
    }
}
