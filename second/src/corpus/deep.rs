//! The deepest texts that the limits allow: every shape nested by way of definitions, each of which
//! uses the one before.

use super::shapes::{Shape, Sort, FULL, HELD, SHAPES};
use super::Stored;
use crate::limits;
use crate::token;

/// Definitions of a chain; with s and the signals fewer than 256 names.
const DEFINITIONS: usize = 250;

/// Where a chain's last definition is used.
#[derive(Clone, Copy)]
enum Use {
    Line,
    Width,
}

fn text(sort: Sort, definitions: &str, last: &str, used: Use) -> String {
    let (width, line) = match used {
        Use::Line => (String::new(), sort.line(last)),
        Use::Width => (format!("[{last}]"), "true".to_string()),
    };
    format!(
        "INFO{{TITLE:\"\"DESCRIPTION:\"\"SEMANTICS:Mealy TARGET:Mealy}}\
         GLOBAL{{DEFINITIONS{{s={{1}};{definitions}}}}}\
         MAIN{{INPUTS{{a;w{width}}}OUTPUTS{{}}ASSERT{{{line}}}}}"
    )
}

fn fits(text: &str) -> bool {
    let count = token::scan(text.as_bytes()).map_or(usize::MAX, |tokens| tokens.len());
    count <= limits::TOKENS && text.len() <= limits::TEXT_BYTES
}

/// A chain of definitions, so many of the shape in each.
fn chain(shape: &Shape, depths: &[usize]) -> String {
    let mut definitions = String::new();
    let mut before = shape.sort.leaf().to_string();
    for (number, &depth) in depths.iter().enumerate() {
        definitions += &format!("d{number}={};", shape.nest(depth, &before));
        before = format!("d{number}");
    }
    definitions
}

/// The largest number up to `most` for which a text fits: all smaller ones fit too.
fn largest(most: usize, fitting: impl Fn(usize) -> bool) -> usize {
    let (mut fits, mut fails) = (0, most + 1);
    while fits + 1 < fails {
        let middle = (fits + fails) / 2;
        match fitting(middle) {
            true => fits = middle,
            false => fails = middle,
        }
    }
    fits
}

fn chained(given: &str, shape: &Shape, depths: &[usize], used: Use) -> String {
    let last = format!("d{}", depths.len() - 1);
    let definitions = format!("{given}{}", chain(shape, depths));
    text(shape.sort, &definitions, &last, used)
}

/// As many levels in each definition as a tree may have, then the most that still fit, behind the
/// definitions `given`.
fn full_trees(given: &str, shape: &Shape, used: Use) -> Stored {
    let depth = (limits::TREE_LEVELS - 2) / shape.levels;
    let with = |count: usize, rest: usize| {
        let mut depths = vec![depth; count];
        depths.push(rest);
        chained(given, shape, &depths, used)
    };
    let count = largest(40, |count| fits(&with(count, 1)));
    let rest = largest(depth, |rest| fits(&with(count, rest)));
    let place = match used {
        Use::Line => "",
        Use::Width => " in a width",
    };
    let name = format!("deep {}{place}: {}", shape.name, count * depth + rest);
    Stored::new(name, with(count, rest))
}

/// As many definitions as there may be, each with the most levels that fit.
fn full_chain(shape: &Shape) -> Stored {
    let with = |depth: usize| chained("", shape, &[depth; DEFINITIONS], Use::Line);
    let depth = largest(32, |depth| fits(&with(depth)));
    let name = format!("deep {}: {DEFINITIONS} times {depth}", shape.name);
    Stored::new(name, with(depth))
}

/// One big operator that binds as many names as fit: E2, they are nested folds.
fn bound_names(sort: Sort, sign: &str) -> Stored {
    let with = |count: usize| {
        let names: Vec<String> = (0..count).map(|number| format!("i{number} IN s")).collect();
        let definition = format!("d={sign}[{}]{};", names.join(","), sort.leaf());
        text(sort, &definition, "d", Use::Line)
    };
    let count = largest(limits::TOKENS, |count| fits(&with(count)));
    Stored::new(format!("deep names of {sign}[..]: {count}"), with(count))
}

/// Shapes whose texts are also used in a width, where declarations are worked out.
const IN_WIDTHS: [&str; 2] = ["divisions", "MIN {"];

/// All of them.
pub fn texts() -> Vec<Stored> {
    let lines = |given: &str, shapes: &[Shape]| -> Vec<Stored> {
        let shapes = shapes.iter();
        shapes.map(|s| full_trees(given, s, Use::Line)).collect()
    };
    let mut texts = lines("", &SHAPES);
    texts.extend(SHAPES.iter().map(full_chain));
    let widths = SHAPES
        .iter()
        .filter(|shape| IN_WIDTHS.contains(&shape.name));
    texts.extend(widths.map(|shape| full_trees("", shape, Use::Width)));
    let signs = [
        (Sort::Formula, "&&"),
        (Sort::Formula, "||"),
        (Sort::Number, "+"),
        (Sort::Number, "*"),
        (Sort::Set, "(+)"),
        (Sort::Set, "(*)"),
    ];
    texts.extend(signs.map(|(sort, sign)| bound_names(sort, sign)));
    texts.extend(lines(FULL, &HELD));
    texts
}
