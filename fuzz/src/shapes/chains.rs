//! Definitions in a chain, each of which uses the one before it: deep, or doubling at each step.

use super::{size, text};
use second::generate::prng::Prng;

/// Definitions that use the one before, so that depth adds up.
fn chained(rng: &mut Prng, first: &str, step: impl Fn(&mut Prng, &str) -> String) -> String {
    let count = size(rng, 250);
    let mut definitions = format!("d0={first};");
    for number in 1..=count {
        let body = step(rng, &format!("d{}", number - 1));
        definitions.push_str(&format!("d{number}={body};"));
    }
    let line = match first.as_bytes()[0] {
        b'a' => format!("d{count}"),
        b'{' => format!("1 IN d{count}"),
        _ => format!("d{count}==1"),
    };
    text(&definitions, "a", &line)
}

pub fn chained_formulas(rng: &mut Prng) -> String {
    let levels = rng.below(30);
    let sign = *rng.pick(&["!", "X ", "G "]);
    chained(rng, "a", |rng, before| match rng.below(40) {
        0 => format!("{before} U a"),
        1 => format!("(a W ({before}))"),
        _ => format!("{}{before}", sign.repeat(levels)),
    })
}

pub fn chained_numbers(rng: &mut Prng) -> String {
    let levels = rng.below(14);
    let step = *rng.pick(&["1/", "1*", "0+", "(", "MAX{", "7%"]);
    let close = match step {
        "(" => ")",
        "MAX{" => "}",
        _ => "",
    };
    chained(rng, "1", |_, before| {
        format!("{}{before}{}", step.repeat(levels), close.repeat(levels))
    })
}

pub fn chained_sets(rng: &mut Prng) -> String {
    let more = rng.below(3);
    chained(rng, "{1}", |rng, before| match (more, rng.below(4)) {
        (0, _) => format!("({before})"),
        (1, 0) => format!("{before}(+){{{}}}", rng.below(600)),
        (_, 1) => format!("{before}(*){before}"),
        _ => format!("{before}(+){before}"),
    })
}

pub fn doubling_formulas(rng: &mut Prng) -> String {
    let sign = *rng.pick(&["&&", "<->", " U ", "->"]);
    chained(rng, "a", |_, before| format!("({before}){sign}({before})"))
}

pub fn doubling_numbers(rng: &mut Prng) -> String {
    let sign = *rng.pick(&["*", "/", "%", "-", "+"]);
    chained(rng, "1", |_, before| format!("({before}){sign}({before})"))
}
