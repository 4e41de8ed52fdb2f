//! Texts of extreme shapes: deep, long, wide, doubling. Where big operators nest, the product of their elements stays small.

mod chains;

use second::generate::prng::Prng;

const INFO: &str = "INFO{TITLE:\"\"DESCRIPTION:\"\"SEMANTICS:Mealy TARGET:Mealy}";

const SHAPES: [fn(&mut Prng) -> String; 18] = [
    nested_brackets,
    prefix_chain,
    operator_chain,
    chains::chained_formulas,
    chains::chained_numbers,
    chains::chained_sets,
    chains::doubling_formulas,
    chains::doubling_numbers,
    many_names,
    long_names,
    many_lines,
    wide_buses,
    sized_by_each_other,
    full_enumeration,
    nested_big_operators,
    nested_sets,
    long_windows,
    endless_comment,
];

pub fn shape(rng: &mut Prng) -> String {
    let shape = *rng.pick(&SHAPES);
    let text = shape(rng);
    // Unlike models put an X above every input, or above every output.
    match rng.below(4) {
        0 => text.replacen("SEMANTICS:Mealy", "SEMANTICS:Moore", 1),
        1 => text.replacen("TARGET:Mealy", "TARGET:Moore", 1),
        _ => text,
    }
}

fn text(definitions: &str, inputs: &str, lines: &str) -> String {
    format!(
        "{INFO}GLOBAL{{DEFINITIONS{{{definitions}}}}}MAIN{{INPUTS{{{inputs}}}OUTPUTS{{c}}ASSERT{{{lines}}}}}"
    )
}

/// A number up to a limit, mostly near it or near a power of two.
fn size(rng: &mut Prng, limit: usize) -> usize {
    match rng.below(4) {
        0 => rng.between(0, limit),
        1 => limit - rng.below(limit.min(4)),
        2 => limit + rng.below(4),
        _ => (1 << rng.below(14)).min(limit),
    }
}

fn nested_brackets(rng: &mut Prng) -> String {
    let (open, close) = *rng.pick(&[
        ("(", ")"),
        ("!(", ")"),
        ("X[0](", ")"),
        ("{", "}"),
        ("|{", "}|"),
    ]);
    let most = *rng.pick(&[256, 4_000, 16_000]);
    let count = size(rng, most);
    let closed = if rng.one_in(4) {
        size(rng, count.max(1))
    } else {
        count
    };
    text(
        "",
        "a",
        &format!("{}a{}", open.repeat(count), close.repeat(closed)),
    )
}

fn prefix_chain(rng: &mut Prng) -> String {
    let sign = *rng.pick(&[
        "!", "X ", "G ", "F[0:0]", "X[1]", "MIN ", "SIZE ", "SIZEOF ",
    ]);
    let most = *rng.pick(&[255, 8_000]);
    text("", "a", &format!("{}a", sign.repeat(size(rng, most))))
}

fn operator_chain(rng: &mut Prng) -> String {
    let (sign, leaf) = *rng.pick(&[
        ("&&", "a"),
        ("->", "a"),
        (" U ", "a"),
        (" W ", "a"),
        (" R ", "a"),
        ("+", "1"),
        ("/", "1"),
        ("(+)", "{1}"),
        ("(\\)", "{1}"),
        ("==", "1"),
    ]);
    let most = *rng.pick(&[256, 4_100]);
    let chain = vec![leaf; size(rng, most).max(1)].join(sign);
    text("", "a", &format!("{chain};({chain})==0;0 IN({chain})"))
}

fn many_names(rng: &mut Prng) -> String {
    let count = size(rng, 256);
    let same = rng.one_in(4);
    let name = |number: usize| {
        if same {
            "n".to_string()
        } else {
            format!("n{number}")
        }
    };
    let inputs: Vec<String> = (0..count).map(name).collect();
    let values: String = (0..rng.below(300))
        .map(|number| format!("v{number}={number};"))
        .collect();
    text(&values, &inputs.join(";"), "n0")
}

fn long_names(rng: &mut Prng) -> String {
    let name = "N".repeat(size(rng, 64).max(1));
    let inputs: Vec<String> = (0..rng.between(1, 200))
        .map(|number| format!("{name}{number}"))
        .collect();
    text("", &inputs.join(";"), &format!("{name}0"))
}

fn many_lines(rng: &mut Prng) -> String {
    let line = *rng.pick(&["a;", ";", "true;", "1==1;", "a,", "a&&a&&a;"]);
    text("", "a", &line.repeat(size(rng, 8_150)))
}

fn wide_buses(rng: &mut Prng) -> String {
    let buses: Vec<String> = (0..rng.between(1, 6))
        .map(|number| format!("b{number}[{}]", size(rng, 255)))
        .collect();
    let index = size(rng, 255);
    text(
        "",
        &buses.join(";"),
        &format!("b0[{index}];&&[0<=i<SIZEOF b0]b0[i];SIZEOF b0==255"),
    )
}

fn sized_by_each_other(rng: &mut Prng) -> String {
    let count = rng.between(1, 60);
    let other = |rng: &mut Prng, number: usize| match rng.below(12) {
        0 => number,
        1 => number + 1,
        _ => number.saturating_sub(1),
    };
    let buses: Vec<String> = (1..count)
        .map(|number| format!("b{number}[SIZEOF b{}]", other(rng, number)))
        .collect();
    text(
        "",
        &format!("b0[{}];{}", rng.between(1, 6), buses.join(";")),
        "b0[0]",
    )
}

fn full_enumeration(rng: &mut Prng) -> String {
    let (words, marks) = (size(rng, 16).clamp(1, 40), size(rng, 8).clamp(1, 60));
    let identifiers: String = (0..words)
        .map(|number| {
            let mark = |at: usize| match rng.below(20) {
                0 => '*',
                _ if number >> (at % 8) & 1 == 1 => '1',
                _ => '0',
            };
            let word: String = (0..marks).map(mark).collect();
            format!("V{number}:{word} ")
        })
        .collect();
    text(
        &format!("enum T={identifiers}"),
        "T b;a",
        "b==V0;b!=V1;V2==b",
    )
}

/// A few operators over many elements, or many over one or two.
fn nested_big_operators(rng: &mut Prng) -> String {
    let (depth, elements) = match rng.below(5) {
        0 => (1, size(rng, 256)),
        1 => (2, rng.below(100)),
        2 => (3, rng.below(20)),
        3 => (rng.between(4, 10), 2),
        _ => (size(rng, 250), 1),
    };
    let sign = *rng.pick(&["&&", "||", "+", "*", "(+)", "(*)"]);
    let opened: String = (0..depth)
        .map(|number| format!("{sign}[0<=i{number}<{elements}]"))
        .collect();
    let line = match sign {
        "&&" | "||" => format!("{opened}a"),
        "+" | "*" => format!("{opened}i0==1"),
        _ => format!("1 IN {opened}{{i0}}"),
    };
    text("", "a", &line)
}

fn nested_sets(rng: &mut Prng) -> String {
    let count = size(rng, 130);
    let elements: Vec<String> = (0..size(rng, 256))
        .map(|element| element.to_string())
        .collect();
    text(
        "",
        "a",
        &format!(
            "{}1{}==1;3 IN{{{}}}",
            "|{".repeat(count),
            "}|".repeat(count),
            elements.join(",")
        ),
    )
}

fn long_windows(rng: &mut Prng) -> String {
    let most = *rng.pick(&[30, 8_192, 1_000_000, 10_000_000]);
    let (from, to) = (size(rng, most), size(rng, most));
    let sign = *rng.pick(&["F", "G"]);
    let inner = *rng.pick(&["a", "X[9999]a", "G[0:9]a", "true", "a U a"]);
    text("", "a", &format!("{sign}[{from}:{to}]({inner});X[{from}]a"))
}

fn endless_comment(rng: &mut Prng) -> String {
    let count = size(rng, 16_000);
    let (open, close) = *rng.pick(&[
        ("/*", "*/"),
        ("\"", ""),
        ("//", "\n"),
        ("enum ", ";"),
        ("9", ""),
    ]);
    let closed = if rng.one_in(2) {
        count
    } else {
        size(rng, 16_000)
    };
    text(
        "",
        "a",
        &format!("a;{}{}", open.repeat(count), close.repeat(closed)),
    )
}
