//! Texts that stand exactly at a limit, or one beyond it.

use super::prng::Prng;
use crate::limits;
use crate::token;

/// A limit: its refusal, and the text at the limit or beyond it.
pub struct Limit {
    pub name: &'static str,
    pub refusal: u32,
    pub text: fn(&mut Prng, bool) -> String,
}

/// All limits of document 01 that a text can meet.
pub const LIMITS: [Limit; 22] = [
    limit("text bytes", 1, text_bytes),
    limit("name bytes", 2, name_bytes),
    limit("tokens", 3, token_count),
    limit("levels of !", 5, levels_of_not),
    limit("levels of parentheses", 5, levels_of_parentheses),
    limit("levels of a chain", 5, levels_of_a_chain),
    limit("levels of set elements", 5, levels_of_a_set),
    limit("declared names", 8, declared_names),
    limit("enumeration words", 10, enumeration_words),
    limit("word marks", 10, word_marks),
    limit("numeral", 11, numeral),
    limit("sum", 11, sum),
    limit("difference", 11, difference),
    limit("set list", 12, set_list),
    limit("set range", 12, set_range),
    limit("set bounds", 12, set_bounds),
    limit("set union", 12, set_union),
    limit("bus width", 13, bus_width),
    limit("bus index", 13, bus_index),
    limit("signals", 15, signals),
    limit("nodes", 16, nodes),
    limit("nodes of a converted text", 16, converted_nodes),
];

const fn limit(name: &'static str, refusal: u32, text: fn(&mut Prng, bool) -> String) -> Limit {
    Limit {
        name,
        refusal,
        text,
    }
}

const INFO: &str = "INFO{TITLE:\"\"DESCRIPTION:\"\"SEMANTICS:Mealy TARGET:Mealy";

fn line(line: &str) -> String {
    format!("{INFO}}}MAIN{{INPUTS{{a}}OUTPUTS{{}}ASSERT{{{line}}}}}")
}

fn definition(definition: &str) -> String {
    format!("{INFO}}}GLOBAL{{DEFINITIONS{{{definition}}}}}MAIN{{INPUTS{{}}OUTPUTS{{}}}}")
}

fn inputs(inputs: &str) -> String {
    format!("{INFO}}}MAIN{{INPUTS{{{inputs}}}OUTPUTS{{}}}}")
}

fn at(limit: usize, beyond: bool) -> usize {
    limit + usize::from(beyond)
}

fn text_bytes(rng: &mut Prng, beyond: bool) -> String {
    let text = line("a");
    let padding = at(limits::TEXT_BYTES, beyond) - text.len();
    let before = rng.below(padding + 1);
    format!(
        "{}{text}{}",
        " ".repeat(before),
        "\n".repeat(padding - before)
    )
}

fn name_bytes(_: &mut Prng, beyond: bool) -> String {
    inputs(&"n".repeat(at(limits::NAME_BYTES, beyond)))
}

/// Tags fill the text two tokens at a time; one `;` more makes the number even.
fn token_count(_: &mut Prng, beyond: bool) -> String {
    let wanted = at(limits::TOKENS, beyond);
    for last in ["a", "a;"] {
        let bare = format!("{INFO} TAGS:t}}MAIN{{INPUTS{{{last}}}OUTPUTS{{}}}}");
        let count = token::scan(bare.as_bytes()).map_or(0, |tokens| tokens.len());
        if (wanted - count).is_multiple_of(2) {
            let tags = ",t".repeat((wanted - count) / 2);
            return bare.replace("TAGS:t", &format!("TAGS:t{tags}"));
        }
    }
    unreachable!("one of both numbers of tokens is even")
}

fn levels_of_not(_: &mut Prng, beyond: bool) -> String {
    line(&format!("{}a", "!".repeat(at(255, beyond))))
}

fn levels_of_parentheses(_: &mut Prng, beyond: bool) -> String {
    let count = at(255, beyond);
    line(&format!("{}a{}", "(".repeat(count), ")".repeat(count)))
}

fn levels_of_a_chain(rng: &mut Prng, beyond: bool) -> String {
    let sign = *rng.pick(&["&&", "||", "->", " U ", " R "]);
    line(&vec!["a"; at(256, beyond)].join(sign))
}

fn levels_of_a_set(_: &mut Prng, beyond: bool) -> String {
    line(&format!("{}1 IN{{1}}", "!".repeat(at(253, beyond))))
}

fn declared_names(_: &mut Prng, beyond: bool) -> String {
    let lines: String = (0..at(limits::DECLARED_NAMES, beyond))
        .map(|number| format!("n{number}=0;"))
        .collect();
    definition(&lines)
}

fn enumeration_words(_: &mut Prng, beyond: bool) -> String {
    let words = vec!["0"; at(limits::ENUMERATION_WORDS, beyond)].join(",");
    definition(&format!("enum T=A:{words}"))
}

fn word_marks(rng: &mut Prng, beyond: bool) -> String {
    let mark = *rng.pick(&["0", "1", "*"]);
    definition(&format!(
        "enum T=A:{}",
        mark.repeat(at(limits::WORD_MARKS, beyond))
    ))
}

fn numeral(_: &mut Prng, beyond: bool) -> String {
    line(&format!("{}==1", at(1_000_000, beyond)))
}

fn sum(_: &mut Prng, beyond: bool) -> String {
    line(&format!("999999+{}==1", at(1, beyond)))
}

fn difference(_: &mut Prng, beyond: bool) -> String {
    line(&format!("7-{}==1", at(7, beyond)))
}

fn set_list(_: &mut Prng, beyond: bool) -> String {
    let elements: Vec<String> = (0..at(limits::SET_ELEMENTS, beyond))
        .map(|element| element.to_string())
        .collect();
    line(&format!("1 IN{{{}}}", elements.join(",")))
}

fn set_range(_: &mut Prng, beyond: bool) -> String {
    line(&format!("1 IN{{0,1..{}}}", at(255, beyond)))
}

fn set_bounds(rng: &mut Prng, beyond: bool) -> String {
    let (low, high, last) = *rng.pick(&[("<=", "<", 256), ("<=", "<=", 255), ("<", "<", 257)]);
    line(&format!("+[0{low}i{high}{}]i==1", at(last, beyond)))
}

fn set_union(_: &mut Prng, beyond: bool) -> String {
    line(&format!("1 IN{{0,1..{}}}(+){{1,300}}", at(254, beyond)))
}

fn bus_width(_: &mut Prng, beyond: bool) -> String {
    inputs(&format!("b[{}]", at(255, beyond)))
}

fn bus_index(rng: &mut Prng, beyond: bool) -> String {
    let width = rng.between(1, 9);
    line(&format!("b[{}]", at(width - 1, beyond))).replace("{a}", &format!("{{b[{width}]}}"))
}

fn signals(_: &mut Prng, beyond: bool) -> String {
    inputs(&format!("a[200];b[{}]", at(55, beyond)))
}

/// The line replaces one node of the 13 that no lines give. A window over k nodes from n to m has
/// n + k * (m - n + 1) + 2 * (m - n) nodes.
fn nodes(rng: &mut Prng, beyond: bool) -> String {
    let steps = at(limits::NODES - 13, beyond);
    let more = usize::from(beyond);
    match rng.below(4) {
        0 => line(&format!("X[{steps}]a")),
        1 => line(&format!("F[{}:{}]!a", steps - 1, steps - 1)),
        2 => line(&format!("F[{}:{}]a", 1 + more, 2727 + more)),
        _ => line(&format!("G[{}:{}]!a", 2 + more, 2046 + more)),
    }
}

/// 02, F-2: the X above an input of a Moore text for a Mealy solver, or above an output the other way round, counts too.
fn converted_nodes(rng: &mut Prng, beyond: bool) -> String {
    let text = line(&format!("X[{}]a", at(limits::NODES - 14, beyond)));
    if rng.one_in(2) {
        return text.replace("SEMANTICS:Mealy", "SEMANTICS:Moore");
    }
    text.replace("TARGET:Mealy", "TARGET:Moore")
        .replace("INPUTS{a}OUTPUTS{}", "INPUTS{}OUTPUTS{a}")
}
