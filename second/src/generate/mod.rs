//! Texts, tables and recordings from a seed: sound ones, and ones broken by mutation, by intent
//! and at every limit.

pub mod clashes;
pub mod constructs;
pub mod damage;
pub mod failing;
pub mod layout;
pub mod limits;
pub mod prng;
pub mod recordings;
pub mod tables;
pub mod text;

use layout::Style;
use prng::Prng;
use text::Slip;

/// Any generated text. Most are small.
pub fn any_text(rng: &mut Prng) -> Vec<u8> {
    match rng.below(68) {
        64..=67 => soup_text(rng),
        60..=63 => limit_text(rng),
        0..=9 => slipped_text(rng, &[]),
        10..=19 => token_damaged_text(rng),
        20..=27 => byte_damaged_text(rng),
        28..=31 => word_damaged_text(rng),
        _ => {
            let mut slips = vec![*rng.pick(&text::SLIPS)];
            if rng.one_in(4) {
                slips.push(*rng.pick(&text::SLIPS));
            }
            slipped_text(rng, &slips)
        }
    }
}

/// A generated text of at most so many bytes.
pub fn short_text(rng: &mut Prng, longest: usize) -> Vec<u8> {
    loop {
        let text = any_text(rng);
        if text.len() <= longest {
            return text;
        }
    }
}

/// A text that was meant to be accepted.
pub fn sound_text(rng: &mut Prng) -> Vec<u8> {
    slipped_text(rng, &[])
}

fn slipped_text(rng: &mut Prng, slips: &[Slip]) -> Vec<u8> {
    let small = !rng.one_in(5);
    let tokens = text::tokens(rng, slips, small);
    let style = style(rng, small);
    layout::lay_out(rng, &tokens, style)
}

fn style(rng: &mut Prng, small: bool) -> Style {
    match rng.below(6) {
        0 => Style::Wild,
        1 | 2 if !small => Style::Spaced,
        _ => Style::Compact,
    }
}

fn token_damaged_text(rng: &mut Prng) -> Vec<u8> {
    let mut tokens = text::tokens(rng, &[], true);
    for _ in 0..rng.between(1, 2) {
        damage::damage_tokens(rng, &mut tokens);
    }
    let style = style(rng, true);
    layout::lay_out(rng, &tokens, style)
}

fn byte_damaged_text(rng: &mut Prng) -> Vec<u8> {
    let mut text = slipped_text(rng, &[]);
    for _ in 0..rng.between(1, 2) {
        damage::damage_bytes(rng, &mut text);
    }
    text
}

/// Broken words and broken tokens together.
fn word_damaged_text(rng: &mut Prng) -> Vec<u8> {
    let mut tokens = text::tokens(rng, &[Slip::Word], true);
    if rng.one_in(3) {
        damage::damage_tokens(rng, &mut tokens);
    }
    layout::lay_out(rng, &tokens, Style::Compact)
}

/// A line of expression tokens in any order.
fn soup_text(rng: &mut Prng) -> Vec<u8> {
    let semantics = *rng.pick(&["Mealy", "Mealy", "Moore"]);
    let frame = format!(
        "INFO {{ TITLE : \"\" DESCRIPTION : \"\" SEMANTICS : {semantics} TARGET : Mealy }} \
         MAIN {{ INPUTS {{ a ; b [ 2 ] }} OUTPUTS {{ }} ASSERT {{"
    );
    let mut tokens: Vec<String> = frame.split_whitespace().map(str::to_string).collect();
    for _ in 0..rng.between(1, 7) {
        let token = damage::expression_token(rng);
        tokens.extend(token.split_whitespace().map(str::to_string));
    }
    tokens.extend(["}".to_string(), "}".to_string()]);
    layout::lay_out(rng, &tokens, Style::Compact)
}

fn limit_text(rng: &mut Prng) -> Vec<u8> {
    let limit = rng.pick(&limits::LIMITS);
    let beyond = rng.one_in(2);
    (limit.text)(rng, beyond).into_bytes()
}
