//! Texts whose basic text may be refused with 22: a signal is called like a bit of a bus, or a bus has a long name.

use super::layout::{self, Style};
use super::prng::Prng;
use super::text;
use crate::limits;
use crate::reader;

/// A text meant to be accepted in which a signal was given another name everywhere, if it has a bus.
pub fn text(rng: &mut Prng) -> Vec<u8> {
    let mut tokens = text::tokens(rng, &[], true);
    let plain = layout::lay_out(rng, &tokens, Style::Compact);
    let Ok(understood) = reader::understand(&plain, limits::WORK_BYTES) else {
        return plain;
    };
    let names = |bus: bool| -> Vec<String> {
        let signals = understood.signals.iter();
        signals
            .filter(|signal| !bus || signal.index.is_some())
            .map(|signal| String::from_utf8_lossy(&signal.name).into_owned())
            .collect()
    };
    let (buses, all) = (names(true), names(false));
    if buses.is_empty() {
        return plain;
    }
    let bus = rng.pick(&buses).clone();
    if rng.one_in(2) {
        // A bit that the bus has, or one that it has not.
        let width = buses.iter().filter(|name| **name == bus).count();
        let bit = format!("{bus}@{}", rng.below(width + 1));
        let other = rng.pick(&all).clone();
        rename(&mut tokens, &other, &bit);
    } else {
        let length = rng.between(60, 64);
        rename(&mut tokens, &bus, &"n".repeat(length));
    }
    layout::lay_out(rng, &tokens, Style::Compact)
}

fn rename(tokens: &mut [String], from: &str, to: &str) {
    for token in tokens {
        if token == from {
            *token = to.to_string();
        }
    }
}
