//! Texts of many lines that are mostly true, so that a word at random breaks now this one and now that one (02, F-7).

use super::prng::Prng;

/// Signals i, j, t[0], t[1] and u[0] to u[2] are inputs, o, p, and the bits of e, f and g outputs.
const SIGNALS: [&str; 14] = [
    "i", "j", "t[0]", "t[1]", "u[0]", "u[1]", "u[2]", "o", "p", "e[0]", "e[1]", "f[0]", "f[1]",
    "g[0]",
];

const SECTIONS: [&str; 6] = [
    "INITIALLY",
    "PRESET",
    "REQUIRE",
    "ASSERT",
    "ASSUME",
    "GUARANTEE",
];

/// An accepted text with some sections of some lines.
pub fn text(rng: &mut Prng) -> Vec<u8> {
    let (semantics, target) = *rng.pick(&[
        ("Mealy", "Mealy"),
        ("Moore", "Moore"),
        ("Mealy", "Moore"),
        ("Moore", "Mealy"),
    ]);
    let strict = if rng.one_in(2) { ", Strict" } else { "" };
    // T leaves the word 11 unnamed, Y some, V none.
    let global = "DEFINITIONS { enum T = A: 00, 01\n B: 10; enum V = C: 0*\n D: 1*; enum Y = E: 1*0 H: 01*; d = X o || i; }";
    let mut parts = signals(rng).to_vec();
    // One of the sections may be a long one.
    let long = rng.below(60);
    for (number, section) in SECTIONS.into_iter().enumerate() {
        if rng.one_in(4) {
            continue;
        }
        let count = match number == long {
            true => rng.between(20, 50),
            false => rng.between(0, 5),
        };
        let lines: String = (0..count).map(|_| line(rng) + "; ").collect();
        parts.push(format!("{section} {{ {lines}}}"));
    }
    if rng.one_in(2) {
        rng.shuffle(&mut parts);
    }
    let info =
        format!("TITLE: \"\" DESCRIPTION: \"\" SEMANTICS: {semantics}{strict} TARGET: {target}");
    let text = format!(
        "INFO {{ {info} }} GLOBAL {{ {global} }} MAIN {{ {} }}",
        parts.join(" ")
    );
    text.into_bytes()
}

/// INPUTS and OUTPUTS: a bus is declared by an enumeration, which may imply a line, or by its width.
fn signals(rng: &mut Prng) -> [String; 2] {
    let mut bus = |name: &str, kind: &str, width: u32| match rng.one_in(3) {
        true => format!("{kind} {name}"),
        false => format!("{name}[{width}]"),
    };
    let inputs = format!("i; j; {}; {};", bus("t", "T", 2), bus("u", "Y", 3));
    let outputs = [bus("e", "V", 2), bus("f", "T", 2), bus("g", "T", 2)].join("; ");
    [
        format!("INPUTS {{ {inputs} }}"),
        format!("OUTPUTS {{ o; p; {outputs}; }}"),
    ]
}

/// Some alternatives, or now and then something that fails more often.
fn line(rng: &mut Prng) -> String {
    if rng.one_in(40) {
        let body = literal(rng);
        return rng
            .pick(&["false", "F false", "G true", "d", &body])
            .to_string();
    }
    let mut line = literal(rng);
    for _ in 0..rng.between(2, 5) {
        let sign = *rng.pick(&["||", "||", "->", "U", "W"]);
        let other = literal(rng);
        line = format!("({line}) {sign} ({other} || {})", literal(rng));
    }
    line
}

fn literal(rng: &mut Prng) -> String {
    let atom = match rng.below(8) {
        0 => rng
            .pick(&["t == A", "t != B", "f == B", "u == E", "e != D", "d"])
            .to_string(),
        _ => rng.pick(&SIGNALS).to_string(),
    };
    match rng.below(8) {
        0 => format!("X ({atom})"),
        1 => format!("F ({atom})"),
        2 => format!("F[1:2] ({atom})"),
        3 | 4 => format!("!({atom})"),
        _ => atom,
    }
}
