//! Well-formed texts from a seed, and texts with a slip of a chosen kind.

mod enumerations;
mod formulas;
mod numbers;
mod sections;
mod sets;

use super::prng::Prng;

/// What a generated text gets wrong on purpose: the refusal that is likely to follow.
#[derive(Clone, Copy, Debug, PartialEq, Eq)]
pub enum Slip {
    /// 5
    Depth,
    /// 6
    Scope,
    /// 7
    Again,
    /// 9
    Type,
    /// 10
    Word,
    /// 11
    Value,
    /// 12
    Set,
    /// 13
    Bus,
    /// 15
    Wide,
    /// 16
    Long,
}

pub const SLIPS: [Slip; 10] = [
    Slip::Depth,
    Slip::Scope,
    Slip::Again,
    Slip::Type,
    Slip::Word,
    Slip::Value,
    Slip::Set,
    Slip::Bus,
    Slip::Wide,
    Slip::Long,
];

// Operators under both names.
const IN: [&str; 3] = ["IN", "ELEM", "<-"];
const LESS: [&str; 2] = ["<", "LE"];
const AT_MOST: [&str; 2] = ["<=", "LEQ"];

/// The tokens of a text with these slips; a small one stays short.
pub fn tokens(rng: &mut Prng, slips: &[Slip], small: bool) -> Vec<String> {
    let mut writer = Writer {
        rng,
        intended: slips.to_vec(),
        small,
        fuel: 0,
        tokens: Vec::new(),
        used: Vec::new(),
        gone: Vec::new(),
        scope: Scope::default(),
    };
    writer.text();
    writer.tokens
}

/// The names that are visible where the writer stands.
#[derive(Default)]
struct Scope {
    numbers: Vec<String>,
    sets: Vec<String>,
    formulas: Vec<String>,
    enumerations: Vec<Enumeration>,
    singles: Vec<String>,
    buses: Vec<Bus>,
}

#[derive(Clone)]
struct Enumeration {
    name: String,
    width: usize,
    identifiers: Vec<String>,
}

#[derive(Clone)]
struct Bus {
    name: String,
    width: usize,
}

struct Writer<'r> {
    rng: &'r mut Prng,
    intended: Vec<Slip>,
    small: bool,
    fuel: usize,
    tokens: Vec<String>,
    used: Vec<String>,
    /// Names that were visible once.
    gone: Vec<String>,
    scope: Scope,
}

const NAMES: [&str; 34] = [
    "a", "b", "c", "d", "e", "f", "g", "h", "i", "j", "k", "l", "m", "n", "o", "p", "q", "r", "s",
    "t", "u", "v", "w", "x", "y", "z", "_", "@", "A", "x'", "a1", "In", "Xa", "B_0",
];

impl Writer<'_> {
    fn put(&mut self, token: &str) {
        self.tokens.push(token.to_string());
    }

    fn put_all(&mut self, tokens: &[&str]) {
        for token in tokens {
            self.put(token);
        }
    }

    /// One of the names of an operator, the sign more often.
    fn put_one(&mut self, names: &[&str]) {
        let name = if self.rng.one_in(3) {
            self.rng.pick(names)
        } else {
            &names[0]
        };
        self.put(name);
    }

    fn spend(&mut self) -> bool {
        let some = self.fuel > 0;
        self.fuel = self.fuel.saturating_sub(1);
        some
    }

    /// Whether slips of this kind are intended at all.
    fn intends(&self, slip: Slip) -> bool {
        self.intended.contains(&slip)
    }

    /// Whether a slip of this kind happens here.
    fn slips(&mut self, slip: Slip) -> bool {
        self.intends(slip) && self.rng.one_in(4)
    }

    /// A name that is not visible in its own line or set may be used there again.
    fn hide(&mut self, name: &str) {
        if self.rng.one_in(3) {
            self.used.retain(|used| used != name);
        }
    }

    /// A name that nothing is called yet, or with the slip one that is in use.
    fn fresh(&mut self) -> String {
        if !self.used.is_empty() && self.slips(Slip::Again) {
            return self.rng.pick(&self.used).clone();
        }
        for _ in 0..20 {
            let name = self.rng.pick(&NAMES).to_string();
            if !self.used.contains(&name) {
                self.used.push(name.clone());
                return name;
            }
        }
        let name = format!("n{}", self.used.len());
        self.used.push(name.clone());
        name
    }
}
