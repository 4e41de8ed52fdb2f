//! The signal list with names: 1 bit output flag, 15 offset of the name, 8 index in the bus, 8 width.

use std::collections::HashSet;

pub struct Signal {
    pub output: bool,
    pub name: String,
    /// Index and width of a bit of a bus.
    pub bus: Option<(u32, u32)>,
}

impl Signal {
    /// As a bench's table has it: `b[3]` for a bit of a bus.
    pub fn label(&self) -> String {
        match self.bus {
            Some((index, _)) => format!("{}[{index}]", self.name),
            None => self.name.clone(),
        }
    }
}

pub fn of(text: &[u8], entries: &[u32]) -> Vec<Signal> {
    entries.iter().map(|&entry| signal(text, entry)).collect()
}

fn signal(text: &[u8], entry: u32) -> Signal {
    let width = entry & 0xff;
    Signal {
        output: entry >> 31 == 1,
        name: name_at(text, (entry >> 16 & 0x7fff) as usize),
        bus: (width > 0).then_some((entry >> 8 & 0xff, width)),
    }
}

fn name_at(text: &[u8], offset: usize) -> String {
    let rest = text.get(offset..).unwrap_or_default();
    let of_name = |byte: &u8| byte.is_ascii_alphanumeric() || b"_'@".contains(byte);
    rest.iter().take_while(|byte| of_name(byte)).map(|&byte| char::from(byte)).collect()
}

// Words that Spot, Owl or SPIN take for operators and constants.
const OPERATORS: &str = "always and equivalent eventually false ff implies next not or release stronguntil true tt until weakuntil xor";
// Words of SPIN's models.
const WORDS_OF_MODELS: &str =
    "active assert atomic bit bool break byte c_code c_decl c_expr c_state c_track chan d_step do else empty enabled eval fi \
    for full get_priority goto hidden if in init inline int len local ltl mtype nempty never nfull notrace np_ od of \
    pc_value pid printf printm priority proctype provided run select set_priority short show skip timeout trace unless xr xs";
// Words of C, and names that the C program has that SPIN writes.
const WORDS_OF_C: &str =
    "asm auto case char const continue default double enum extern float linux long rand register restrict return signed \
    sizeof static struct sv switch typedef typeof uchar uint ulong union unix unsigned ushort void volatile while";

// Words of NuSMV that begin with a small letter.
const WORDS_OF_SMV: &str =
    "abs array bool boolean case count esac extend floor in init integer max min mod next of process real resize self signed \
    sizeof swconst toint typeof union unsigned uwconst word word1 xnor xor";

/// Names that Spot, Owl and SPIN read, each once: `b_3` for a bit of a bus; `taken` is none of them.
pub fn ltl_names(signals: &[Signal], taken: Option<&str>) -> Vec<String> {
    unique_names(signals, taken, |name| name)
}

/// The same for NuSMV, which has more words.
pub fn smv_names(signals: &[Signal]) -> Vec<String> {
    let is_word = |name: &str| WORDS_OF_SMV.split_ascii_whitespace().any(|word| word == name);
    unique_names(signals, None, |name| if is_word(&name) { format!("p_{name}") } else { name })
}

fn unique_names(signals: &[Signal], taken: Option<&str>, changed: impl Fn(String) -> String) -> Vec<String> {
    let wanted: Vec<String> = signals.iter().map(|signal| changed(readable(signal))).collect();
    let mut used: HashSet<String> = taken.map(str::to_string).into_iter().collect();
    let mut names = vec![String::new(); signals.len()];
    // Names that need no change come first, so that no bit of a bus takes one away.
    for unchanged in [true, false] {
        for (number, signal) in signals.iter().enumerate() {
            if (wanted[number] == signal.name && signal.bus.is_none()) == unchanged {
                names[number] = unused(&wanted[number], &mut used);
            }
        }
    }
    names
}

fn readable(signal: &Signal) -> String {
    let mut name: String = signal
        .name
        .chars()
        .map(|c| if c.is_ascii_alphanumeric() { c } else { '_' })
        .collect();
    if let Some((index, _)) = signal.bus {
        name = format!("{name}_{index}");
    }
    let starts_low = name.starts_with(|c: char| c.is_ascii_lowercase());
    let mut reserved = [OPERATORS, WORDS_OF_MODELS, WORDS_OF_C]
        .into_iter()
        .flat_map(|words| words.split(' '));
    if starts_low && reserved.all(|word| word != name) {
        name
    } else {
        format!("p_{name}")
    }
}

fn unused(wanted: &str, used: &mut HashSet<String>) -> String {
    let mut name = wanted.to_string();
    let mut copy = 2;
    while !used.insert(name.clone()) {
        name = format!("{wanted}_{copy}");
        copy += 1;
    }
    name
}

#[cfg(test)]
mod tests {
    use super::*;

    fn single(name: &str) -> Signal {
        Signal {
            output: false,
            name: name.to_string(),
            bus: None,
        }
    }

    fn bit(name: &str, index: u32) -> Signal {
        Signal {
            output: false,
            name: name.to_string(),
            bus: Some((index, 4)),
        }
    }

    #[test]
    fn ltl_names_are_unique_and_readable() {
        let signals = [
            bit("b", 3),
            single("b_3"),
            single("X"),
            single("always"),
            single("a'"),
            single("a@"),
            single("a_"),
            single("tick"),
            single("switch"),
        ];
        let names = ltl_names(&signals, Some("tick"));
        let due = ["b_3_2", "b_3", "p_X", "p_always", "a__2", "a__3", "a_", "tick_2", "p_switch"];
        assert_eq!(names, due);
    }
}
