//! Texts of any size as makers write them: parameters, definitions, buses, an enumeration, long names, comments and blanks. And small ones that have every
//! operator below every other.

use second::generate::prng::Prng;
use std::fmt::Write;

const HEAD: &str = "INFO {
  TITLE: \"Sorting plant\"
  DESCRIPTION: \"Belts, gates and lamps of one hall – generated\"
  SEMANTICS: Mealy
  TARGET: Mealy
}

GLOBAL {
  PARAMETERS {
    gates = 4;
  }
  DEFINITIONS {
    // the hall's modes
    enum Mode =
      IDLE: 00
      SORTING: 01
      CLEARING: 10, 11;
    quiet = !start_button && &&[0 <= i < gates] !item_at[i];
  }
}

MAIN {
  INPUTS {
    start_button;
    stop_button;
    item_at[gates];
    Mode hall_mode;
  }
  OUTPUTS {
    belt_motor;
    warning_lamp;
    open_gate[gates];
  }
  PRESET {
    !belt_motor;
    &&[0 <= i < gates] !open_gate[i];
  }
  ASSUME {
    G F quiet;
  }
  GUARANTEE {
";

const SIGNALS: [&str; 8] = [
    "start_button",
    "stop_button",
    "item_at[0]",
    "item_at[gates - 1]",
    "belt_motor",
    "warning_lamp",
    "open_gate[1]",
    "hall_mode == SORTING",
];

/// A text of about so many bytes.
pub fn text(rng: &mut Prng, bytes: usize) -> String {
    let mut text = HEAD.to_string();
    while text.len() < bytes {
        line(rng, &mut text);
    }
    text.push_str("  }\n}\n");
    text
}

fn line(rng: &mut Prng, text: &mut String) {
    let _ = match rng.below(8) {
        0..=2 => writeln!(text, "    // what the belt owes the gates, paragraph {}", rng.below(100)),
        3 => writeln!(text, "    /* the hall's own rules */\n"),
        4 => writeln!(text, "    &&[0 <= i < gates] G (item_at[i] -> F open_gate[i]);"),
        5 => writeln!(text, "    G (hall_mode == CLEARING -> F[1:{}] !belt_motor);", rng.between(1, 4)),
        _ => writeln!(text, "    G {};", expression(rng, 3)),
    };
}

fn expression(rng: &mut Prng, levels: usize) -> String {
    if levels == 0 || rng.one_in(4) {
        return format!("({})", rng.pick(&SIGNALS));
    }
    let operator = *rng.pick(&["!", "X", "F", "&&", "||", "->", "U", "W", "R"]);
    let left = expression(rng, levels - 1);
    applied(operator, &left, || expression(rng, levels - 1))
}

/// The signals of a small text: one bit of the bus would have another signal's name in a line of LTL.
pub const SMALL_SIGNALS: [&str; 4] = ["a", "b[0]", "b[1]", "b_1"];

const OPERATORS: [&str; 11] = ["!", "X", "G", "F", "&&", "||", "->", "<->", "U", "R", "W"];

/// A text whose guarantee has at most so many levels, each of the other sections being there now and then.
pub fn small_text(rng: &mut Prng, levels: usize) -> String {
    let mut sections = String::new();
    for section in ["INITIALLY", "PRESET", "REQUIRE", "ASSERT", "ASSUME"] {
        if rng.one_in(6) {
            let _ = write!(sections, "{section} {{ {}; }} ", small_expression(rng, 1));
        }
    }
    let guarantee = small_expression(rng, levels);
    small_frame(rng, &sections, &guarantee)
}

/// A text that says of two signals what an operator says.
pub fn operator_text(rng: &mut Prng, operator: &str) -> String {
    let mut signals = SMALL_SIGNALS;
    rng.shuffle(&mut signals);
    let guarantee = applied(operator, signals[0], || signals[1].to_string());
    small_frame(rng, "", &guarantee)
}

/// A text that says of three signals what a formula of x, y and z says.
pub fn nested_text(rng: &mut Prng, formula: &str) -> String {
    let mut signals = SMALL_SIGNALS;
    rng.shuffle(&mut signals);
    let mut guarantee = formula.to_string();
    for (letter, signal) in ["x", "y", "z"].iter().zip(signals) {
        guarantee = guarantee.replace(letter, signal);
    }
    small_frame(rng, "", &guarantee)
}

fn small_frame(rng: &mut Prng, sections: &str, guarantee: &str) -> String {
    let semantics = *rng.pick(&["Mealy", "Mealy,Strict"]);
    format!(
        "INFO {{ TITLE: \"t\" DESCRIPTION: \"d\" SEMANTICS: {semantics} TARGET: Mealy }} \
         MAIN {{ INPUTS {{ a; b[2]; }} OUTPUTS {{ b_1; }} {sections}GUARANTEE {{ {guarantee}; }} }}\n"
    )
}

fn small_expression(rng: &mut Prng, levels: usize) -> String {
    if levels == 0 || rng.one_in(6) {
        return rng.pick(&SMALL_SIGNALS).to_string();
    }
    let operator = *rng.pick(&OPERATORS);
    let left = small_expression(rng, levels - 1);
    applied(operator, &left, || small_expression(rng, levels - 1))
}

fn applied(operator: &str, left: &str, right: impl FnOnce() -> String) -> String {
    match operator {
        "!" | "X" | "G" | "F" => format!("({operator} {left})"),
        _ => format!("({left} {operator} {})", right()),
    }
}
