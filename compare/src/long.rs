//! Long texts that are full of tokens: names of all lengths, definitions and lines up to a number of bytes.

use second::generate::prng::Prng;
use second::token;

const INFO: [&str; 4] = [
    "INFO{TITLE:\"\"DESCRIPTION:\"\"SEMANTICS:Mealy TARGET:Mealy}",
    "INFO{TITLE:\"\"DESCRIPTION:\"\"SEMANTICS:Mealy,Strict TARGET:Mealy}",
    "INFO{TITLE:\"\"DESCRIPTION:\"\"SEMANTICS:Mealy TARGET:Moore}",
    "INFO{TITLE:\"\"DESCRIPTION:\"\"SEMANTICS:Moore TARGET:Mealy}",
];

/// What closes a text in which a section stands open.
const END: &str = "}}";

const SECTIONS: [&str; 6] = [
    "INITIALLY",
    "PRESET",
    "REQUIRE",
    "ASSERT",
    "ASSUME",
    "GUARANTEE",
];

/// A text of at most so many bytes, if the frame fits; mostly one that is accepted, of as many bytes or of as many tokens as was drawn.
pub fn filled(rng: &mut Prng, length: usize) -> Vec<u8> {
    let mut names = names(rng);
    let mut budget = *rng.pick(&[300, 2_000, 4_000, 7_500, usize::MAX]);
    let definitions = definitions(rng, length / 3, &mut names);
    let info = *rng.pick(&INFO);
    let mut text = format!("{info}{definitions}MAIN{{INPUTS{{a;b[9]}}OUTPUTS{{c;d[7]}}");
    let mut sections = SECTIONS;
    rng.shuffle(&mut sections);
    for (number, section) in sections.iter().enumerate() {
        let share = match number {
            5 => length,
            _ => text.len() + rng.below(length.saturating_sub(text.len()) + 1),
        };
        text.push_str(&format!("{section}{{"));
        budget = lines(rng, &mut text, share, budget, &names);
        text.push('}');
    }
    text.push('}');
    text.into_bytes()
}

/// Names of definitions to come, of all lengths up to 64.
fn names(rng: &mut Prng) -> Vec<String> {
    let longest = *rng.pick(&[3, 3, 12, 64]);
    (0..rng.below(200))
        .map(|number| {
            let name = format!("n{number}");
            let more = rng.below(longest + 1 - name.len().min(longest));
            name + &"_".repeat(more)
        })
        .collect()
}

/// Formulas by name, each of the signals and the names before it; `names` keeps those that are written.
fn definitions(rng: &mut Prng, length: usize, names: &mut Vec<String>) -> String {
    let mut text = "GLOBAL{DEFINITIONS{".to_string();
    let mut written = 0;
    for number in 0..names.len() {
        let mut line = format!("{}=", names[number]);
        formula(rng, &mut line, 2, &[]);
        if text.len() + line.len() + 3 > length {
            break;
        }
        text.push_str(&line);
        text.push(';');
        written += 1;
    }
    names.truncate(written);
    text + END
}

/// Lines, as long as the text with its end is not longer than so much, and while tokens are left, which are told.
fn lines(
    rng: &mut Prng,
    text: &mut String,
    length: usize,
    budget: usize,
    names: &[String],
) -> usize {
    let depth = rng.between(0, 4);
    let mut left = budget;
    loop {
        let mut line = String::new();
        formula(rng, &mut line, depth, names);
        line.push(';');
        let tokens = token::scan(line.as_bytes()).map_or(0, |tokens| tokens.len());
        if text.len() + line.len() + END.len() > length || tokens > left {
            return left;
        }
        left -= tokens;
        text.push_str(&line);
    }
}

fn formula(rng: &mut Prng, text: &mut String, depth: usize, names: &[String]) {
    if depth == 0 || rng.one_in(8) {
        return leaf(rng, text, names);
    }
    match rng.below(12) {
        0..=2 => {
            text.push_str(rng.pick::<&str>(&["!", "X ", "F ", "G ", "X[2]", "F[0:1]"]));
            text.push('(');
            formula(rng, text, depth - 1, names);
            text.push(')');
        }
        3 => {
            // The name tells the level, so that no inner operator takes an outer one's.
            let bound = match rng.one_in(2) {
                true => format!("&&[i{depth} IN{{0,2..4}}]("),
                false => format!("||[1<=i{depth}<3]("),
            };
            text.push_str(&bound);
            formula(rng, text, depth - 1, names);
            text.push_str(&format!("&&b[i{depth}])"));
        }
        4 => text.push_str(rng.pick::<&str>(&["3*4==12", "2 IN{1,3..9}", "MIN{5,6}<7-1"])),
        _ => {
            text.push('(');
            formula(rng, text, depth - 1, names);
            let signs = ["&&", "||", "->", "<->", " U ", " R ", " W "];
            text.push_str(rng.pick::<&str>(&signs));
            formula(rng, text, depth - 1, names);
            text.push(')');
        }
    }
}

fn leaf(rng: &mut Prng, text: &mut String, names: &[String]) {
    match rng.below(8) {
        0 => text.push_str("true"),
        1 => text.push_str(&format!("b[{}]", rng.below(9))),
        2 => text.push_str(&format!("d[{}]", rng.below(7))),
        3 | 4 if !names.is_empty() => text.push_str(rng.pick::<String>(names)),
        5 => text.push('c'),
        _ => text.push('a'),
    }
}
