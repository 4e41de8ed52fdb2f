//! corpus FOLDER SEED COUNT: short generated texts, and the words and signs of the format as AFL++'s dictionary, to begin a guided run with.

use second::generate::{self, prng::Prng};
use second::token::FORMAT_WORDS;
use std::path::Path;

const LONGEST: usize = 400;

const SIGNS: [&str; 37] = [
    "(*)",
    "(+)",
    "(\\)",
    "(-)",
    "<->",
    "==",
    "!=",
    "/=",
    "<=",
    ">=",
    "<-",
    "&&",
    "||",
    "->",
    "..",
    "(",
    ")",
    "[",
    "]",
    "{",
    "}",
    ",",
    ";",
    ":",
    "=",
    "|",
    "+",
    "*",
    "/",
    "%",
    "-",
    "<",
    ">",
    "!",
    "256",
    "1000000",
    "&&[0<=i<2]",
];

fn main() {
    let words: Vec<String> = std::env::args().skip(1).collect();
    let [folder, seed, count] = &words[..] else {
        eprintln!("usage: corpus FOLDER SEED COUNT");
        std::process::exit(2);
    };
    let folder = Path::new(folder);
    let mut rng = Prng::new(seed.parse().expect("SEED is a number"));
    std::fs::create_dir_all(folder.join("texts")).expect("the folder can be made");
    for number in 0..count.parse().expect("COUNT is a number") {
        let text = generate::short_text(&mut rng, LONGEST);
        let file = folder.join("texts").join(format!("text{number}"));
        std::fs::write(file, text).expect("a text can be written");
    }
    let escaped = |word: &&str| format!("\"{}\"\n", word.replace('\\', "\\\\"));
    let dictionary: String = FORMAT_WORDS.iter().chain(&SIGNS).map(escaped).collect();
    std::fs::write(folder.join("dictionary"), dictionary).expect("the dictionary can be written");
}
