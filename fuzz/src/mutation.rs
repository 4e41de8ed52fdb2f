//! Good texts mutated: tokens deleted, doubled, swapped, moved and wrapped, two texts spliced, numbers changed, bytes damaged.

use crate::shapes;
use compare::long;
use second::generate::{self, damage, limits::LIMITS, prng::Prng};
use second::token::{self, FORMAT_WORDS};

/// A text is cut off here, above the limit of 32,768 bytes.
const LONGEST: usize = 40_000;

const NUMBERS: [&str; 16] = [
    "0",
    "1",
    "2",
    "3",
    "8",
    "16",
    "255",
    "256",
    "257",
    "8191",
    "8192",
    "1000000",
    "1000001",
    "4294967296",
    "18446744073709551616",
    "00000000000000000001",
];

/// Tokens, each with the blanks and comments before it.
type Pieces = Vec<Vec<u8>>;

pub fn mutated(rng: &mut Prng) -> Vec<u8> {
    let base = good(rng);
    let mut pieces = pieces(&base);
    for _ in 0..*rng.pick(&[1, 1, 1, 2, 3, 6]) {
        mutate(rng, &mut pieces);
    }
    let mut text = pieces.concat();
    if rng.one_in(6) {
        damage::damage_bytes(rng, &mut text);
    }
    text.truncate(LONGEST);
    match bounded(&text) {
        true => text,
        false => base,
    }
}

/// A text that was meant to be accepted, stands at a limit, is long, or has an extreme shape.
fn good(rng: &mut Prng) -> Vec<u8> {
    match rng.below(12) {
        0 => {
            let length = rng.between(200, 33_000);
            long::filled(rng, length)
        }
        1 => {
            let beyond = rng.one_in(2);
            (rng.pick(&LIMITS).text)(rng, beyond).into_bytes()
        }
        2 => shapes::shape(rng).into_bytes(),
        3 => generate::any_text(rng),
        _ => generate::sound_text(rng),
    }
}

fn pieces(text: &[u8]) -> Pieces {
    let Ok(tokens) = token::scan(text) else {
        return text.chunks(5).map(<[u8]>::to_vec).collect();
    };
    let mut end = 0;
    let mut pieces = Pieces::new();
    for token in tokens {
        pieces.push(text[end..token.end].to_vec());
        end = token.end;
    }
    pieces.push(text[end..].to_vec());
    pieces
}

/// Some pieces in a row, mostly few.
fn range(rng: &mut Prng, pieces: &Pieces) -> std::ops::Range<usize> {
    let most = *rng.pick(&[1, 3, 12, 200]);
    let start = rng.below(pieces.len());
    start..(start + rng.between(1, most)).min(pieces.len())
}

fn mutate(rng: &mut Prng, pieces: &mut Pieces) {
    if pieces.is_empty() {
        return;
    }
    let at = rng.below(pieces.len());
    let range = range(rng, pieces);
    let part: Pieces = pieces[range.clone()].to_vec();
    match rng.below(10) {
        0 => drop(pieces.drain(range)),
        1 => drop(pieces.splice(at..at, part)),
        2 => pieces.swap(at, range.start),
        3 => splice(rng, pieces, at),
        4 => pieces[at] = part[0].clone(),
        5 => change_number(rng, pieces),
        6 => {
            let most = *rng.pick(&[3, 40, 400]);
            let times = rng.between(2, most);
            let many = part.iter().cycle().take(times * part.len()).cloned();
            drop(pieces.splice(at..at, many.collect::<Pieces>()));
        }
        7 => wrap(rng, pieces, range),
        8 => {
            let word = format!(" {} ", rng.pick(&FORMAT_WORDS));
            pieces.insert(at, word.into_bytes());
        }
        _ => {
            drop(pieces.drain(range));
            let at = at.min(pieces.len());
            drop(pieces.splice(at..at, part));
        }
    }
}

/// The front of one text and the end of another.
fn splice(rng: &mut Prng, pieces: &mut Pieces, at: usize) {
    let other = self::pieces(&good(rng));
    let from = rng.below(other.len());
    pieces.truncate(at);
    pieces.extend_from_slice(&other[from..]);
}

fn change_number(rng: &mut Prng, pieces: &mut Pieces) {
    let is_number = |piece: &Vec<u8>| piece.last().is_some_and(u8::is_ascii_digit);
    let places: Vec<usize> = (0..pieces.len())
        .filter(|at| is_number(&pieces[*at]))
        .collect();
    if places.is_empty() {
        return;
    }
    let number = match rng.one_in(4) {
        true => rng.below(1_100).to_string(),
        false => rng.pick(&NUMBERS).to_string(),
    };
    pieces[*rng.pick(&places)] = format!(" {number}").into_bytes();
}

/// Brackets around some pieces, once or many times.
fn wrap(rng: &mut Prng, pieces: &mut Pieces, range: std::ops::Range<usize>) {
    let most = *rng.pick(&[2, 300]);
    let times = rng.between(1, most);
    let (open, close) = *rng.pick(&[
        ("(", ")"),
        ("{", "}"),
        ("|{", "}|"),
        ("!(", ")"),
        ("[", "]"),
    ]);
    pieces.insert(range.end, close.repeat(times).into_bytes());
    pieces.insert(range.start, open.repeat(times).into_bytes());
}

/// Whether the text has few sets to run over, or only small numbers: nested big operators cost 256 to the number of their nesting by definition.
fn bounded(text: &[u8]) -> bool {
    let Ok(tokens) = token::scan(text) else {
        return true;
    };
    let bytes = |token: &token::Token| &text[token.start..token.end];
    let signs: [&[u8]; 7] = [b"IN", b"ELEM", b"<-", b"<", b"<=", b"LE", b"LEQ"];
    let sets = tokens.iter().filter(|token| signs.contains(&bytes(token)));
    let large = |token: &token::Token| bytes(token).len() > 1 && bytes(token)[0].is_ascii_digit();
    sets.count() <= 3 || !tokens.iter().any(large)
}
