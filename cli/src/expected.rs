//! What may stand at a place of a text: the library is asked about every kind of token in its stead, so that nothing is guessed.

use crate::formula::Refusal;
use crate::outline::Outline;
use crate::tokens::{Kind, Token, SIGNS, WORDS};
use crate::worker::Pool;

const NAME: &str = "a name";
const NUMBER: &str = "a number";
const MARKS: &str = "a word of 0, 1, *";
const STRING: &str = "a string";
const END: &str = "the end of the text";

/// The refusal of a token that nothing continues.
const UNEXPECTED: u32 = 4;

/// Every kind of token that the library accepts after a text's first bytes, as it is called in a message: signs and words by their spelling.
/// Nothing if that cannot be told, since such a text is too long.
pub fn tokens(text: &[u8], place: usize, outline: &Outline, pool: &Pool) -> Option<Vec<&'static str>> {
    let whole = text.get(..place)?;
    let count = outline.tokens.partition_point(|token| token.start < place);
    let before = &outline.tokens[..count];
    let shorter = without_statements(text, outline, count);
    // Both are refused at the found token, or the shorter one is not the same to the grammar.
    let found = outline
        .tokens
        .get(count)
        .map_or(String::new(), |token| format!(" {}", token.shown(text)));
    let [found_there, operands @ ..] = &pool.answers(&shorter, &[&found, " z", " (", " 1"])?[..] else {
        return None;
    };
    let is_refused = |answer: &Option<Refusal>, beginning: &[u8], ending: &str| {
        let unexpected = answer.filter(|refusal| refusal.number == UNEXPECTED);
        unexpected.is_some_and(|refusal| refusal.place == refused_place(beginning, ending))
    };
    let beginning = if is_refused(found_there, &shorter, &found) {
        &shorter[..]
    } else {
        whole
    };
    let takes = |operand: &Option<Refusal>| !is_refused(operand, &shorter, " z");
    let position = Position {
        in_words: is_in_enumeration(text, before),
        in_statement: depth(text, before) >= 2,
        takes_operand: operands.iter().any(takes),
        takes_number: operands.last().is_some_and(takes),
    };
    let (names, spellings) = candidates(&position);
    let endings: Vec<&str> = spellings.iter().map(String::as_str).collect();
    let answers = pool.answers(beginning, &endings)?;
    if answers.iter().flatten().any(|refusal| refusal.number < UNEXPECTED) {
        return None;
    }
    let asked = names.iter().zip(&answers).zip(&spellings);
    let mut expected: Vec<&'static str> = asked
        .filter(|((_, answer), ending)| !is_refused(answer, beginning, ending))
        .map(|((name, _), _)| *name)
        .collect();
    let others = OTHER_NAMES
        .iter()
        .filter(|(_, name)| expected.contains(name))
        .map(|(other, _)| *other);
    expected.extend(others.collect::<Vec<&str>>());
    Some(expected)
}

/// What is known of a place before every kind of token is asked for: some then need not be.
struct Position {
    /// In an enumeration, where `*` and numbers are words of it.
    in_words: bool,
    /// Within a section, or a brace of one: no other section, and nothing of INFO, can stand there.
    in_statement: bool,
    /// A name, a number or a parenthesis can stand here; where none can, no expression begins.
    takes_operand: bool,
    /// A number can stand here: then nothing does that stands between two operands.
    takes_number: bool,
}

/// Words that stand outside all sections.
const OUTSIDE: &str =
    "INFO TITLE DESCRIPTION SEMANTICS TARGET TAGS GLOBAL PARAMETERS DEFINITIONS MAIN INPUTS OUTPUTS INITIALLY PRESET REQUIRE \
                       ASSERT ASSUME GUARANTEE INVARIANTS ASSUMPTIONS GUARANTEES Mealy Moore Strict";
/// Tokens that do nothing but begin an expression.
const PREFIXES: &str = "! X F G true false SUM PROD SIZE MIN MAX SIZEOF FORALL EXISTS";
/// Operators that stand between two operands and nowhere else.
const BETWEEN: &str = "-> <-> U R W == != < <= > >= - / % (\\) PLUS MUL IN";

impl Position {
    fn may_have(&self, token: &str) -> bool {
        !(self.in_statement && is_one_of(OUTSIDE, token)
            || !self.takes_operand && is_one_of(PREFIXES, token)
            || self.takes_number && is_one_of(BETWEEN, token))
    }
}

/// How many braces are open.
fn depth(text: &[u8], tokens: &[Token]) -> usize {
    let count = |sign: &str| tokens.iter().filter(|token| token.is(text, sign)).count();
    count("{").saturating_sub(count("}"))
}

/// Table 1's and v1.0's other names of what is tried already: the grammar knows no difference.
const OTHER_NAMES: [(&str, &str); 22] = [
    ("NOT", "!"),
    ("AND", "&&"),
    ("OR", "||"),
    ("IMPLIES", "->"),
    ("EQUIV", "<->"),
    ("EQ", "=="),
    ("NEQ", "!="),
    ("/=", "!="),
    ("LE", "<"),
    ("LEQ", "<="),
    ("GE", ">"),
    ("GEG", ">="),
    ("GEQ", ">="),
    ("ELEM", "IN"),
    ("<-", "IN"),
    ("DIV", "/"),
    ("MOD", "%"),
    ("MINUS", "-"),
    ("(-)", "(\\)"),
    ("SETMINUS", "(\\)"),
    ("CAP", "(*)"),
    ("CUP", "(+)"),
];

/// Where a token that stands after a blank is refused; the end of the text for none.
fn refused_place(beginning: &[u8], ending: &str) -> usize {
    beginning.len() + usize::from(!ending.is_empty())
}

/// What each kind of token is called, and one token of it after a blank.
fn candidates(position: &Position) -> (Vec<&'static str>, Vec<String>) {
    let in_words = position.in_words;
    let is_tried = |spelling: &&str| position.may_have(spelling) && !OTHER_NAMES.iter().any(|(other, _)| other == spelling);
    let mut names: Vec<&'static str> = SIGNS.into_iter().chain(WORDS).filter(is_tried).collect();
    let mut spellings: Vec<String> = names.iter().map(|spelling| format!(" {spelling}")).collect();
    // `*` is a word of an enumeration there.
    names.push(NAME);
    spellings.push(" z".to_string());
    names.push(STRING);
    spellings.push(" \"\"".to_string());
    names.push(if in_words { MARKS } else { NUMBER });
    spellings.push(" 1".to_string());
    names.push(END);
    spellings.push(String::new());
    if in_words {
        let star = names.iter().position(|name| *name == "*");
        if let Some(star) = star {
            names.remove(star);
            spellings.remove(star);
        }
    }
    (names, spellings)
}

fn is_in_enumeration(text: &[u8], tokens: &[Token]) -> bool {
    let mut back = tokens.iter().rev();
    let last = back.find(|token| token.is(text, "enum") || token.is(text, ";") || token.is(text, "}"));
    last.is_some_and(|token| token.is(text, "enum"))
}

/// The same to the grammar as the first tokens: statements that are ended stand for nothing after them, nor does what a string says.
fn without_statements(text: &[u8], outline: &Outline, count: usize) -> Vec<u8> {
    let mut shorter = Vec::new();
    let mut at = 0;
    let ended = outline.statements.iter().filter(|statement| statement.tokens.end < count);
    let is_ended = |at: usize| outline.tokens.get(at).is_some_and(|token| token.is(text, ";"));
    for statement in ended.filter(|statement| is_ended(statement.tokens.end)) {
        put(&mut shorter, text, &outline.tokens[at..statement.tokens.start]);
        at = statement.tokens.end + 1;
    }
    put(&mut shorter, text, &outline.tokens[at.min(count)..count]);
    shorter
}

fn put(shorter: &mut Vec<u8>, text: &[u8], tokens: &[Token]) {
    for token in tokens {
        shorter.extend_from_slice(if token.kind == Kind::Quoted { b"\"\"" } else { token.bytes(text) });
        shorter.push(b' ');
    }
}

/// Tokens that begin an expression, besides names and numbers.
const BEGINNINGS: &str = "( { | ! NOT X F G true false + * SUM PROD SIZE MIN MAX SIZEOF (*) (+) CAP CUP && || AND OR FORALL EXISTS";
/// Operators between two operands.
const OPERATORS: &str = "&& || -> <-> U R W == != /= < <= > >= <- IN ELEM + - * / % (*) (+) (\\) (-) AND OR IMPLIES EQUIV \
                         EQ NEQ LE LEQ GE GEG GEQ PLUS MINUS MUL DIV MOD CAP CUP SETMINUS";
/// Names of v1.0, and other spellings of what is listed already.
const OTHER_SPELLINGS: &str = "INVARIANTS ASSUMPTIONS GUARANTEES ELEM LE LEQ <-";

/// Signs before words.
const ORDER: &str = "; ) ] , : = } [ (";

fn is_one_of(list: &str, token: &str) -> bool {
    list.split_ascii_whitespace().any(|known| known == token)
}

/// The list in a few words: `';', '}' or an operator`.
pub fn in_words(expected: &[&'static str]) -> String {
    let has = |token: &str| expected.contains(&token);
    let formula = has("(") && has("true");
    let operand = formula || (has("(") && has(NUMBER));
    let operators = expected.iter().filter(|token| is_one_of(OPERATORS, token)).count();
    let several = operators > 3 && !operand;
    let mut parts: Vec<String> = Vec::new();
    // What most often is missing stands first.
    let rank = |token: &str| {
        ORDER
            .split_ascii_whitespace()
            .position(|known| known == token)
            .unwrap_or(usize::MAX)
    };
    let mut ordered = expected.to_vec();
    ordered.sort_by_key(|token| rank(token));
    for token in ordered {
        let is_beginning = operand && (is_one_of(BEGINNINGS, token) || [NAME, NUMBER].contains(&token));
        let is_operator = several && is_one_of(OPERATORS, token);
        if is_beginning || is_operator || (expected.len() > 3 && is_one_of(OTHER_SPELLINGS, token)) {
            continue;
        }
        parts.push(match token {
            NAME | NUMBER | MARKS | STRING | END => token.to_string(),
            _ => format!("'{token}'"),
        });
    }
    match (formula, operand) {
        (true, _) => parts.push("an expression".to_string()),
        (_, true) => parts.push("a number or a set".to_string()),
        _ => {}
    }
    if several {
        parts.push("an operator".to_string());
    }
    listed(&parts)
}

/// With commas, and `or` before the last.
fn listed(parts: &[String]) -> String {
    match parts {
        [] => "nothing".to_string(),
        [one] => one.clone(),
        [several @ .., last] => format!("{} or {last}", several.join(", ")),
    }
}

#[cfg(test)]
mod tests {
    use super::*;

    #[test]
    fn lists_in_words() {
        assert_eq!(
            in_words(&["}", ";", "&&", "||", "->", "<->", "AND", "U"]),
            "';', '}' or an operator"
        );
        assert_eq!(in_words(&["(", "{", "!", "true", "X", NAME, NUMBER]), "an expression");
        assert_eq!(in_words(&["Mealy", "Moore"]), "'Mealy' or 'Moore'");
        assert_eq!(in_words(&[NAME]), NAME);
        assert_eq!(in_words(&[]), "nothing");
    }
}
