//! Refusal 4: an unexpected token, with what the library would accept in its place.

use super::{Advice, Case};
use crate::expected;
use crate::near;
use crate::tokens::{Kind, Token};

/// A token that cannot stand where it does, and what stands before it.
struct Found<'a> {
    case: &'a Case<'a>,
    /// Its number; the count of tokens where the text ends.
    at: usize,
    expected: Vec<&'static str>,
}

pub fn advice(case: &Case) -> Advice {
    let tokens = &case.outline.tokens;
    let at = case.outline.token_at(case.refusal.place).unwrap_or(tokens.len());
    let expected = expected::tokens(case.text, case.refusal.place, &case.outline, case.pool).unwrap_or_default();
    let found = Found { case, at, expected };
    let what = match tokens.get(at) {
        Some(token) if token.kind == Kind::Quoted => "unexpected string".to_string(),
        Some(_) => format!("unexpected '{}'", found.spelling(0)),
        None => "the text ends too early".to_string(),
    };
    let mut advice = Advice {
        mark: case.token(),
        label: "unexpected".to_string(),
        title: Some(what.clone()),
        ..Advice::default()
    };
    if !found.expected.is_empty() {
        let list = expected::in_words(&found.expected);
        advice.title = Some(format!("{what}, expected {list}"));
        advice.label = format!("expected {list}");
    }
    found.hint(&mut advice);
    advice.expected = found.expected;
    advice
}

impl<'a> Found<'a> {
    /// The spelling of a token so many after the found one, or before it.
    fn spelling(&self, steps: isize) -> &'a str {
        self.at.checked_add_signed(steps).map_or("", |at| self.case.spelling(at))
    }

    fn token(&self, steps: isize) -> Option<&'a Token> {
        self.at.checked_add_signed(steps).and_then(|at| self.case.outline.tokens.get(at))
    }

    fn kind(&self, steps: isize) -> Option<Kind> {
        self.token(steps).map(|token| token.kind)
    }

    fn expects(&self, token: &str) -> bool {
        self.expected.contains(&token)
    }

    /// The first thing that fits is told.
    fn hint(&self, advice: &mut Advice) {
        let hints = [
            Found::empty,
            Found::past_operator,
            Found::function,
            Found::foreign_operator,
            Found::slice,
            Found::range_of_set,
            Found::section_twice,
            Found::missing_section,
            Found::order,
            Found::in_info,
            Found::misspelt,
            Found::no_section,
            Found::unclosed,
            Found::word_as_name,
            Found::missing_semicolon,
            Found::missing_semicolon_earlier,
            Found::missing_operand,
            Found::big_operator,
            Found::looser_operator,
            Found::too_many_closed,
            Found::begins_with_digit,
            Found::only_one,
        ];
        for hint in hints {
            if let Some(note) = hint(self, advice) {
                advice.notes.push(note);
                return;
            }
        }
        advice
            .notes
            .push("The text up to here is in order; look at this word and the one before it.".to_string());
    }

    fn empty(&self, _: &mut Advice) -> Option<String> {
        let nothing = self.case.outline.tokens.is_empty();
        nothing.then(|| "The file is empty, or has comments only. A text begins with 'INFO {'.".to_string())
    }

    fn function(&self, _: &mut Advice) -> Option<String> {
        let name = self.spelling(-1);
        let called = self.spelling(0) == "(" && self.kind(-1) == Some(Kind::Name);
        if called && self.expects("=") {
            return Some(format!(
                "'{name}(' declares a function: functions are not read yet. Write it out, or use a definition without arguments."
            ));
        }
        called.then(|| format!("'{name}(' calls a function: functions are not read yet. Is an operator missing between the two?"))
    }

    /// Signs of other languages, which are read as two tokens here.
    fn foreign_operator(&self, advice: &mut Advice) -> Option<String> {
        const FOREIGN: [(&str, &str, &str); 8] = [
            ("=", ">", "->"),
            ("<=", ">", "<->"),
            ("-", ">", "->"),
            ("&&", "&&", "&&"),
            ("<", ">", "F"),
            ("[", "]", "G"),
            ("~", "", "!"),
            ("|", "", "||"),
        ];
        let (first, next) = (self.token(0)?, self.token(1));
        if self.spelling(0) == "=" && self.expects("==") && next.is_none_or(|next| next.start > first.end || !next.is(self.case.text, ">"))
        {
            return Some("'=' declares: to compare, write '=='.".to_string());
        }
        let touching = next
            .filter(|next| next.start == first.end)
            .map_or("", |next| next.shown_str(self.case.text));
        // Looked at from the second sign too: the first may still be expected.
        let before = self
            .token(-1)
            .filter(|before| before.end == first.start && before.kind == Kind::Sign);
        let before = before.map_or("", |before| before.shown_str(self.case.text));
        let found = FOREIGN.iter().find(|(one, two, _)| {
            (self.spelling(0) == *one && (two.is_empty() || touching == *two))
                || (!two.is_empty() && before == *one && self.spelling(0) == *two)
        });
        let (one, two, meant) = found?;
        if before == *one && !two.is_empty() {
            advice.mark = first.start - one.len()..first.end;
        } else if touching == *two && !two.is_empty() {
            advice.mark = first.start..first.end + two.len();
        }
        Some(format!("'{one}{two}' is no operator here: write '{meant}'."))
    }

    fn past_operator(&self, _: &mut Advice) -> Option<String> {
        let (before, now) = (self.kind(-1)?, self.kind(0)?);
        let operand = now == Kind::Name || ["(", "!", "X", "F", "G"].contains(&self.spelling(0));
        let is_past = before == Kind::Name && operand && ["H", "O", "Y", "Z", "S", "T", "B", "P"].contains(&self.spelling(-1));
        let name = self.spelling(-1);
        is_past.then(|| format!("'{name}' is read as a name: the format has no operators for the past, only X, F, G, U, W and R."))
    }

    fn slice(&self, _: &mut Advice) -> Option<String> {
        let in_index = self.expects("]") && [":", "..", ","].contains(&self.spelling(0));
        in_index.then(|| "A bus has one index at a time: for several bits write '&&[0 <= i < 4] b[i]'.".to_string())
    }

    fn range_of_set(&self, _: &mut Advice) -> Option<String> {
        let range = self.spelling(0) == ".." && self.expects("}");
        range.then(|| "A range is written with its first two elements: '{0, 1 .. 7}'.".to_string())
    }

    fn section_twice(&self, advice: &mut Advice) -> Option<String> {
        let word = self.spelling(0);
        if self.kind(0) != Some(Kind::Word) || !word.bytes().all(|byte| byte.is_ascii_uppercase()) || word.len() < 4 {
            return None;
        }
        let outline = &self.case.outline;
        let place = self.token(0)?.start;
        let of_today = |spelling: &'a str| match spelling {
            "INVARIANTS" => "ASSERT",
            "ASSUMPTIONS" => "ASSUME",
            "GUARANTEES" => "GUARANTEE",
            spelling => spelling,
        };
        let same = |spelling: &'a str| of_today(spelling) == of_today(word);
        let first = outline.tokens[..self.at]
            .iter()
            .find(|token| token.kind == Kind::Word && same(token.shown_str(self.case.text)) && token.start < place)?;
        advice.others.push((first.start..first.end, "it stands here already".to_string()));
        advice.title = Some(format!("{word} stands twice"));
        Some(format!("Each section stands at most once: put the lines of both into one {word}."))
    }

    fn missing_section(&self, advice: &mut Advice) -> Option<String> {
        if self.spelling(0) != "}" {
            return None;
        }
        let missing: Vec<&str> = ["INPUTS", "OUTPUTS"].into_iter().filter(|section| self.expects(section)).collect();
        if missing.is_empty() || self.expects("}") {
            return None;
        }
        advice.title = Some(format!("MAIN ends without {}", missing.join(" and ")));
        Some("MAIN has both INPUTS and OUTPUTS, also where one is empty: 'OUTPUTS { }'.".to_string())
    }

    fn order(&self, _: &mut Advice) -> Option<String> {
        let info = ["TITLE", "DESCRIPTION", "SEMANTICS", "TARGET", "TAGS"];
        if info.iter().any(|entry| self.expects(entry)) && (info.contains(&self.spelling(0)) || self.spelling(0) == "}") {
            return Some("INFO's lines come in this order: TITLE, DESCRIPTION, SEMANTICS, TARGET, and TAGS if there are any.".to_string());
        }
        match self.spelling(0) {
            "GLOBAL" => Some("GLOBAL stands before MAIN.".to_string()),
            "PARAMETERS" => Some("PARAMETERS stands before DEFINITIONS, both in GLOBAL.".to_string()),
            "DEFINITIONS" if !self.expects("DEFINITIONS") => Some("DEFINITIONS stands in GLOBAL, before MAIN.".to_string()),
            _ => None,
        }
    }

    fn in_info(&self, _: &mut Advice) -> Option<String> {
        let in_info = ["DESCRIPTION", "SEMANTICS", "TARGET", "TAGS"]
            .iter()
            .any(|entry| self.expects(entry));
        match self.spelling(0) {
            "," if self.spelling(-3) == "TARGET" => Some("'Strict' goes with SEMANTICS: 'SEMANTICS: Mealy,Strict'.".to_string()),
            ";" if in_info => Some("INFO's lines end without ';'.".to_string()),
            _ if self.expects("a string") && self.expected.len() == 1 => Some("Put it in double quotes.".to_string()),
            _ => None,
        }
    }

    fn no_section(&self, _: &mut Advice) -> Option<String> {
        let here = self.kind(0) == Some(Kind::Name) && self.expects("REQUIRE") | self.expects("INITIALLY") | self.expects("GUARANTEE");
        here.then(|| {
            let name = self.spelling(0);
            format!("'{name}' is no section. MAIN has INPUTS, OUTPUTS, INITIALLY, PRESET, REQUIRE, ASSERT, ASSUME and GUARANTEE.")
        })
    }

    fn misspelt(&self, _: &mut Advice) -> Option<String> {
        let words = self
            .expected
            .iter()
            .copied()
            .filter(|word| word.starts_with(|c: char| c.is_ascii_alphabetic()) && !word.contains(' '));
        let found = self.spelling(0);
        let near = near::nearest(found, words).filter(|near| self.kind(0) == Some(Kind::Name) && near.len() > 1)?;
        Some(format!("Did you mean {near}?"))
    }

    fn word_as_name(&self, _: &mut Advice) -> Option<String> {
        let word = self.spelling(0);
        let is_word = self.kind(0) == Some(Kind::Word) && self.expects("a name") && !self.starts_line_after_statement();
        is_word.then(|| {
            format!(
                "'{word}' is a word of the format and cannot be a name: choose another, '{}_' for one.",
                word.to_lowercase()
            )
        })
    }

    fn starts_line_after_statement(&self) -> bool {
        let (Some(before), Some(now)) = (self.token(-1), self.token(0)) else {
            return false;
        };
        self.expects(";") && self.case.line_of(before.end) < self.case.line_of(now.start)
    }

    /// An opening sign that has no partner, the innermost first.
    fn unclosed(&self, advice: &mut Advice) -> Option<String> {
        let closing = [(")", "("), ("]", "["), ("}", "{")];
        let (close, open) = closing
            .into_iter()
            .find(|(close, _)| self.expects(close) && self.spelling(0) != *close)?;
        let ends = self.at >= self.case.outline.tokens.len();
        let starts_section = self.kind(0) == Some(Kind::Word) && self.spelling(0).len() > 3 && self.starts_line();
        let is_left_open = match close {
            "}" => ends || starts_section,
            _ => ends || [";", "}"].contains(&self.spelling(0)) || self.starts_line(),
        };
        if !is_left_open {
            return None;
        }
        let opened = self.innermost(open, close)?;
        let token = self.case.outline.tokens[opened];
        let before = opened.checked_sub(1).map_or("", |before| self.case.spelling(before));
        let what = if open == "{" && !before.is_empty() {
            format!("'{before} {{'")
        } else {
            format!("'{open}'")
        };
        advice.others.push((token.start..token.end, "not closed".to_string()));
        Some(format!("The {what} of line {} is not closed.", self.case.line_of(token.start)))
    }

    fn starts_line(&self) -> bool {
        let (Some(before), Some(now)) = (self.token(-1), self.token(0)) else {
            return true;
        };
        self.case.line_of(before.end) < self.case.line_of(now.start)
    }

    fn innermost(&self, open: &str, close: &str) -> Option<usize> {
        let mut depth = 0;
        for at in (0..self.at).rev() {
            match self.case.spelling(at) {
                spelling if spelling == close => depth += 1,
                spelling if spelling == open && depth == 0 => return Some(at),
                spelling if spelling == open => depth -= 1,
                _ => {}
            }
        }
        None
    }

    fn missing_semicolon(&self, advice: &mut Advice) -> Option<String> {
        let before = self.token(-1)?;
        let begins = matches!(self.kind(0), Some(Kind::Name | Kind::Numeral | Kind::Word))
            || ["(", "!", "{", "&&", "||"].contains(&self.spelling(0));
        if !self.expects(";") || !begins {
            return None;
        }
        advice
            .others
            .push((before.start..before.end, "is a ';' missing after this?".to_string()));
        Some(format!(
            "Each line ends with ';': is one missing at the end of line {}?",
            self.case.line_of(before.start)
        ))
    }

    /// The line before has no `;`, which shows only after some tokens: `&&[` begins a big operator, `a b[2]` a bus, `name =` a definition.
    fn missing_semicolon_earlier(&self, advice: &mut Advice) -> Option<String> {
        let steps = match self.spelling(0) {
            "[" if ["&&", "||", "+", "*"].contains(&self.spelling(-1)) => -2,
            "[" if self.kind(-1) == Some(Kind::Name) && self.kind(-2) == Some(Kind::Name) => -2,
            "=" | "(" if self.expects(":") && self.kind(-1) == Some(Kind::Name) => -2,
            _ => return None,
        };
        let (before, next) = (self.token(steps)?, self.token(steps + 1)?);
        if self.case.line_of(before.end) == self.case.line_of(next.start) && self.spelling(0) == "[" && self.kind(-1) != Some(Kind::Name) {
            return None;
        }
        advice
            .others
            .push((before.start..before.end, "is a ';' missing after this?".to_string()));
        Some(format!(
            "Each line ends with ';': is one missing at the end of line {}?",
            self.case.line_of(before.start)
        ))
    }

    fn missing_operand(&self, _: &mut Advice) -> Option<String> {
        let is_closed = [";", ")", "]", "}", ","].contains(&self.spelling(0));
        let operator =
            matches!(self.kind(-1), Some(Kind::Sign | Kind::Word)) && !["(", "[", "{", ";", ",", "}"].contains(&self.spelling(-1));
        let missing = is_closed && operator && self.expects("(") && self.expects("a name");
        missing.then(|| format!("'{}' has nothing to its right.", self.spelling(-1)))
    }

    /// After a sign that begins a big operator only its brackets can follow.
    fn big_operator(&self, _: &mut Advice) -> Option<String> {
        if !self.expects("[") || self.expected.len() > 1 {
            return None;
        }
        let (before, sign) = (self.spelling(-2), self.spelling(-1));
        if matches!(self.kind(-2), Some(Kind::Sign | Kind::Word)) && ![";", "{", "(", ")", "]"].contains(&before) {
            return Some(format!(
                "After '{before}', '{sign}' begins a big operator: is one of the two too many?"
            ));
        }
        Some(format!("A big operator has its range in brackets: '{sign}[0 <= i < n] ..'."))
    }

    fn begins_with_digit(&self, _: &mut Advice) -> Option<String> {
        let digit = self.kind(0) == Some(Kind::Numeral) && self.expects("a name");
        digit.then(|| "A name begins with a letter, '_' or '@'.".to_string())
    }

    fn only_one(&self, _: &mut Advice) -> Option<String> {
        let [one] = self.expected[..] else {
            return None;
        };
        let only = if one.starts_with("a ") || one.starts_with("the ") {
            one.to_string()
        } else {
            format!("'{one}'")
        };
        Some(format!("Nothing but {only} can stand here."))
    }

    fn looser_operator(&self, _: &mut Advice) -> Option<String> {
        let operator = ["!", "NOT", "X", "F", "G", "&&", "||", "(+)", "(*)", "+", "*", "CAP", "CUP"].contains(&self.spelling(0));
        let after_operator = matches!(self.kind(-1), Some(Kind::Sign | Kind::Word)) && self.expects("(") && self.expects("a name");
        (operator && after_operator).then(|| {
            let (before, now) = (self.spelling(-1), self.spelling(0));
            format!("'{now}' binds more loosely than '{before}' before it: put what it begins in parentheses, '{before} ({now} ..)'.")
        })
    }

    fn too_many_closed(&self, _: &mut Advice) -> Option<String> {
        let close = self.spelling(0);
        let open = match close {
            ")" => "(",
            "]" => "[",
            "}" => "{",
            ";" => return Some("Nothing stands before this ';': take it out, or write the line that it ends.".to_string()),
            _ => return None,
        };
        match self.innermost(open, close) {
            None => Some(format!("One '{close}' too many: no '{open}' is open here.")),
            Some(_) => None,
        }
    }
}

impl Token {
    fn shown_str<'a>(&self, text: &'a [u8]) -> &'a str {
        std::str::from_utf8(self.bytes(text)).unwrap_or("")
    }
}
