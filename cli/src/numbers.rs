//! The values of plain number expressions, to be told beside a refusal: numerals, parameters, definitions of numbers and big operators'
//! names under `+ - * / %`. What is more than that is not told. The library alone decides; a value that it does not confirm by its refusal
//! is never shown.

use crate::outline::{Outline, Statement};
use crate::tokens::{Kind, Token};
use std::collections::HashMap;
use std::ops::Range;

/// Values of names.
pub type Values = HashMap<String, u64>;

const MOST: u64 = 1_000_000;

/// Why an expression has no value.
#[derive(Clone, Copy, Debug, PartialEq, Eq)]
pub enum Without {
    /// An operator, by its token's number, whose value is out of range for these operands.
    Fault { token: usize, left: u64, right: u64 },
    /// More than is looked at here.
    Unknown,
}

pub struct Numbers<'a> {
    pub text: &'a [u8],
    pub outline: &'a Outline,
}

impl<'a> Numbers<'a> {
    fn spelling(&self, token: usize) -> &'a str {
        let token: Option<&'a Token> = self.outline.tokens.get(token);
        token
            .and_then(|token| std::str::from_utf8(token.bytes(self.text)).ok())
            .unwrap_or("")
    }

    /// Parameters and definitions of numbers.
    pub fn constants(&self) -> Values {
        let mut values = Values::new();
        for statement in self
            .outline
            .statements
            .iter()
            .filter(|line| matches!(line.section, "PARAMETERS" | "DEFINITIONS"))
        {
            let tokens = statement.tokens.clone();
            if tokens.len() > 2 && self.spelling(tokens.start + 1) == "=" {
                if let Ok(value) = self.value(tokens.start + 2..tokens.end, &values) {
                    values.insert(self.spelling(tokens.start).to_string(), value);
                }
            }
        }
        values
    }

    /// The value of the expression that these tokens are.
    pub fn value(&self, tokens: Range<usize>, values: &Values) -> Result<u64, Without> {
        let mut reader = Reader {
            numbers: self,
            values,
            at: tokens.start,
            end: tokens.end,
        };
        let value = reader.expression(4, 0)?;
        if reader.at == tokens.end {
            Ok(value)
        } else {
            Err(Without::Unknown)
        }
    }

    /// The tokens around an operator that make one expression of numbers with it.
    pub fn around(&self, token: usize, statement: &Statement) -> Range<usize> {
        let belongs = |at: usize| {
            let kind = self.outline.tokens.get(at).map(|token| token.kind);
            matches!(kind, Some(Kind::Name | Kind::Numeral)) || level(self.spelling(at)).is_some()
        };
        let mut start = token;
        let mut depth = 0;
        while start > statement.tokens.start {
            let before = self.spelling(start - 1);
            match before {
                ")" => depth += 1,
                "(" if depth == 0 => break,
                "(" => depth -= 1,
                _ if depth == 0 && !belongs(start - 1) => break,
                _ => {}
            }
            start -= 1;
        }
        let mut end = token + 1;
        depth = 0;
        while end < statement.tokens.end {
            match self.spelling(end) {
                "(" => depth += 1,
                ")" if depth == 0 => break,
                ")" => depth -= 1,
                _ if depth == 0 && !belongs(end) => break,
                _ => {}
            }
            end += 1;
        }
        start..end
    }

    /// Every choice of values for the big operators' names that are known before a token, in the order in which they are worked out.
    pub fn choices(&self, statement: &Statement, before: usize) -> Vec<Values> {
        let mut choices = vec![self.constants()];
        for name in crate::declared::running(self.text, self.outline, statement) {
            let at = self.outline.token_at(name.token.start);
            let Some(at) = at.filter(|&at| self.range_end(at, statement) < before) else {
                continue;
            };
            let mut next = Vec::new();
            for values in &choices {
                let Some(elements) = self.elements(at, statement, values) else {
                    return Vec::new();
                };
                for element in elements {
                    let mut values = values.clone();
                    values.insert(name.name.clone(), element);
                    next.push(values);
                }
                if next.len() > 10_000 {
                    return Vec::new();
                }
            }
            choices = next;
        }
        choices
    }

    /// The `,` or `]` after what a big operator's name runs over: from there on it is known.
    fn range_end(&self, name: usize, statement: &Statement) -> usize {
        let mut depth = 0;
        for at in name..statement.tokens.end {
            match self.spelling(at) {
                "(" | "[" | "{" => depth += 1,
                "," | "]" if depth == 0 => return at,
                ")" | "]" | "}" => depth -= 1,
                _ => {}
            }
        }
        statement.tokens.end
    }

    /// The elements that a big operator's name runs over: of bounds, or of a set that is written out.
    fn elements(&self, name: usize, statement: &Statement, values: &Values) -> Option<Vec<u64>> {
        let in_statement = statement.tokens.clone();
        if ["IN", "ELEM", "<-"].contains(&self.spelling(name + 1)) {
            return self.set(name + 2, in_statement.end, values);
        }
        let included = |at: usize| ["<=", "LEQ"].contains(&self.spelling(at));
        let low_start = (in_statement.start..name)
            .rev()
            .find(|&at| ["[", ","].contains(&self.spelling(at)))?
            + 1;
        let high_end = self.range_end(name, statement);
        let low = self.value(low_start..name - 1, values).ok()? + u64::from(!included(name - 1));
        let high = self.value(name + 2..high_end, values).ok()? + u64::from(included(name + 1));
        Some((low..high.min(low + 300)).collect())
    }

    fn set(&self, open: usize, end: usize, values: &Values) -> Option<Vec<u64>> {
        let mut parts = self.set_parts(open, end)?;
        let is_range = parts.len() == 2 && self.spelling(parts[1].end) == "..";
        if is_range {
            let close = (parts[1].end..end).find(|&at| self.spelling(at) == "}")?;
            parts.push(parts[1].end + 1..close);
        }
        let numbers: Vec<u64> = parts
            .iter()
            .map(|part| self.value(part.clone(), values).ok())
            .collect::<Option<_>>()?;
        match (is_range, &numbers[..]) {
            (true, [first, second, last]) => {
                let step = second.checked_sub(*first).filter(|step| *step > 0)?;
                Some((*first..=*last).step_by(step as usize).take(300).collect())
            }
            (true, _) => None,
            _ => {
                let mut numbers = numbers.clone();
                numbers.sort_unstable();
                Some(numbers)
            }
        }
    }

    /// The tokens of each number of a set that begins here, up to `..` or `}`.
    pub fn set_parts(&self, open: usize, end: usize) -> Option<Vec<Range<usize>>> {
        if self.spelling(open) != "{" {
            return None;
        }
        let mut parts = Vec::new();
        let mut start = open + 1;
        for at in open + 1..end {
            match self.spelling(at) {
                "," | ".." | "}" => {
                    if at > start {
                        parts.push(start..at);
                    }
                    if self.spelling(at) != "," {
                        return Some(parts);
                    }
                    start = at + 1;
                }
                _ => {}
            }
        }
        None
    }
}

/// Table 1's levels of the operators on numbers; a divisor is worked out first.
fn level(operator: &str) -> Option<(u32, bool)> {
    match operator {
        "*" | "MUL" => Some((2, true)),
        "/" | "DIV" | "%" | "MOD" => Some((3, false)),
        "+" | "PLUS" | "-" | "MINUS" => Some((4, true)),
        _ => None,
    }
}

struct Reader<'a, 'b> {
    numbers: &'b Numbers<'a>,
    values: &'b Values,
    at: usize,
    end: usize,
}

/// Deeper ones are not looked at, so that no stack grows with the text.
const MOST_DEPTH: usize = 60;

impl Reader<'_, '_> {
    fn spelling(&self) -> &str {
        if self.at < self.end {
            self.numbers.spelling(self.at)
        } else {
            ""
        }
    }

    fn expression(&mut self, loosest: u32, depth: usize) -> Result<u64, Without> {
        if depth > MOST_DEPTH {
            return Err(Without::Unknown);
        }
        let mut left = self.operand(depth)?;
        while let Some((own, left_to_right)) = level(self.spelling()).filter(|found| found.0 <= loosest) {
            let token = self.at;
            self.at += 1;
            let right = self.expression(own - u32::from(left_to_right), depth + 1)?;
            left = applied(self.numbers.spelling(token), left, right).ok_or(Without::Fault { token, left, right })?;
        }
        Ok(left)
    }

    fn operand(&mut self, depth: usize) -> Result<u64, Without> {
        let spelling = self.spelling().to_string();
        self.at += 1;
        if spelling == "(" {
            let value = self.expression(4, depth + 1)?;
            if self.spelling() != ")" {
                return Err(Without::Unknown);
            }
            self.at += 1;
            return Ok(value);
        }
        if spelling.starts_with(|c: char| c.is_ascii_digit()) {
            return spelling.parse().ok().filter(|value| *value <= MOST).ok_or(Without::Unknown);
        }
        self.values.get(&spelling).copied().ok_or(Without::Unknown)
    }
}

fn applied(operator: &str, left: u64, right: u64) -> Option<u64> {
    let value = match operator {
        "*" | "MUL" => left.checked_mul(right),
        "/" | "DIV" => left.checked_div(right),
        "%" | "MOD" => left.checked_rem(right),
        "+" | "PLUS" => left.checked_add(right),
        _ => left.checked_sub(right),
    };
    value.filter(|value| *value <= MOST)
}

#[cfg(test)]
mod tests {
    use super::*;
    use crate::outline;

    #[test]
    fn document_01s_values_and_faults() {
        let text = b"GLOBAL { PARAMETERS { a = 8/4/2; b = 6/2*3; c = 10-3-2; d = (a + b) * 2; e = a - 5; } }";
        let outline = outline::of(text);
        let numbers = Numbers { text, outline: &outline };
        let constants = numbers.constants();
        let of = |name: &str| constants.get(name).copied();
        assert_eq!(
            (of("a"), of("b"), of("c"), of("d"), of("e")),
            (Some(4), Some(1), Some(5), Some(10), None)
        );
        let last = outline.statements.last().expect("a parameter");
        let fault = numbers.value(last.tokens.start + 2..last.tokens.end, &constants);
        assert!(matches!(fault, Err(Without::Fault { left: 4, right: 5, .. })));
    }

    #[test]
    fn choices_in_their_order() {
        let text = b"GLOBAL { PARAMETERS { n = 2; } } MAIN { ASSERT { &&[0 <= i < n] &&[j IN {5, 7 .. 9}] b[i + j]; } }";
        let outline = outline::of(text);
        let numbers = Numbers { text, outline: &outline };
        let line = outline.statements.last().expect("a line");
        let choices = numbers.choices(line, line.tokens.end);
        let pairs: Vec<(u64, u64)> = choices.iter().map(|values| (values["i"], values["j"])).collect();
        assert_eq!(pairs, [(0, 5), (0, 7), (0, 9), (1, 5), (1, 7), (1, 9)]);
    }
}
