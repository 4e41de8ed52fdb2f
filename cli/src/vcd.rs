//! A value change dump (VCD), as simulators and logic analysers write it: one bit and vector variables, sampled by a clock or a step.
//!
//! Debian has no library for it. Of the format only what carries values is read; reals, strings and other sections are passed over.

use crate::near;
use crate::table::{Fault, Wanted};
use std::collections::HashMap;

/// Where the positions are.
pub enum Sampling {
    /// At each rise of this variable: the values that stood before it.
    Clock(String),
    /// At 0, and then every so many units of time: the values from then on.
    Step(u64),
}

pub struct Options {
    pub sampling: Sampling,
    /// Variables of other scopes are left out.
    pub scope: Option<String>,
}

/// A word of the dump and its place.
#[derive(Clone, Copy)]
struct Word<'a> {
    place: usize,
    text: &'a str,
}

/// What a change of a variable means for the signals: for each bit, from the left, the signal that it is.
#[derive(Default)]
struct Variable {
    bits: Vec<Option<usize>>,
    is_clock: bool,
}

struct Dump<'a> {
    variables: HashMap<&'a str, Variable>,
    /// For each signal the variable that has it.
    source: Vec<Option<&'a str>>,
    /// All names, for what is told of a missing one.
    names: Vec<String>,
    scopes: Vec<&'a str>,
}

fn fault<T>(place: usize, message: impl Into<String>) -> Result<T, Fault> {
    Err(Fault {
        place,
        message: message.into(),
    })
}

/// The letters of a dump, signals in the order of the labels.
pub fn letters(bytes: &[u8], wanted: &Wanted, options: &Options) -> Result<Vec<Vec<bool>>, Fault> {
    let text = match std::str::from_utf8(bytes) {
        Ok(text) => text,
        Err(error) => return fault(error.valid_up_to(), "a byte that is not UTF-8"),
    };
    let words: Vec<Word> = text
        .split_ascii_whitespace()
        .map(|word| Word {
            place: word.as_ptr() as usize - text.as_ptr() as usize,
            text: word,
        })
        .collect();
    let mut dump = Dump {
        variables: HashMap::new(),
        source: vec![None; wanted.labels.len()],
        names: Vec::new(),
        scopes: Vec::new(),
    };
    let changes = dump.declare(&words, wanted, options)?;
    dump.check(wanted, options)?;
    let mut sampler = Sampler::new(wanted, options);
    sampler.read(&dump, changes)?;
    if sampler.letters.is_empty() {
        let clocked = matches!(options.sampling, Sampling::Clock(_));
        return fault(
            text.len(),
            if clocked {
                "the clock never rises: there is no position"
            } else {
                "no time is told: there is no position"
            },
        );
    }
    Ok(sampler.letters)
}

impl<'a> Dump<'a> {
    /// Reads the declarations, and hands back what comes after them.
    fn declare<'b>(&mut self, words: &'b [Word<'a>], wanted: &Wanted, options: &Options) -> Result<&'b [Word<'a>], Fault> {
        let mut rest = words;
        while let Some((word, after)) = rest.split_first() {
            let end = after.iter().position(|word| word.text == "$end");
            let Some(end) = end.filter(|_| word.text.starts_with('$')) else {
                return fault(word.place, "the declarations of a value change dump are expected: `$var .. $end`");
            };
            let inner = &after[..end];
            rest = &after[end + 1..];
            match word.text {
                "$scope" => self.scopes.push(inner.last().map_or("", |word| word.text)),
                "$upscope" => {
                    self.scopes.pop();
                }
                "$var" => self.variable(word.place, inner, wanted, options)?,
                "$enddefinitions" => return Ok(rest),
                _ => {}
            }
        }
        fault(words.last().map_or(0, |word| word.place), "`$enddefinitions $end` is missing")
    }

    // $var TYPE WIDTH CODE NAME [RANGE] $end
    fn variable(&mut self, place: usize, inner: &[Word<'a>], wanted: &Wanted, options: &Options) -> Result<(), Fault> {
        let [_, width, code, name @ ..] = inner else {
            return fault(place, "a variable needs a type, a width, a code and a name");
        };
        let Ok(width) = width.text.parse::<usize>() else {
            return fault(width.place, "a width is a number");
        };
        let name: String = name.iter().map(|word| word.text).collect();
        let scope = self.scopes.join(".");
        let path = if scope.is_empty() {
            name.clone()
        } else {
            format!("{scope}.{name}")
        };
        let variable = self.variables.entry(code.text).or_default();
        if let Sampling::Clock(clock) = &options.sampling {
            variable.is_clock |= width == 1 && (*clock == name || *clock == path);
        }
        self.names.push(path);
        if options.scope.as_ref().is_some_and(|only| *only != scope) || width > tlsf::MOST_SIGNALS {
            return Ok(());
        }
        let labels = bit_labels(&name, width);
        variable.bits.resize(labels.len(), None);
        for (bit, label) in labels.iter().enumerate() {
            let Some(signal) = wanted.signal(label) else {
                continue;
            };
            if self.source[signal].is_some_and(|other| other != code.text) {
                let message = format!("two variables are {}: --scope NAME chooses one", wanted.labels[signal]);
                return fault(place, message);
            }
            self.source[signal] = Some(code.text);
            variable.bits[bit] = Some(signal);
        }
        Ok(())
    }

    fn check(&self, wanted: &Wanted, options: &Options) -> Result<(), Fault> {
        let hint = |name: &str| {
            let base = name.split('[').next().unwrap_or(name);
            let last = |path: &String| -> String {
                let name = path.rsplit('.').next().unwrap_or(path);
                name.split('[').next().unwrap_or(name).to_string()
            };
            let names: Vec<String> = self.names.iter().map(last).collect();
            let near = near::nearest(base, names.iter().map(String::as_str));
            near.map(|near| format!(" (it has {near})")).unwrap_or_default()
        };
        if let Sampling::Clock(clock) = &options.sampling {
            if !self.variables.values().any(|variable| variable.is_clock) {
                return fault(0, format!("the dump has no variable {clock} of one bit{}", hint(clock)));
            }
        }
        let missing = wanted.labels.iter().zip(&self.source).find(|(_, source)| source.is_none());
        match missing {
            Some((label, _)) => fault(0, format!("the dump has no variable for {label}{}", hint(label))),
            None => Ok(()),
        }
    }
}

/// The name of each bit of a variable, from the left: `b[1]`, `b[0]` of `b` with width 2 or of `b[1:0]`.
fn bit_labels(name: &str, width: usize) -> Vec<String> {
    let (base, range) = match name.split_once('[') {
        Some((base, range)) => (base, range.trim_end_matches(']')),
        None => (name, ""),
    };
    let numbers: Vec<usize> = range.split(':').filter_map(|number| number.parse().ok()).collect();
    match numbers[..] {
        [left, right] if left.abs_diff(right) + 1 != width => Vec::new(),
        [left, right] if left >= right => (right..=left).rev().map(|index| format!("{base}[{index}]")).collect(),
        [left, right] => (left..=right).map(|index| format!("{base}[{index}]")).collect(),
        _ if width == 1 => vec![name.to_string()],
        _ => (0..width).rev().map(|index| format!("{base}[{index}]")).collect(),
    }
}

/// The values while the changes are gone through.
struct Sampler<'a> {
    options: &'a Options,
    labels: &'a [String],
    values: Vec<Option<bool>>,
    /// The values before the changes of this time.
    before: Vec<Option<bool>>,
    clock: Option<bool>,
    rises: bool,
    time: u64,
    /// The first time that is told.
    start: Option<u64>,
    started: bool,
    letters: Vec<Vec<bool>>,
}

impl<'a> Sampler<'a> {
    fn new(wanted: &'a Wanted, options: &'a Options) -> Sampler<'a> {
        Sampler {
            options,
            labels: wanted.labels,
            values: vec![None; wanted.labels.len()],
            before: vec![None; wanted.labels.len()],
            clock: None,
            rises: false,
            time: 0,
            start: None,
            started: false,
            letters: Vec::new(),
        }
    }

    fn read(&mut self, dump: &Dump, words: &[Word]) -> Result<(), Fault> {
        let mut rest = words.iter();
        while let Some(word) = rest.next() {
            let (sign, tail) = word.text.split_at(word.text.chars().next().map_or(0, char::len_utf8));
            match sign {
                "#" => match tail.parse::<u64>() {
                    Ok(time) if time >= self.time => self.advance(Some(time), word.place)?,
                    Ok(_) => return fault(word.place, "the time goes back"),
                    Err(_) => return fault(word.place, "a time is a number"),
                },
                "0" | "1" | "x" | "X" | "z" | "Z" => self.change(dump, tail, sign),
                "b" | "B" => match rest.next() {
                    Some(code) => self.change(dump, code.text, tail),
                    None => return fault(word.place, "a vector's value needs its code"),
                },
                "r" | "R" | "s" | "S" => {
                    rest.next();
                }
                "$" => {
                    if word.text == "$comment" {
                        rest.by_ref().find(|word| word.text == "$end");
                    }
                }
                _ => return fault(word.place, format!("{:?} is no change of a value", word.text)),
            }
        }
        self.advance(None, words.last().map_or(0, |word| word.place))
    }

    /// Takes the positions up to a time, or to the end of the dump.
    fn advance(&mut self, to: Option<u64>, place: usize) -> Result<(), Fault> {
        match self.options.sampling {
            Sampling::Clock(_) => {
                if self.rises {
                    let before = self.before.clone();
                    self.take(&before, place)?;
                }
            }
            Sampling::Step(step) => {
                // What has changed at a time is seen at that time.
                let start = *self.start.get_or_insert(to.unwrap_or(0));
                let is_past = |taken: usize, time: u64| {
                    let due = (taken as u64).saturating_mul(step).saturating_add(start);
                    to.map_or(due <= time, |to| due < to)
                };
                while self.started && is_past(self.letters.len(), self.time) {
                    let values = self.values.clone();
                    self.take(&values, place)?;
                }
            }
        }
        if to != Some(self.time) {
            self.before = self.values.clone();
        }
        self.rises = false;
        self.started = true;
        self.time = to.unwrap_or(self.time);
        Ok(())
    }

    fn take(&mut self, values: &[Option<bool>], place: usize) -> Result<(), Fault> {
        if let Some(unset) = values.iter().position(Option::is_none) {
            let message = format!(
                "{} has no value of 0 or 1 at position {}, time {}",
                self.labels[unset],
                self.letters.len(),
                self.time
            );
            return fault(place, message);
        }
        if self.letters.len() == tlsf::MOST_POSITIONS {
            return fault(place, format!("a recording has at most {} positions", tlsf::MOST_POSITIONS));
        }
        self.letters.push(values.iter().map(|value| *value == Some(true)).collect());
        Ok(())
    }

    /// A value's bits from the left; a shorter one is filled up at its left, by `0` unless it begins with `x` or `z`.
    fn change(&mut self, dump: &Dump, code: &str, value: &str) {
        let Some(variable) = dump.variables.get(code) else {
            return;
        };
        let bit = |sign: u8| match sign {
            b'0' => Some(false),
            b'1' => Some(true),
            _ => None,
        };
        let width = variable.bits.len().max(1);
        let given: Vec<Option<bool>> = value.bytes().map(bit).collect();
        let fill = match given.first() {
            Some(None) => None,
            _ => Some(false),
        };
        let missing = width.saturating_sub(given.len());
        let all = std::iter::repeat_n(fill, missing).chain(given.iter().copied().skip(given.len().saturating_sub(width)));
        let all: Vec<Option<bool>> = all.collect();
        for (signal, value) in variable.bits.iter().zip(&all) {
            if let Some(signal) = signal {
                self.values[*signal] = *value;
            }
        }
        if variable.is_clock {
            let now = all.first().copied().flatten();
            self.rises |= self.clock == Some(false) && now == Some(true);
            self.clock = now;
        }
    }
}

#[cfg(test)]
mod tests {
    use super::*;

    const HEAD: &str = "$date today $end $timescale 1ns $end $scope module tb $end
        $var wire 1 ! clk $end $var wire 1 \" call $end
        $scope module dut $end $var reg 2 # lamp [1:0] $end $var real 64 r temperature $end $upscope $end
        $upscope $end $enddefinitions $end\n";

    fn read(dump: &str, sampling: Sampling) -> Result<Vec<String>, String> {
        let labels = ["call", "lamp[0]", "lamp[1]"].map(str::to_string);
        let ltl_names = ["call", "lamp_0", "lamp_1"].map(str::to_string);
        let wanted = Wanted {
            labels: &labels,
            ltl_names: &ltl_names,
            ignore_others: false,
        };
        let options = Options { sampling, scope: None };
        let letters = letters(dump.as_bytes(), &wanted, &options).map_err(|fault| fault.message)?;
        let shown = |letter: &Vec<bool>| letter.iter().map(|&bit| if bit { '1' } else { '0' }).collect();
        Ok(letters.iter().map(shown).collect())
    }

    #[test]
    fn by_the_clock_the_values_before_its_rise() {
        let dump = format!("{HEAD}#0 $dumpvars 0! 0\" b0 # r1.5 r $end #5 1! 1\" #10 0! b10 # #15 1! 0\" #20 0! #25 1! #30 0!");
        let clock = Sampling::Clock("clk".to_string());
        assert_eq!(read(&dump, clock), Ok(vec!["000".into(), "101".into(), "001".into()]));
        let clock = Sampling::Clock("tb.clk".to_string());
        assert_eq!(read(&dump, clock).map(|letters| letters.len()), Ok(3));
        let clock = Sampling::Clock("clock".to_string());
        assert!(read(&dump, clock).is_err_and(|message| message.contains("no variable clock")));
    }

    #[test]
    fn by_a_step_the_values_from_then_on() {
        let dump = format!("{HEAD}#0 0! 0\" b1 # #10 1\" #25 b11 # #30");
        let due = ["010", "110", "110", "111"].map(str::to_string).to_vec();
        assert_eq!(read(&dump, Sampling::Step(10)), Ok(due));
        let unset = format!("{HEAD}#0 0! bx # 1\" #10 b1 #");
        let told = read(&unset, Sampling::Step(10)).expect_err("a value that is not known");
        assert_eq!(told, "lamp[0] has no value of 0 or 1 at position 0, time 0");
    }

    #[test]
    fn any_words() {
        for text in [
            "",
            "$var",
            "$var $end",
            "$var wire 1 ! a $end",
            "#0",
            "$enddefinitions $end b1",
            "$scope $end $enddefinitions $end #9 #1",
        ] {
            assert!(read(text, Sampling::Step(1)).is_err(), "{text}");
        }
    }

    #[test]
    fn ranges_of_vectors() {
        assert_eq!(bit_labels("b[1:0]", 2), ["b[1]", "b[0]"]);
        assert_eq!(bit_labels("b[0:1]", 2), ["b[0]", "b[1]"]);
        assert_eq!(bit_labels("b", 2), ["b[1]", "b[0]"]);
        assert_eq!(bit_labels("b[3]", 1), ["b[3]"]);
        assert_eq!(bit_labels("b", 1), ["b"]);
    }
}
