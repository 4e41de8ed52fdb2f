//! Sections of a generated text.

use super::*;

/// A signal of MAIN, before it is written.
#[derive(Clone)]
pub(super) enum Planned {
    Single(String),
    Bus(String, usize),
    Enumerated(String, usize),
}

/// A line of DEFINITIONS, before it is written.
enum Line {
    /// An enumeration with words of this width.
    Enumeration(usize),
    Definition,
}

impl Writer<'_> {
    pub(super) fn text(&mut self) {
        let strict = self.rng.one_in(3);
        self.info(strict);
        let signals = self.plan_signals();
        self.global(&signals);
        self.main(&signals);
    }

    fn info(&mut self, strict: bool) {
        let model = *self.rng.pick(&["Mealy", "Moore"]);
        // A third of the texts state one model and target the other.
        let target = match (self.rng.one_in(3), model) {
            (true, "Mealy") => "Moore",
            (true, _) => "Mealy",
            (false, _) => model,
        };
        self.put_all(&["INFO", "{", "TITLE", ":"]);
        self.string();
        self.put_all(&["DESCRIPTION", ":"]);
        self.string();
        self.put_all(&["SEMANTICS", ":", model]);
        if strict {
            self.put_all(&[",", "Strict"]);
        }
        self.put_all(&["TARGET", ":", target]);
        self.tags();
        self.put("}");
    }

    fn string(&mut self) {
        let string = match self.rng.below(8) {
            0 if !self.small => "\"// ; } é\"",
            1 => "\"t\"",
            2 if !self.small => "\"/* enum \n\"",
            _ => "\"\"",
        };
        self.put(string);
    }

    fn tags(&mut self) {
        if !self.rng.one_in(8) {
            return;
        }
        self.put_all(&["TAGS", ":"]);
        self.tag();
        while self.rng.one_in(2) {
            self.put(",");
            self.tag();
        }
    }

    fn tag(&mut self) {
        let tag = *self.rng.pick(&["safety", "\"t\"", "a", "_"]);
        self.put(tag);
    }

    /// Enumerations are planned first, then the signals that may use them.
    fn plan_signals(&mut self) -> Vec<Planned> {
        let most = if self.small { 3 } else { 6 };
        let mut planned = Vec::new();
        for _ in 0..self.rng.between(1, most) {
            let name = self.fresh();
            let width = self.rng.between(1, 4);
            planned.push(match self.rng.below(5) {
                0 => Planned::Bus(name, width),
                1 => Planned::Enumerated(name, width.min(3)),
                _ => Planned::Single(name),
            });
        }
        self.widen(&mut planned);
        self.know_signals(&planned);
        planned
    }

    fn widen(&mut self, planned: &mut Vec<Planned>) {
        if !self.intends(Slip::Wide) {
            return;
        }
        for _ in 0..self.rng.between(1, 2) {
            let name = self.fresh();
            let width = self.rng.between(120, 255);
            planned.push(Planned::Bus(name, width));
        }
    }

    fn know_signals(&mut self, planned: &[Planned]) {
        for signal in planned {
            match signal {
                Planned::Single(name) => self.scope.singles.push(name.clone()),
                Planned::Bus(name, width) | Planned::Enumerated(name, width) => {
                    self.scope.buses.push(Bus {
                        name: name.clone(),
                        width: *width,
                    });
                }
            }
        }
    }

    fn global(&mut self, signals: &[Planned]) {
        let widths: Vec<usize> = signals
            .iter()
            .filter_map(|signal| match signal {
                Planned::Enumerated(_, width) => Some(*width),
                _ => None,
            })
            .collect();
        let wanted = !widths.is_empty() || self.intends(Slip::Word) || self.rng.one_in(2);
        if !wanted {
            return;
        }
        self.put_all(&["GLOBAL", "{"]);
        self.parameters();
        self.definitions(&widths);
        self.put("}");
    }

    fn parameters(&mut self) {
        if !self.rng.one_in(3) {
            return;
        }
        self.put_all(&["PARAMETERS", "{"]);
        let count = self.rng.between(0, if self.small { 1 } else { 3 });
        for number in 0..count {
            let name = self.fresh();
            self.put_all(&[&name, "="]);
            self.fuel = self.rng.between(0, 2);
            self.number(4);
            self.scope.numbers.push(name);
            self.separate(number + 1 == count);
        }
        self.put("}");
    }

    /// `;` between lines; the last may be missing.
    fn separate(&mut self, last: bool) {
        if !last || !self.rng.one_in(3) {
            self.put(";");
        }
    }

    fn definitions(&mut self, widths: &[usize]) {
        let mut lines: Vec<Line> = widths
            .iter()
            .map(|width| Line::Enumeration(*width))
            .collect();
        if self.intends(Slip::Word) || self.rng.one_in(6) {
            lines.push(Line::Enumeration(self.rng.between(1, 3)));
        }
        for _ in 0..self.rng.between(0, if self.small { 1 } else { 4 }) {
            lines.push(Line::Definition);
        }
        if lines.is_empty() && !self.rng.one_in(8) {
            return;
        }
        if self.rng.one_in(3) {
            self.rng.shuffle(&mut lines);
        }
        self.put_all(&["DEFINITIONS", "{"]);
        for (number, line) in lines.iter().enumerate() {
            match line {
                Line::Enumeration(width) => self.enumeration(*width),
                Line::Definition => self.definition(),
            }
            self.separate(number + 1 == lines.len());
        }
        self.put("}");
    }

    fn definition(&mut self) {
        let name = self.fresh();
        self.put_all(&[&name, "="]);
        self.hide(&name);
        self.fuel = self.rng.between(0, if self.small { 3 } else { 8 });
        match self.rng.below(3) {
            0 => {
                self.number(4);
                self.scope.numbers.push(name.clone());
            }
            1 => {
                self.set(8);
                self.scope.sets.push(name.clone());
            }
            _ => {
                self.formula(17);
                self.scope.formulas.push(name.clone());
            }
        }
        self.used.push(name);
    }
}

impl Writer<'_> {
    fn main(&mut self, signals: &[Planned]) {
        self.put_all(&["MAIN", "{"]);
        let split = self.rng.below(signals.len() + 1);
        let (inputs, outputs) = signals.split_at(split);
        let mut parts = vec!["INPUTS", "OUTPUTS"];
        for names in [
            ["INITIALLY", "INITIALLY"],
            ["PRESET", "PRESET"],
            ["REQUIRE", "REQUIRE"],
            ["ASSERT", "INVARIANTS"],
            ["ASSUME", "ASSUMPTIONS"],
            ["GUARANTEE", "GUARANTEES"],
        ] {
            if self.rng.one_in(if self.small { 5 } else { 2 }) {
                parts.push(*self.rng.pick(&names));
            }
        }
        if parts.len() == 2 {
            parts.push(*self.rng.pick(&["REQUIRE", "ASSERT", "ASSUME", "GUARANTEE"]));
        }
        if self.rng.one_in(2) {
            self.rng.shuffle(&mut parts);
        }
        for part in parts {
            self.put_all(&[part, "{"]);
            match part {
                "INPUTS" => self.signals(inputs),
                "OUTPUTS" => self.signals(outputs),
                _ => self.lines(),
            }
            self.put("}");
        }
        self.put("}");
    }

    fn signals(&mut self, signals: &[Planned]) {
        for (number, signal) in signals.iter().enumerate() {
            match signal {
                Planned::Single(name) => self.put(name),
                Planned::Bus(name, width) => self.bus(name, *width),
                Planned::Enumerated(name, width) => self.enumerated(name, *width),
            }
            self.separate(number + 1 == signals.len());
        }
    }

    fn bus(&mut self, name: &str, width: usize) {
        self.put_all(&[name, "["]);
        if self.slips(Slip::Bus) {
            let token = *self.rng.pick(&["0", "256", "1000"]);
            self.put(token);
        } else if self.slips(Slip::Bus) {
            let other = self.rng.pick(&self.scope.buses).name.clone();
            self.put_all(&["SIZEOF", &other]);
        } else if self.slips(Slip::Type) {
            self.formula(9);
        } else if self.rng.one_in(4) && !self.scope.numbers.is_empty() {
            let number = self.rng.pick(&self.scope.numbers).clone();
            self.put(&number);
        } else {
            self.put(&width.to_string());
        }
        self.put("]");
    }

    fn enumerated(&mut self, name: &str, width: usize) {
        let fitting: Vec<String> = self
            .scope
            .enumerations
            .iter()
            .filter(|enumeration| enumeration.width == width)
            .map(|enumeration| enumeration.name.clone())
            .collect();
        let kind = if self.slips(Slip::Type) || self.slips(Slip::Scope) {
            self.rng.pick(&NAMES).to_string()
        } else {
            fitting[self.rng.below(fitting.len())].clone()
        };
        self.put_all(&[&kind, name]);
    }

    fn lines(&mut self) {
        let count = self.rng.between(0, if self.small { 2 } else { 4 });
        let deep = self.intends(Slip::Depth) && self.rng.one_in(2);
        for number in 0..count {
            self.fuel = self.rng.between(1, if self.small { 5 } else { 14 });
            if deep {
                self.nest();
            }
            self.formula(17);
            self.separate(number + 1 == count);
        }
    }

    /// 5: so many levels that one more or fewer decides.
    fn nest(&mut self) {
        for _ in 0..self.rng.between(250, 256) {
            let name = *self.rng.pick(&["!", "!", "!", "X", "NOT"]);
            self.put(name);
        }
    }
}
