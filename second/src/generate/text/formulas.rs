//! Formulas of a generated text.

use super::*;

impl Writer<'_> {
    pub(super) fn formula(&mut self, level: u32) {
        if self.slips(Slip::Type) {
            return self.wrong_type("formula");
        }
        if self.slips(Slip::Long) {
            return self.long(level);
        }
        if !self.spend() {
            return self.formula_leaf();
        }
        match self.formula_choice() {
            0 if level >= 17 => self.joined(17, &["R"], 16),
            1 if level >= 16 => self.joined(15, &["U"], 16),
            2 if level >= 15 => self.joined(14, &["W"], 15),
            3 if level >= 14 => self.joined(13, &["->", "IMPLIES"], 14),
            4 if level >= 14 => self.joined(13, &["<->", "EQUIV"], 14),
            5 if level >= 13 => self.joined(13, &["||", "OR"], 12),
            6 if level >= 12 => self.joined(12, &["&&", "AND"], 11),
            7 | 8 if level >= 11 => self.unary(),
            9 | 10 if level >= 11 => self.timed(),
            11 | 12 if level >= 11 => {
                let operators: [&[&str]; 2] = [&["&&", "AND", "FORALL"], &["||", "OR", "EXISTS"]];
                self.big(&operators, |writer| writer.formula(11));
            }
            13 if level >= 10 => {
                self.number(4);
                self.put_one(&IN);
                self.set(8);
            }
            14 if level >= 9 => self.comparison(),
            15 if level >= 9 => self.bus_comparison(),
            16 | 17 => {
                self.put("(");
                self.formula(17);
                self.put(")");
            }
            _ => self.formula_leaf(),
        }
    }

    /// Which construct to write; a text with a wrong set is likely to use sets.
    fn formula_choice(&mut self) -> usize {
        if self.intends(Slip::Set) && self.rng.one_in(3) {
            return *self.rng.pick(&[11, 13, 13]);
        }
        self.rng.below(20)
    }

    fn joined(&mut self, left: u32, names: &[&str], right: u32) {
        self.formula(left);
        self.put_one(names);
        self.formula(right);
    }

    fn unary(&mut self) {
        let names: &[&str] = match self.rng.below(4) {
            0 => &["X"],
            1 => &["F"],
            2 => &["G"],
            _ => &["!", "NOT"],
        };
        self.put_one(names);
        self.formula(11);
    }

    fn timed(&mut self) {
        let sign = *self.rng.pick(&["X", "F", "G"]);
        self.put_all(&[sign, "["]);
        self.number(4);
        if sign != "X" {
            self.put(":");
            if self.slips(Slip::Value) {
                self.put("0");
            } else if self.rng.one_in(3) {
                self.number(4);
            } else {
                let to = self.rng.between(3, 6).to_string();
                self.put(&to);
            }
        }
        self.put("]");
        self.formula(11);
    }

    fn comparison(&mut self) {
        let operators: [&[&str]; 6] = [
            &["==", "EQ"],
            &["!=", "/=", "NEQ"],
            &LESS,
            &AT_MOST,
            &[">", "GE"],
            &[">=", "GEG", "GEQ"],
        ];
        let names = *self.rng.pick(&operators);
        self.number(4);
        self.put_one(names);
        self.number(4);
    }

    /// A bus and a value of the same width, or with the slip of any.
    fn bus_comparison(&mut self) {
        let any_width = self.slips(Slip::Bus);
        let mut pairs = Vec::new();
        for bus in &self.scope.buses {
            for enumeration in &self.scope.enumerations {
                if any_width || bus.width == enumeration.width {
                    for identifier in &enumeration.identifiers {
                        pairs.push((bus.name.clone(), identifier.clone()));
                    }
                }
            }
        }
        if pairs.is_empty() {
            return self.comparison();
        }
        let (bus, value) = self.rng.pick(&pairs).clone();
        let names: &[&str] = if self.rng.one_in(2) {
            &["==", "EQ"]
        } else {
            &["!=", "/=", "NEQ"]
        };
        let (left, right) = if self.rng.one_in(2) {
            (bus, value)
        } else {
            (value, bus)
        };
        self.maybe_in_parentheses(&left);
        self.put_one(names);
        self.maybe_in_parentheses(&right);
    }

    fn formula_leaf(&mut self) {
        if self.slips(Slip::Scope) {
            return self.unseen_name();
        }
        match self.rng.below(10) {
            0 => self.put("true"),
            1 => self.put("false"),
            2 | 3 if !self.scope.formulas.is_empty() => {
                let name = self.rng.pick(&self.scope.formulas).clone();
                self.put(&name);
            }
            4..=6 if !self.scope.buses.is_empty() => self.bus_bit(),
            _ if !self.scope.singles.is_empty() => {
                let name = self.rng.pick(&self.scope.singles).clone();
                self.put(&name);
            }
            _ if !self.scope.buses.is_empty() => self.bus_bit(),
            _ => self.put("true"),
        }
    }

    fn bus_bit(&mut self) {
        let bus = self.rng.pick(&self.scope.buses).clone();
        self.put_all(&[&bus.name, "["]);
        if self.slips(Slip::Bus) {
            self.put(&bus.width.to_string());
        } else if self.rng.one_in(4) {
            self.fuel = self.fuel.min(2);
            self.number(4);
        } else {
            let index = self.rng.below(bus.width).to_string();
            self.put(&index);
        }
        self.put("]");
    }

    /// 16: many nodes in few tokens.
    fn long(&mut self, level: u32) {
        let windows = [("F", "2045"), ("G", "4000"), ("F", "1000000"), ("X", "")];
        let (sign, to) = *self.rng.pick(&windows);
        let tight = level < 11;
        if tight {
            self.put("(");
        }
        if sign == "X" {
            let steps = self.rng.between(8150, 8192).to_string();
            self.put_all(&["X", "[", &steps, "]"]);
        } else {
            self.put_all(&[sign, "[", "0", ":", to, "]"]);
        }
        self.formula(11);
        if tight {
            self.put(")");
        }
    }
}
