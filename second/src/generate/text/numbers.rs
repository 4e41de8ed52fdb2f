//! Numbers of a generated text.

use super::*;

impl Writer<'_> {
    pub(super) fn number(&mut self, level: u32) {
        if self.slips(Slip::Type) {
            return self.wrong_type("number");
        }
        if self.slips(Slip::Value) {
            return self.bad_value();
        }
        if !self.spend() {
            return self.number_leaf();
        }
        match self.rng.below(12) {
            0 | 1 if level >= 4 => {
                self.number(4);
                self.put_one(&["+", "PLUS"]);
                self.number(3);
            }
            2 if level >= 4 => self.subtraction(),
            3 if level >= 3 => {
                self.number(2);
                let names: &[&str] = if self.rng.one_in(2) {
                    &["/", "DIV"]
                } else {
                    &["%", "MOD"]
                };
                self.put_one(names);
                self.number(3);
            }
            4 if level >= 2 => {
                self.number(2);
                self.put_one(&["*", "MUL"]);
                self.number(1);
            }
            5 => self.big(&[&["+", "SUM"], &["*", "PROD"]], |writer| writer.number(1)),
            6 => self.measure(),
            7 => self.size_of(),
            8 => {
                self.put("(");
                self.number(4);
                self.put(")");
            }
            _ => self.number_leaf(),
        }
    }

    /// Mostly with a large left operand, so that the result is no fault.
    fn subtraction(&mut self) {
        if self.rng.one_in(3) {
            self.number(4);
        } else {
            self.put("9");
        }
        self.put_one(&["-", "MINUS"]);
        self.number(3);
    }

    fn measure(&mut self) {
        match self.rng.below(4) {
            0 => {
                self.put("|");
                self.set(8);
                self.put("|");
                return;
            }
            1 => self.put("SIZE"),
            2 => self.put("MIN"),
            _ => self.put("MAX"),
        }
        self.set(1);
    }

    fn size_of(&mut self) {
        if self.scope.buses.is_empty() {
            return self.number_leaf();
        }
        let bus = self.rng.pick(&self.scope.buses).name.clone();
        self.put("SIZEOF");
        self.maybe_in_parentheses(&bus);
    }

    pub(super) fn maybe_in_parentheses(&mut self, name: &str) {
        if self.rng.one_in(6) {
            self.put_all(&["(", name, ")"]);
        } else {
            self.put(name);
        }
    }

    fn number_leaf(&mut self) {
        if self.slips(Slip::Scope) {
            return self.unseen_name();
        }
        if self.rng.one_in(2) && !self.scope.numbers.is_empty() {
            let last = self.scope.numbers.len() - 1;
            let number = if self.rng.one_in(2) {
                last
            } else {
                self.rng.below(last + 1)
            };
            let name = self.scope.numbers[number].clone();
            return self.put(&name);
        }
        let numeral = *self
            .rng
            .pick(&["0", "1", "1", "2", "2", "3", "4", "00", "01"]);
        self.put(numeral);
    }

    fn bad_value(&mut self) {
        match self.rng.below(6) {
            0 => self.put("1000001"),
            1 => self.put("1000000"),
            2 => self.put_all(&["(", "0", "-", "1", ")"]),
            3 => self.put_all(&["(", "1", "/", "0", ")"]),
            4 => self.put_all(&["MIN", "{", "}"]),
            _ => self.put("099999999999999999999"),
        }
    }

    /// A name that is declared nowhere, or is visible no more.
    pub(super) fn unseen_name(&mut self) {
        let name = if !self.gone.is_empty() && self.rng.one_in(2) {
            self.rng.pick(&self.gone).clone()
        } else {
            self.rng.pick(&NAMES).to_string()
        };
        self.put(&name);
    }

    /// Something of another type.
    pub(super) fn wrong_type(&mut self, wanted: &str) {
        match self.rng.below(4) {
            0 if wanted != "number" => self.put("1"),
            1 if wanted != "set" => self.put_all(&["{", "1", "}"]),
            2 if wanted != "formula" => self.put("true"),
            _ if !self.scope.buses.is_empty() => {
                let bus = self.rng.pick(&self.scope.buses).name.clone();
                self.put(&bus);
            }
            _ => self.put_all(&["(", "false", ")"]),
        }
    }
}
