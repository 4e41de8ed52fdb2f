//! Sets and big operators of a generated text.

use super::*;

impl Writer<'_> {
    pub(super) fn set(&mut self, level: u32) {
        if self.slips(Slip::Type) {
            return self.wrong_type("set");
        }
        if self.slips(Slip::Set) {
            return self.bad_set();
        }
        if !self.spend() {
            return self.set_leaf();
        }
        match self.rng.below(10) {
            0 if level >= 8 => self.joined_sets(8, &["(+)", "CUP"], 7),
            1 if level >= 7 => self.joined_sets(7, &["(*)", "CAP"], 6),
            2 if level >= 6 => self.joined_sets(5, &["(\\)", "(-)", "SETMINUS"], 6),
            3 if level >= 5 => {
                self.big(&[&["(+)", "CUP"], &["(*)", "CAP"]], |writer| writer.set(5));
            }
            4 => {
                self.put("(");
                self.set(8);
                self.put(")");
            }
            5 | 6 => self.range(),
            _ => self.list(),
        }
    }

    fn joined_sets(&mut self, left: u32, names: &[&str], right: u32) {
        self.set(left);
        self.put_one(names);
        self.set(right);
    }

    fn set_leaf(&mut self) {
        if self.slips(Slip::Scope) {
            return self.unseen_name();
        }
        if self.rng.one_in(2) && !self.scope.sets.is_empty() {
            let name = self.rng.pick(&self.scope.sets).clone();
            return self.put(&name);
        }
        match self.rng.below(5) {
            0 => self.put_all(&["{", "}"]),
            1 => self.put_all(&["{", "0", ",", "1", "..", "2", "}"]),
            2 => self.put_all(&["{", "1", "}"]),
            _ => self.put_all(&["{", "0", ",", "1", "}"]),
        }
    }

    fn list(&mut self) {
        self.put("{");
        self.number(4);
        while self.rng.one_in(2) {
            self.put(",");
            self.number(4);
        }
        self.put("}");
    }

    fn range(&mut self) {
        let start = self.rng.between(0, 2);
        let second = start + self.rng.between(1, 2);
        self.put_all(&["{", &start.to_string(), ",", &second.to_string(), ".."]);
        self.number(4);
        self.put("}");
    }

    fn bad_set(&mut self) {
        match self.rng.below(4) {
            0 => self.put_all(&["{", "3", ",", "3", "..", "5", "}"]),
            1 => self.put_all(&["{", "0", ",", "1", "..", "256", "}"]),
            2 => self.put_all(&["{", "2", ",", "1", "..", "0", "}"]),
            _ => self.put_all(&[
                "(", "{", "0", ",", "1", "..", "255", "}", "(+)", "{", "300", "}", ")",
            ]),
        }
    }
}

impl Writer<'_> {
    pub(super) fn big(&mut self, operators: &[&[&str]], body: impl FnOnce(&mut Self)) {
        let names = *self.rng.pick(operators);
        self.put_one(names);
        self.put("[");
        let outside = self.scope.numbers.len();
        let count = if self.rng.one_in(4) { 2 } else { 1 };
        let mut bound = Vec::new();
        for number in 0..count {
            if number > 0 {
                self.put(",");
            }
            bound.push(self.binder());
        }
        self.put("]");
        body(self);
        self.scope.numbers.truncate(outside);
        self.used.retain(|name| !bound.contains(name));
        self.gone.extend(bound);
    }

    fn binder(&mut self) -> String {
        let name = self.fresh();
        self.hide(&name);
        if self.rng.one_in(2) {
            self.put(&name);
            self.put_one(&IN);
            self.set(8);
        } else {
            self.bounds(&name);
        }
        self.used.push(name.clone());
        self.scope.numbers.push(name.clone());
        name
    }

    fn bounds(&mut self, name: &str) {
        let sign = |writer: &mut Self| {
            let names = if writer.rng.one_in(2) { LESS } else { AT_MOST };
            writer.put_one(&names);
        };
        self.number(4);
        sign(self);
        self.put(name);
        sign(self);
        if self.slips(Slip::Set) {
            self.put("999");
        } else {
            self.number(4);
        }
    }
}
