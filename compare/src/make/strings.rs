//! Strings and names of a document that is made: by a number or spelled, added or not.
use super::Maker;
use crate::forms::{Form, C22, C23, C25};
use crate::words::{StringForm, LOCAL, NAMESPACE, PREFIX};

impl<'d> Maker<'d> {
    pub(super) fn wrong(&mut self) -> bool {
        self.style.wrong > 0 && self.dice.below(1000) < self.style.wrong
    }

    pub(super) fn length(&mut self) -> usize {
        if self.style.short {
            1 + self.dice.below(3)
        } else {
            self.dice.length()
        }
    }

    fn fresh(&mut self) -> bool {
        self.dice.percent(self.style.fresh)
    }

    /// A number of the table, or None where a new string is to be spelled.
    fn choose(&mut self, table: usize) -> Option<usize> {
        let count = self.strings[table].len();
        let full = count >= self.style.entries;
        let new = count == 0 || (!full && self.fresh());
        if new {
            None
        } else {
            Some(self.number_below(count))
        }
    }

    /// A number of a table, or, where it is to be wrong, one beyond it.
    pub(super) fn number_below(&mut self, count: usize) -> usize {
        if self.wrong() {
            count + 1 + self.dice.below(2)
        } else {
            1 + self.dice.below(count)
        }
    }

    pub(super) fn new_string(&mut self, table: usize) -> Vec<u8> {
        if !self.strings[table].is_empty() && self.wrong() {
            let i = self.dice.below(self.strings[table].len());
            return self.strings[table][i].clone();
        }
        let length = self.length();
        let mut s = self.dice.text(length);
        while self.strings[table].contains(&s) {
            s.extend(self.dice.text(1));
        }
        if self.wrong() {
            self.dice.bar(&mut s);
        }
        s
    }

    pub(super) fn put_identifying(&mut self, table: usize, choice: Option<usize>) -> usize {
        if let Some(number) = choice {
            self.bits.code("1");
            self.bits.number(number as u64, C25);
            return number;
        }
        let s = self.new_string(table);
        self.bits.code("0");
        self.bits.number(s.len() as u64, C22);
        self.bits.text(&s);
        self.strings[table].push(s);
        self.strings[table].len()
    }

    pub(super) fn identifying(&mut self, table: usize) {
        let choice = self.choose(table);
        self.put_identifying(table, choice);
    }

    /// A name by its number, or spelled with parts that make a triple which is not there yet.
    pub(super) fn name(&mut self, table: usize, code: &str, forms: &[Form]) {
        let count = self.names[table].len();
        if count > 0 && (count >= self.style.entries || !self.fresh()) {
            let number = self.number_below(count);
            return self.bits.number(number as u64, forms);
        }
        let n = self.dice.percent(50);
        let p = n && self.dice.percent(50);
        let choices = [self.choose(PREFIX), self.choose(NAMESPACE), self.choose(LOCAL)];
        self.named(table, code, forms, [p, n, true], choices);
    }

    /// A name with these parts, each by a number or new; by its own number where it is held.
    pub(super) fn named(&mut self, table: usize, code: &str, forms: &[Form], present: [bool; 3], choices: [Option<usize>; 3]) {
        let mut known = [Some(0); 3];
        for i in (0..3).filter(|i| present[*i]) {
            known[i] = choices[i];
        }
        if let [Some(a), Some(b), Some(c)] = known {
            let held = self.names[table].iter().position(|t| *t == [a, b, c]);
            if let Some(i) = held.filter(|_| !self.wrong()) {
                return self.bits.number(i as u64 + 1, forms);
            }
        }
        self.bits.code(code);
        self.bits.put(u64::from(present[0]) * 2 + u64::from(present[1]), 2);
        let mut triple = [0; 3];
        for i in (0..3).filter(|i| present[*i]) {
            triple[i] = self.put_identifying(i, choices[i]);
        }
        self.names[table].push(triple);
    }

    pub(super) fn value(&mut self, table: usize) {
        if self.dice.percent(15) {
            self.bits.put(0xFF, 8);
        } else {
            self.literal(table, C23, C25);
        }
    }

    pub(super) fn literal(&mut self, table: usize, lengths: &[Form], numbers: &[Form]) {
        let count = self.strings[table].len();
        if count > 0 && !self.fresh() {
            self.bits.code("1");
            let number = self.number_below(count);
            return self.bits.number(number as u64, numbers);
        }
        let adds = count < self.style.entries && self.dice.percent(70);
        self.bits.code(if adds { "01" } else { "00" });
        // Spelled though it is held: allowed here, and added under a new number.
        let held = if count > 0 && self.dice.percent(10) { Some(self.dice.below(count)) } else { None };
        let s = self.formed(held.map(|i| self.strings[table][i].clone()), lengths);
        if adds {
            self.strings[table].push(s);
        }
    }

    /// A string in a form, this one or a new one: format, length and octets, which may be wrong. What it says is given back.
    pub(super) fn formed(&mut self, old: Option<Vec<u8>>, lengths: &[Form]) -> Vec<u8> {
        let length = self.length();
        let (s, form) = match old {
            Some(s) => (s.clone(), self.dice.form_for(&s)),
            None => self.dice.formed(length),
        };
        let mut octets = std::str::from_utf8(&s).ok().and_then(|s| form.spelled(s)).unwrap_or(s.clone());
        self.put_format(form);
        if self.wrong() {
            self.dice.spoil(&mut octets, form);
        }
        self.bits.number(octets.len() as u64, lengths);
        self.bits.text(&octets);
        s
    }

    /// The bits of a format, and the number of an alphabet or algorithm, now and then of one that is not read.
    fn put_format(&mut self, form: StringForm) {
        let (code, number, others): (_, _, &[u64]) = match form {
            StringForm::Utf8 => return self.bits.code("00"),
            StringForm::Utf16 => return self.bits.code("01"),
            StringForm::Numeric => ("10", 1, &[3, 4, 5, 17, 256]),
            StringForm::Dates => ("10", 2, &[3, 4, 5, 18, 256]),
            StringForm::Short => ("11", 3, &[1, 2, 6, 19, 256]),
            StringForm::Int => ("11", 4, &[1, 2, 7, 20, 256]),
            StringForm::Long => ("11", 5, &[1, 2, 10, 21, 256]),
        };
        let number = if self.wrong() { self.dice.pick(others) } else { number };
        self.bits.code(code);
        self.bits.put(number - 1, 8);
    }
}
