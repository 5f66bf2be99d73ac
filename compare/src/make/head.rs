//! The head of a document that is made: tables with entries, before the body, which may name them.
use super::{Head, Maker};
use crate::forms::{C21, C22, C23, C25};
use crate::words::*;

/// Entry counts at the ends of a length's forms and of a table's room.
const COUNTS: [usize; 10] = [1, 2, 127, 128, 129, 130, 254, 255, 256, 257];

impl<'d> Maker<'d> {
    /// The octets before the body.
    pub(super) fn opening(&mut self, head: Head) {
        let sizes = self.sizes(head);
        if sizes.iter().all(|n| *n == 0) {
            return self.bits.text(&[0xE0, 0, 0, 1, 0]);
        }
        self.bits.text(&[0xE0, 0, 0, 1, 0x20]);
        self.bits.code("000000");
        sizes.iter().for_each(|n| self.bits.put(u64::from(*n > 0), 1));
        for table in (0..10).filter(|t| sizes[*t] > 0) {
            self.bits.number(sizes[table] as u64, C21);
            for _ in 0..sizes[table] {
                self.listed(table);
            }
        }
    }

    /// How many entries are listed for each table. A name needs a local name; and more names than can be told apart would take long to find.
    fn sizes(&mut self, head: Head) -> [usize; 10] {
        let mut sizes = [0; 10];
        for (table, size) in sizes.iter_mut().enumerate() {
            if self.dice.percent(head.listed) {
                *size = self.dice.pick(&[1, 1, 2, 2, 3, 5]);
            }
            if head.large == Some(table) {
                *size = self.dice.pick(if self.style.entries > ROWS { &COUNTS[7..] } else { &COUNTS });
            }
            let built_in = usize::from(table <= NAMESPACE);
            *size = (*size).min(self.style.entries - built_in);
        }
        let wanted = sizes[8].max(sizes[9]);
        let names = (1 + 2 * (1 + sizes[NAMESPACE])) * sizes[LOCAL];
        if wanted > names / 2 && !self.wrong() {
            sizes[LOCAL] = sizes[LOCAL].max(wanted / 2 + 1);
        }
        sizes
    }

    fn listed(&mut self, table: usize) {
        match table {
            0..=4 => {
                let s = self.new_string(table);
                self.bits.code("0");
                self.bits.number(s.len() as u64, C22);
                self.bits.text(&s);
                self.strings[table].push(s);
            }
            5..=7 => {
                let count = self.strings[table].len();
                let old = match self.dice.below(10) {
                    0..=1 if count > 0 => Some(self.strings[table][self.dice.below(count)].clone()),
                    // One too many is rare, and is to come in every form.
                    2..=7 if count >= ROWS => Some(self.dice.integers(1)),
                    _ => None,
                };
                self.bits.code("00");
                let s = self.formed(old, C23);
                self.strings[table].push(s);
            }
            _ => self.surrogate(table - 8),
        }
    }

    /// A name that is not listed yet, unless it is to be wrong.
    fn surrogate(&mut self, table: usize) {
        let mut triple = self.triple();
        while self.names[table].contains(&triple) && !self.wrong() {
            triple = self.triple();
        }
        self.bits.code("000000");
        self.bits.put(u64::from(triple[0] > 0), 1);
        self.bits.put(u64::from(triple[1] > 0), 1);
        for number in triple.iter().filter(|n| **n > 0) {
            self.bits.code("0");
            self.bits.number(*number as u64, C25);
        }
        self.names[table].push(triple);
    }

    fn triple(&mut self) -> [usize; 3] {
        let namespace = self.part(NAMESPACE, 67);
        let prefix = if namespace > 0 { self.part(PREFIX, 50) } else { 0 };
        [prefix, namespace, self.part(LOCAL, 100).max(1)]
    }

    /// A number of a table that is there so often, in percent; now and then the highest.
    fn part(&mut self, table: usize, percent: usize) -> usize {
        let count = self.strings[table].len();
        if count == 0 || !self.dice.percent(percent) {
            return 0;
        }
        if self.dice.percent(20) {
            count
        } else {
            self.number_below(count)
        }
    }
}
