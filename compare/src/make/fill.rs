//! Documents in which a table is full or nearly so: children of the root that make its entries.
use super::Maker;
use crate::forms::{Form, C23, C24, C25, C27};
use crate::words::{ATTRIBUTES, CHUNK, ELEMENTS, LOCAL, NAMESPACE, OTHER, PREFIX, ROWS, TARGET, VALUE};

impl<'d> Maker<'d> {
    fn count(&self, table: usize) -> usize {
        if table < 8 {
            self.strings[table].len()
        } else {
            self.names[table - 8].len()
        }
    }

    /// Children of the root that bring one table to its limit or just below it.
    pub(super) fn fill(&mut self, table: usize) {
        let wanted = ROWS - self.dice.below(4);
        if table == PREFIX || table == NAMESPACE {
            return self.fill_by_declarations(table, wanted);
        }
        while self.count(table) < wanted {
            self.bits.align();
            match table {
                TARGET => {
                    self.bits.put(0xE1, 8);
                    self.put_identifying(TARGET, None);
                    self.bits.put(0xFF, 8);
                }
                OTHER => {
                    self.bits.put(0xE2, 8);
                    self.added(OTHER, C23);
                }
                CHUNK => {
                    self.bits.code("10");
                    self.added(CHUNK, C24);
                }
                _ => self.filling_element(table),
            }
        }
    }

    fn fill_by_declarations(&mut self, table: usize, wanted: usize) {
        self.bits.align();
        self.bits.code("00111000");
        while self.count(table) < wanted {
            self.bits.code(if table == PREFIX { "11001110" } else { "11001101" });
            self.put_identifying(table, None);
        }
        self.bits.code("11001100");
        self.bits.code("1111000000");
        self.bits.number(1, C27);
        self.bits.code("1111");
    }

    fn filling_element(&mut self, table: usize) {
        self.bits.code("01");
        self.filling_name(table, ELEMENTS, "1111", C27);
        self.bits.code("0");
        self.filling_name(table, ATTRIBUTES, "11110", C25);
        if table == VALUE {
            self.added(VALUE, C23);
        } else {
            self.bits.put(0xFF, 8);
        }
        self.bits.code("11111111");
    }

    /// A name that helps to fill a table: of a new local name for LOCAL NAME, of many pairs of few parts for a table of names.
    fn filling_name(&mut self, table: usize, names: usize, code: &str, forms: &[Form]) {
        let locals = self.strings[LOCAL].len();
        let spreads = table == 8 + names;
        // Half of the new names are the elements', so that LOCAL NAME fills before both tables of names.
        let new = (table == LOCAL && locals < ROWS && self.dice.percent(50)) || (spreads && locals < 20);
        let local = if new { None } else { Some(1 + self.dice.below(locals)) };
        let n = spreads && self.dice.percent(60);
        let p = n && self.dice.percent(60);
        let choices = [self.choose_few(PREFIX), self.choose_few(NAMESPACE), local];
        self.named(names, code, forms, [p, n, true], choices);
    }

    /// A number, or a new string while the table has few.
    fn choose_few(&mut self, table: usize) -> Option<usize> {
        let count = self.strings[table].len();
        if count < 12 {
            None
        } else {
            Some(1 + self.dice.below(count))
        }
    }

    fn added(&mut self, table: usize, lengths: &[Form]) {
        self.bits.code("01");
        let s = self.dice.text(1);
        let s = self.formed(Some(s), lengths);
        self.strings[table].push(s);
    }
}
