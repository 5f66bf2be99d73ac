//! Strings and names with the required choices: the lowest number that fits, else spelled, a value in the form that makes its field shortest.
use super::{Row, Writer};
use crate::forms::{Form, C22, C23, C25};
use crate::words::*;
use std::borrow::Cow;

/// The forms that are written, the first of them where two make a field equally short, with what is between the add bit and the length.
const WRITTEN: [(StringForm, &str); 6] = [
    (StringForm::Utf8, "00"),
    (StringForm::Numeric, "1000000000"),
    (StringForm::Dates, "1000000001"),
    (StringForm::Short, "1100000010"),
    (StringForm::Int, "1100000011"),
    (StringForm::Long, "1100000100"),
];

/// Bits of a length.
fn bits_of(length: usize, lengths: &[Form]) -> usize {
    let f = lengths.iter().find(|f| f.low <= length as u64 && length as u64 <= f.high()).expect("a length within the forms");
    f.code.len() + f.zeros + f.bits
}

impl<'a, R: Row> Writer<'a, R> {
    /// The number of a string in a table: 0 where it is absent, None where it is not held.
    fn held(&self, table: usize, s: Text) -> Option<usize> {
        match s.said(self.text) {
            None => Some(0),
            Some(said) => self.tables.strings[table].number_of(&said),
        }
    }

    /// The bits that say whether a prefix and a namespace follow.
    pub(super) fn presence(&mut self, e: &Event) {
        self.bits.put((e.strings[0] != Text::Absent) as u64, 1);
        self.bits.put((e.strings[1] != Text::Absent) as u64, 1);
    }

    pub(super) fn name(&mut self, e: &Event, code: &str, forms: &[Form], table: usize) -> Option<()> {
        let held = [self.held(PREFIX, e.strings[0]), self.held(NAMESPACE, e.strings[1]), self.held(LOCAL, e.strings[2])];
        if let [Some(p), Some(n), Some(l)] = held {
            if let Some(number) = self.tables.names[table].number_of([p, n, l]) {
                self.bits.number(number as u64, forms);
                return Some(());
            }
        }
        self.bits.code(code);
        self.presence(e);
        let triple = [self.part(PREFIX, e.strings[0])?, self.part(NAMESPACE, e.strings[1])?, self.part(LOCAL, e.strings[2])?];
        if self.tables.names[table].full() {
            return None;
        }
        self.tables.names[table].add(triple);
        Some(())
    }

    /// C.13, or nothing for an absent string; gives its number.
    pub(super) fn part(&mut self, table: usize, s: Text) -> Option<usize> {
        let text = self.text;
        let octets = match s.said(text) {
            None => return Some(0),
            Some(octets) => octets,
        };
        if let Some(number) = self.tables.strings[table].number_of(&octets) {
            self.bits.code("1");
            self.bits.number(number as u64, C25);
            return Some(number);
        }
        if self.tables.strings[table].full() {
            return None;
        }
        self.bits.code("0");
        self.bits.number(octets.len() as u64, C22);
        self.bits.text(&octets);
        Some(self.tables.strings[table].add(s, &octets))
    }

    /// C.14: the empty string is the number 0.
    pub(super) fn value(&mut self, s: Text, table: usize) {
        if s == Text::Empty {
            self.bits.put(0xFF, 8);
        } else {
            self.literal(s, table, C23, C25);
        }
    }

    pub(super) fn literal(&mut self, s: Text, table: usize, lengths: &[Form], numbers: &[Form]) {
        let text = self.text;
        let said = s.said(text).expect("judged to be a string");
        let strings = &mut self.tables.strings[table];
        if let Some(number) = strings.number_of(&said) {
            self.bits.code("1");
            self.bits.number(number as u64, numbers);
            return;
        }
        let adds = said.len() <= 5 && !strings.full();
        if adds {
            strings.add(s, &said);
        }
        self.bits.code(if adds { "01" } else { "00" });
        self.formed(&said, lengths);
    }

    /// C.19 and C.20: format, length and octets of what a string says.
    pub(super) fn formed(&mut self, said: &[u8], lengths: &[Form]) {
        let text = std::str::from_utf8(said).expect("judged to be text");
        let ways = WRITTEN.iter().filter_map(|(form, code)| {
            let octets = if *form == StringForm::Utf8 { Cow::from(said) } else { Cow::from(form.spelled(text)?) };
            Some((code.len() + bits_of(octets.len(), lengths) + 8 * octets.len(), code, octets))
        });
        let (_, code, octets) = ways.min_by_key(|way| way.0).expect("utf-8 is one of them");
        self.bits.code(code);
        self.bits.number(octets.len() as u64, lengths);
        self.bits.text(&octets);
    }
}
