//! Numbers, lengths, strings and names: each one field, joined to the octet in whose bits it starts.
use super::{Got, Reader};
use crate::forms::{bits, form_at, Form, C22, C23, C25, TOP};
use crate::judge::{Fault, Field};
use crate::words::*;

impl<'a> Reader<'a> {
    /// A number or length from a bit of the field's first octet; None where a fault leaves no value. Second is the octet behind.
    pub(super) fn number(&self, f: &mut Field, start: usize, forms: &'static [Form]) -> Option<(u64, usize)> {
        self.number_at(f, f.place, start, forms)
    }

    /// The same from a bit of an octet that is there.
    fn number_at(&self, f: &mut Field, at: usize, start: usize, forms: &'static [Form]) -> Option<(u64, usize)> {
        let from = at * 8 + start - 1;
        let form = match form_at(self.octets, from, forms) {
            Some(form) => form,
            None => {
                f.fault_if(true, Fault::Code);
                return None;
            }
        };
        let zeros = from + form.code.len();
        let split = (zeros + form.zeros).min(at * 8 + 8);
        f.fault_if(bits(self.octets, zeros, split - zeros) != 0, if at == f.place { Fault::Padding } else { Fault::LatePadding });
        let behind = at + form.octets(start);
        if behind > self.octets.len() {
            f.fault_if(true, Fault::Missing);
            return None;
        }
        f.fault_if(bits(self.octets, split, zeros + form.zeros - split) != 0, Fault::LatePadding);
        Some((form.low + bits(self.octets, zeros + form.zeros, form.bits), behind))
    }

    /// A number into a table of `count` entries; 0 where it is at fault.
    pub(super) fn index(&self, f: &mut Field, start: usize, forms: &'static [Form], count: usize) -> (usize, usize) {
        match self.number(f, start, forms) {
            None => (0, 0),
            Some((value, behind)) => {
                f.fault_if(value > TOP, Fault::Range);
                f.fault_if(value > count as u64, Fault::Index);
                (value as usize, behind)
            }
        }
    }

    /// A name from a bit of the field's octet: a number, or its parts and then its triple.
    pub(super) fn name(&mut self, mut f: Field, start: usize, forms: &'static [Form], table: usize) -> Got<[Text; 3]> {
        let octet = self.first();
        if octet << (start - 1) < 0xF0 {
            let (number, behind) = self.index(&mut f, start, forms, self.done.tables.names[table].rows.len());
            self.close(f, behind)?;
            return Ok(self.parts(self.done.tables.names[table].rows[number - 1]));
        }
        let (p, n) = (octet & 2 != 0, octet & 1 != 0);
        f.fault_if(start == 2 && octet & 4 != 0, Fault::Padding);
        f.fault_if(p && !n, Fault::Structure);
        let (place, kind) = (f.place, f.kind);
        self.close(f, place + 1)?;
        let prefix = self.optional(p, PREFIX)?;
        let namespace = self.optional(n, NAMESPACE)?;
        let local = self.identifying(LOCAL)?;
        let triple = [prefix.1, namespace.1, local.1];
        let mut after = Field { place, kind: if kind == "attribute" { "attribute triple" } else { "element triple" }, first: None };
        after.fault_if(self.done.tables.names[table].number_of(triple).is_some(), Fault::Repeat);
        after.fault_if(self.done.tables.names[table].full(), Fault::Full);
        after.judge()?;
        self.done.tables.names[table].add(triple);
        Ok([prefix.0, namespace.0, local.0])
    }

    fn parts(&self, triple: [usize; 3]) -> [Text; 3] {
        let part = |i: usize| self.done.tables.strings[i].get(triple[i]).unwrap_or(Text::Absent);
        [part(PREFIX), part(NAMESPACE), part(LOCAL)]
    }

    pub(super) fn optional(&mut self, present: bool, table: usize) -> Got<(Text, usize)> {
        if present {
            self.identifying(table)
        } else {
            Ok((Text::Absent, 0))
        }
    }

    /// C.13: a string that is always added where it is spelled, and its number.
    pub(super) fn identifying(&mut self, table: usize) -> Got<(Text, usize)> {
        let mut f = self.field(["prefix", "namespace", "local name", "target"][table])?;
        let count = self.done.tables.strings[table].rows.len();
        if self.first() & 0x80 != 0 {
            let (number, behind) = self.index(&mut f, 2, C25, count);
            self.close(f, behind)?;
            return Ok((self.done.tables.strings[table].get(number).unwrap(), number));
        }
        let text = self.spelled(&mut f, self.at, 2, C22, StringForm::Utf8);
        let said = text.said(self.octets).unwrap_or_default();
        f.fault_if(self.done.tables.strings[table].number_of(&said).is_some(), Fault::Repeat);
        f.fault_if(count >= ROWS, Fault::Full);
        self.close_behind(f, text)?;
        Ok((text, self.done.tables.strings[table].add(text, &said)))
    }

    /// A length from a bit of an octet that is there, and its text; Absent where a fault leaves none.
    pub(super) fn spelled(&self, f: &mut Field, at: usize, start: usize, lengths: &'static [Form], form: StringForm) -> Text {
        let (length, from) = match self.number_at(f, at, start, lengths) {
            Some(got) => got,
            None => return Text::Absent,
        };
        if length > (self.octets.len() - from) as u64 {
            f.fault_if(true, Fault::Missing);
            return Text::Absent;
        }
        let text = Text::Stretch(from, length as usize, form);
        f.fault_if(text.said(self.octets).is_none(), Fault::Text);
        text
    }

    /// C.19 and C.20 from the format's first bit of the field's octet. The field is of a kind of its own in each format.
    pub(super) fn formed(&self, f: &mut Field, start: usize, lengths: &'static [Form]) -> Text {
        let format = bits(self.octets, f.place * 8 + start - 1, 2) as usize;
        f.kind = in_format(f.kind, format);
        match format {
            0 => self.spelled(f, f.place, start + 2, lengths, StringForm::Utf8),
            1 => self.spelled(f, f.place, start + 2, lengths, StringForm::Utf16),
            _ => self.by_number(f, format, start + 2, lengths),
        }
    }

    /// C.29 from this bit on, eight bits, so that the length starts at the same bit of the next octet. The number is that of an alphabet (10) or of an algorithm (11).
    fn by_number(&self, f: &mut Field, format: usize, start: usize, lengths: &'static [Form]) -> Text {
        let second = f.place + 1;
        if second >= self.octets.len() {
            f.fault_if(true, Fault::Missing);
            return Text::Absent;
        }
        let number = 1 + bits(self.octets, f.place * 8 + start - 1, 8);
        let form = STRING_FORMS.into_iter().find(|form| NUMBERED[*form as usize] == Some((format, number)));
        f.kind = in_format(f.kind, form.filter(|form| form.width().is_some()).map_or(format, |form| form as usize));
        f.fault_if(form.is_none(), Fault::LateFormat);
        // Another number is answered before the text, so that any form will do.
        self.spelled(f, second, start, lengths, form.unwrap_or(StringForm::Utf8))
    }

    pub(super) fn close_behind(&mut self, f: Field, text: Text) -> Got<()> {
        match text {
            Text::Stretch(place, length, _) => self.close(f, place + length),
            _ => f.judge(),
        }
    }

    /// C.14 (value, comment, content): number 0, as seven 1 bits, is the empty string.
    pub(super) fn value(&mut self, kind: &'static str, table: usize) -> Got<Text> {
        let f = self.field(kind)?;
        if self.first() == 0xFF {
            let behind = self.at + 1;
            self.close(f, behind)?;
            return Ok(Text::Empty);
        }
        self.literal(f, 1, C23, C25, table)
    }

    /// C.14 and C.15 from a bit of the field's octet: the discriminant, then a number, or add bit, format and length.
    pub(super) fn literal(&mut self, mut f: Field, start: usize, lengths: &'static [Form], numbers: &'static [Form], table: usize) -> Got<Text> {
        let from = f.place * 8 + start - 1;
        if bits(self.octets, from, 1) == 1 {
            let (number, behind) = self.index(&mut f, start + 1, numbers, self.done.tables.strings[table].rows.len());
            self.close(f, behind)?;
            return Ok(self.done.tables.strings[table].get(number).unwrap());
        }
        let adds = bits(self.octets, from + 1, 1) == 1;
        let text = self.formed(&mut f, start + 2, lengths);
        f.fault_if(adds && self.done.tables.strings[table].full(), Fault::Full);
        self.close_behind(f, text)?;
        if adds {
            self.done.tables.strings[table].add(text, &text.said(self.octets).unwrap());
        }
        Ok(text)
    }
}

/// The format bits and the number of each form; those without a number have none.
const NUMBERED: [Option<(usize, u64)>; 7] = [None, None, Some((2, 1)), Some((2, 2)), Some((3, 3)), Some((3, 4)), Some((3, 5))];

/// A kind of field in each format and, by the numbers of their forms, by each algorithm that is read.
macro_rules! in_formats {
    ($kind:expr) => {
        [$kind, concat!($kind, ", utf-16"), concat!($kind, ", alphabet"), concat!($kind, ", algorithm"), concat!($kind, ", short"), concat!($kind, ", int"), concat!($kind, ", long")]
    };
}

/// For the counts that are printed.
const IN_FORMATS: [[&str; 7]; 7] = [
    in_formats!("value"),
    in_formats!("comment"),
    in_formats!("content"),
    in_formats!("chunk"),
    in_formats!("listed value"),
    in_formats!("listed chunk"),
    in_formats!("listed other string"),
];

fn in_format(kind: &'static str, format: usize) -> &'static str {
    IN_FORMATS.iter().find(|k| k.contains(&kind)).map_or(kind, |k| k[format])
}
