//! What the bits of a document go into: octets for writing, a count for measuring.
use crate::forms::{BitRow, Form};

pub(super) trait Row: Default {
    fn put(&mut self, value: u64, n: usize);
    fn code(&mut self, code: &str);
    /// A number in the only form that has it.
    fn number(&mut self, value: u64, forms: &[Form]);
    fn text(&mut self, text: &[u8]);
    /// Fills the octet: every item but an end starts on the first bit of one.
    fn align(&mut self);
    /// Octets, the last of which may have bits that are not used yet.
    fn len(&self) -> usize;
}

impl Row for BitRow {
    fn put(&mut self, value: u64, n: usize) {
        BitRow::put(self, value, n);
    }

    fn code(&mut self, code: &str) {
        BitRow::code(self, code);
    }

    fn number(&mut self, value: u64, forms: &[Form]) {
        BitRow::number(self, value, forms);
    }

    fn text(&mut self, text: &[u8]) {
        BitRow::text(self, text);
    }

    fn align(&mut self) {
        BitRow::align(self);
    }

    fn len(&self) -> usize {
        self.octets.len()
    }
}

/// Bits that are counted and not kept.
#[derive(Default)]
pub(super) struct Count(usize);

impl Row for Count {
    fn put(&mut self, _: u64, n: usize) {
        self.0 += n;
    }

    fn code(&mut self, code: &str) {
        self.0 += code.len();
    }

    fn number(&mut self, value: u64, forms: &[Form]) {
        let f = forms.iter().find(|f| f.low <= value && value <= f.high()).expect("a number within the forms");
        self.0 += f.code.len() + f.zeros + f.bits;
    }

    fn text(&mut self, text: &[u8]) {
        assert!(self.0 % 8 == 0, "text starts on the first bit of an octet");
        self.0 += 8 * text.len();
    }

    fn align(&mut self) {
        self.0 = 8 * self.len();
    }

    fn len(&self) -> usize {
        (self.0 + 7) / 8
    }
}
