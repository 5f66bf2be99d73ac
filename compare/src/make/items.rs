//! Items of a document that is made.
use super::Maker;
use crate::forms::{C24, C25, C27, C28};
use crate::words::{ATTRIBUTES, CHUNK, ELEMENTS, NAMESPACE, OTHER, PREFIX, TARGET, VALUE};

impl<'d> Maker<'d> {
    /// Whether there is another item to make, which is then counted.
    fn another(&mut self, percent: usize) -> bool {
        let go = self.style.items > 0 && self.dice.percent(percent);
        self.style.items -= usize::from(go);
        go
    }

    pub(super) fn beside_root(&mut self) {
        while self.another(15) {
            self.comment_or_instruction();
        }
    }

    fn comment_or_instruction(&mut self) {
        self.bits.align();
        if self.dice.percent(50) {
            self.bits.put(0xE2, 8);
        } else {
            self.bits.put(0xE1, 8);
            self.identifying(TARGET);
        }
        self.value(OTHER);
    }

    pub(super) fn element(&mut self, depth: usize) {
        self.bits.align();
        let attributes = self.dice.percent(40);
        self.bits.code("0");
        self.bits.put(u64::from(attributes), 1);
        if self.dice.percent(25) {
            self.declarations();
        }
        self.name(ELEMENTS, "1111", C27);
        if attributes {
            self.attributes();
        }
        if depth == 1 {
            if let Some(table) = self.style.fill {
                self.fill(table);
            }
        }
        while self.another(if depth == 1 { self.style.on } else { 93 }) {
            self.child(depth);
        }
        self.bits.code("1111");
    }

    fn declarations(&mut self) {
        self.bits.code("111000");
        loop {
            let (p, n) = (self.dice.percent(50), self.dice.percent(60));
            self.bits.code("110011");
            self.bits.put(u64::from(p) * 2 + u64::from(n), 2);
            if p {
                self.identifying(PREFIX);
            }
            if n {
                self.identifying(NAMESPACE);
            }
            if !self.another(40) {
                break;
            }
        }
        self.bits.code("1111000000");
    }

    fn attributes(&mut self) {
        loop {
            self.bits.code("0");
            self.name(ATTRIBUTES, "11110", C25);
            self.value(VALUE);
            if !self.another(50) {
                break;
            }
        }
        self.bits.code("1111");
    }

    fn child(&mut self, depth: usize) {
        if depth < self.style.deepest && self.dice.percent(self.style.down) {
            self.element(depth + 1);
        } else if self.dice.percent(60) {
            self.bits.align();
            self.bits.code("10");
            self.literal(CHUNK, C24, C28);
        } else {
            self.comment_or_instruction();
        }
    }
}
