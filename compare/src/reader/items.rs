//! Items of a document: its children, elements with their declarations and attributes, and the ends.
use super::{Got, Reader};
use crate::forms::{C24, C25, C27, C28};
use crate::judge::{Fault, Field};
use crate::words::*;

impl<'a> Reader<'a> {
    pub(super) fn children(&mut self) -> Got<()> {
        while !self.at_end()? {
            match self.first() {
                0..=0x7F => self.element()?,
                0xE1 => self.instruction()?,
                0xE2 => self.comment()?,
                0x80..=0xBF if self.open > 0 => self.chunk()?,
                octet => return self.no_child(octet),
            }
        }
        Ok(())
    }

    fn no_child(&self, octet: u8) -> Got<()> {
        let mut f = self.field("child")?;
        let left_out = if self.open > 0 { 0b110010 } else { 0b110001 };
        f.fault_if(octet >> 2 == left_out, Fault::Format);
        f.fault_if(octet >> 2 != left_out, Fault::Code);
        f.judge()
    }

    pub(super) fn document_end(&mut self) -> Got<()> {
        let mut f = self.field("end")?;
        f.fault_if(!self.rooted, Fault::Structure);
        f.judge()?;
        self.take_end();
        if self.low {
            let mut half = self.field("half")?;
            half.fault_if(self.first() & 15 != 0, Fault::Padding);
            half.judge()?;
            self.at += 1;
        }
        if self.at < self.octets.len() {
            return Err(Refusal { number: 15, place: self.at, field: "behind the end" });
        }
        Ok(())
    }

    fn element(&mut self) -> Got<()> {
        let mut f = self.field("element")?;
        let (octet, place) = (self.first(), self.at);
        let declares = octet & 0x3C == 0x38;
        f.fault_if(self.open == 0 && self.rooted, Fault::Structure);
        f.fault_if(self.open >= DEEPEST, Fault::Depth);
        f.fault_if(declares && octet & 3 != 0, Fault::Padding);
        if declares {
            self.close(f, place + 1)?;
            self.declarations()?;
            let mut name = self.field("name octet")?;
            name.fault_if(self.first() >> 6 != 0, Fault::Padding);
            self.start(name)?;
        } else {
            self.start(f)?;
        }
        self.rooted = true;
        self.open += 1;
        if octet & 0x40 != 0 {
            self.attributes()?;
        }
        self.children()?;
        let end = self.at;
        self.push(end, Kind::End, [Text::Absent; 4])?;
        self.take_end();
        self.open -= 1;
        Ok(())
    }

    /// The name of an element from bit 3 of the field's octet, and its Start.
    fn start(&mut self, f: Field) -> Got<()> {
        let place = f.place;
        let [p, n, l] = self.name(f, 3, C27, ELEMENTS)?;
        self.push(place, Kind::Start, [p, n, l, Text::Absent])
    }

    fn declarations(&mut self) -> Got<()> {
        let mut any = false;
        loop {
            let mut f = self.field("declaration")?;
            let (octet, place) = (self.first(), self.at);
            if octet >> 4 == 15 {
                f.kind = "declarations' end";
                f.fault_if(octet != 0xF0, Fault::Padding);
                f.fault_if(!any, Fault::Structure);
                return self.close(f, place + 1);
            }
            f.fault_if(octet >> 2 != 0b110011, Fault::Code);
            self.close(f, place + 1)?;
            let prefix = self.optional(octet & 2 != 0, PREFIX)?.0;
            let namespace = self.optional(octet & 1 != 0, NAMESPACE)?.0;
            self.push(place, Kind::Namespace, [prefix, namespace, Text::Absent, Text::Absent])?;
            any = true;
        }
    }

    fn attributes(&mut self) -> Got<()> {
        let mut any = false;
        while !self.at_end()? {
            let mut f = self.field("attribute")?;
            let place = self.at;
            f.fault_if(self.first() & 0x80 != 0, Fault::Code);
            let [p, n, l] = self.name(f, 2, C25, ATTRIBUTES)?;
            let value = self.value("value", VALUE)?;
            self.push(place, Kind::Attribute, [p, n, l, value])?;
            any = true;
        }
        let mut f = self.field("end")?;
        f.fault_if(!any, Fault::Structure);
        f.judge()?;
        self.take_end();
        Ok(())
    }

    fn instruction(&mut self) -> Got<()> {
        let place = self.at;
        let f = self.field("child")?;
        self.close(f, place + 1)?;
        let target = self.identifying(TARGET)?.0;
        let content = self.value("content", OTHER)?;
        self.push(place, Kind::Instruction, [Text::Absent, Text::Absent, target, content])
    }

    fn comment(&mut self) -> Got<()> {
        let place = self.at;
        let f = self.field("child")?;
        self.close(f, place + 1)?;
        let comment = self.value("comment", OTHER)?;
        self.push(place, Kind::Comment, [Text::Absent, Text::Absent, Text::Absent, comment])
    }

    fn chunk(&mut self) -> Got<()> {
        let place = self.at;
        let f = self.field("chunk")?;
        let text = self.literal(f, 3, C24, C28, CHUNK)?;
        self.push(place, Kind::Chunk, [Text::Absent, Text::Absent, Text::Absent, text])
    }
}
