//! The octets of each kind of event.
use super::{Mode, Row, Writer};
use crate::forms::{C24, C25, C27, C28};
use crate::words::*;

impl<'a, R: Row> Writer<'a, R> {
    /// The event's octets, with all that is owed before it; None where a table is full.
    pub(super) fn put(&mut self, e: &Event, attributes: bool) -> Option<()> {
        if self.bits.len() == 0 {
            self.bits.text(&[0xE0, 0, 0, 1, 0]);
        }
        if self.owed && e.kind != Kind::Attribute {
            self.bits.code("1111");
            self.owed = false;
        }
        if e.kind == Kind::End {
            return self.end();
        }
        self.bits.align();
        match e.kind {
            Kind::Namespace => self.namespace(e, attributes),
            Kind::Start => self.start(e, attributes),
            Kind::Attribute => self.attribute(e),
            Kind::Chunk => self.chunk(e.strings[3]),
            Kind::Comment => self.comment(e.strings[3]),
            Kind::Instruction => self.instruction(e),
            Kind::End => unreachable!("put above"),
        }
    }

    fn end(&mut self) -> Option<()> {
        self.bits.code("1111");
        self.mode = Mode::Content;
        self.open -= 1;
        Some(())
    }

    fn namespace(&mut self, e: &Event, attributes: bool) -> Option<()> {
        if self.mode != Mode::Declaring {
            self.bits.code("0");
            self.bits.put(attributes as u64, 1);
            self.bits.code("111000");
            self.mode = Mode::Declaring;
        }
        self.bits.code("110011");
        self.presence(e);
        self.part(PREFIX, e.strings[0])?;
        self.part(NAMESPACE, e.strings[1])?;
        Some(())
    }

    fn start(&mut self, e: &Event, attributes: bool) -> Option<()> {
        if self.mode == Mode::Declaring {
            self.bits.code("1111000000");
        } else {
            self.bits.code("0");
            self.bits.put(attributes as u64, 1);
        }
        self.mode = Mode::Attributes;
        self.owed = attributes;
        self.rooted = true;
        self.open += 1;
        self.name(e, "1111", C27, ELEMENTS)
    }

    fn attribute(&mut self, e: &Event) -> Option<()> {
        self.bits.code("0");
        self.name(e, "11110", C25, ATTRIBUTES)?;
        self.value(e.strings[3], VALUE);
        Some(())
    }

    fn chunk(&mut self, text: Text) -> Option<()> {
        self.mode = Mode::Content;
        self.bits.code("10");
        self.literal(text, CHUNK, C24, C28);
        Some(())
    }

    fn comment(&mut self, text: Text) -> Option<()> {
        self.mode = Mode::Content;
        self.bits.put(0xE2, 8);
        self.value(text, OTHER);
        Some(())
    }

    fn instruction(&mut self, e: &Event) -> Option<()> {
        self.mode = Mode::Content;
        self.bits.put(0xE1, 8);
        self.part(TARGET, e.strings[2])?;
        self.value(e.strings[3], OTHER);
        Some(())
    }
}
