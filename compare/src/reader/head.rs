//! The head of a document (C.2.5): the tables that it lists, each with a length and its entries.
use super::{Got, Reader};
use crate::forms::{C21, C22, C23, C25, TOP};
use crate::judge::{Fault, Field};
use crate::words::*;

const STRINGS: [&str; 8] =
    ["listed prefix", "listed namespace", "listed local name", "listed target", "listed uri", "listed value", "listed chunk", "listed other string"];
const SURROGATES: [&str; 2] = ["listed element name", "listed attribute name"];
const TRIPLES: [&str; 2] = ["listed element triple", "listed attribute triple"];

impl<'a> Reader<'a> {
    pub(super) fn head(&mut self) -> Got<()> {
        let mut f = self.field("head")?;
        let place = self.at;
        f.fault_if(self.first() & 0xE0 != 0, Fault::Padding);
        f.fault_if(self.first() & 0x1C != 0, Fault::Optional);
        let second = self.octets.get(place + 1).copied();
        f.fault_if(second.is_none(), Fault::Missing);
        let listed = u32::from(self.first() & 3) << 8 | u32::from(second.unwrap_or(0));
        f.fault_if(second.is_some() && listed == 0, Fault::Structure);
        self.close(f, place + 2)?;
        for table in (0..10).filter(|t| listed >> (9 - t) & 1 == 1) {
            for _ in 0..self.table_length()? {
                self.entry(table)?;
            }
        }
        Ok(())
    }

    fn table_length(&mut self) -> Got<u64> {
        let mut f = self.field("length of a table")?;
        let (length, behind) = self.number(&mut f, 1, C21).unwrap_or((0, 0));
        f.fault_if(length > TOP, Fault::Range);
        self.close(f, behind)?;
        Ok(length)
    }

    fn entry(&mut self, table: usize) -> Got<()> {
        match table {
            0..=4 => self.listed_identifying(table),
            5..=7 => self.listed_literal(table),
            _ => self.surrogate(table - 8),
        }
    }

    /// C.2.5.3: spelled, behind a bit of padding.
    fn listed_identifying(&mut self, table: usize) -> Got<()> {
        let mut f = self.field(STRINGS[table])?;
        f.fault_if(self.first() & 0x80 != 0, Fault::Padding);
        let text = self.spelled(&mut f, self.at, 2, C22, StringForm::Utf8);
        let held = text.said(self.octets).map_or(false, |said| self.done.tables.strings[table].number_of(&said).is_some());
        f.fault_if(held, Fault::Repeat);
        self.list(f, table, text)
    }

    /// C.2.5.4: two bits of padding, then C.19; chunks too, and there is no add bit.
    fn listed_literal(&mut self, table: usize) -> Got<()> {
        let mut f = self.field(STRINGS[table])?;
        f.fault_if(self.first() & 0xC0 != 0, Fault::Padding);
        let text = self.formed(&mut f, 3, C23);
        self.list(f, table, text)
    }

    /// What is listed is always added.
    fn list(&mut self, mut f: Field, table: usize, text: Text) -> Got<()> {
        f.fault_if(self.done.tables.strings[table].full(), Fault::Full);
        self.close_behind(f, text)?;
        self.done.tables.strings[table].add(text, &text.said(self.octets).unwrap_or_default());
        Ok(())
    }

    /// C.2.5.5 and C.16: a name by the numbers of its parts.
    fn surrogate(&mut self, table: usize) -> Got<()> {
        let mut f = self.field(SURROGATES[table])?;
        let (octet, place) = (self.first(), self.at);
        f.fault_if(octet & 0xFC != 0, Fault::Padding);
        f.fault_if(octet & 3 == 2, Fault::Structure);
        self.close(f, place + 1)?;
        let prefix = self.part_number(octet & 2 != 0, PREFIX)?;
        let namespace = self.part_number(octet & 1 != 0, NAMESPACE)?;
        let triple = [prefix, namespace, self.part_number(true, LOCAL)?];
        let mut after = Field { place, kind: TRIPLES[table], first: None };
        after.fault_if(self.done.tables.names[table].number_of(triple).is_some(), Fault::Repeat);
        after.fault_if(self.done.tables.names[table].full(), Fault::Full);
        after.judge()?;
        self.done.tables.names[table].add(triple);
        Ok(())
    }

    /// The number of a part, or 0 where it is absent.
    fn part_number(&mut self, present: bool, table: usize) -> Got<usize> {
        if !present {
            return Ok(0);
        }
        let mut f = self.field("number of a part")?;
        f.fault_if(self.first() & 0x80 != 0, Fault::Padding);
        let (number, behind) = self.index(&mut f, 2, C25, self.done.tables.strings[table].rows.len());
        self.close(f, behind)?;
        Ok(number)
    }
}
