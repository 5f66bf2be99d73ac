//! An independent reader: recursive descent over annex C. Each field collects all its faults, and the requirements' order of judgement picks the one
//! that is answered; nothing here decides the order by the order of its tests.
mod head;
mod items;
mod strings;

use crate::judge::{Fault, Field};
use crate::words::*;

pub struct Reading {
    pub events: Vec<Event>,
    /// The octet of each event, at which it would be refused for room.
    pub places: Vec<usize>,
    pub tables: Tables,
    /// Fields read, by kind: first octet, the octet behind, kind. The damage aims at them.
    pub fields: Vec<(usize, usize, &'static str)>,
}

struct Reader<'a> {
    octets: &'a [u8],
    at: usize,
    /// The low half of octet `at` is due: an end stands in its high half.
    low: bool,
    room: usize,
    open: usize,
    rooted: bool,
    done: Reading,
}

impl Reading {
    pub fn records(&self) -> Vec<Record> {
        self.events.iter().zip(&self.places).map(|(e, place)| e.record(*place)).collect()
    }
}

type Got<T> = Result<T, Refusal>;

/// Reads a document with so many event records; the sizes of the other rooms are judged by `outcome`.
pub fn read(octets: &[u8], room: usize) -> Got<Reading> {
    let done = Reading { events: Vec::new(), places: Vec::new(), tables: Tables::start(), fields: Vec::new() };
    let mut r = Reader { octets, at: 0, low: false, room, open: 0, rooted: false, done };
    if octets.is_empty() || octets.len() > MOST {
        return Err(Refusal { number: 1, place: 0, field: "size" });
    }
    r.header()?;
    if r.fifth_octet()? {
        r.head()?;
    }
    r.children()?;
    r.document_end()?;
    Ok(r.done)
}

/// What a call of the reader must answer and leave, with room of these lengths in words.
pub fn outcome(octets: &[u8], records: usize, tables: usize, counts: usize) -> (Outcome, Option<Refusal>) {
    let sized = !octets.is_empty() && octets.len() <= MOST;
    let got = if sized && (tables != TABLES || counts != 10) { Err(Refusal { number: 14, place: 0, field: "table room" }) } else { read(octets, records / RECORD) };
    match got {
        Err(r) => (Outcome::refused(&r), Some(r)),
        Ok(done) => {
            let filled = done.records().concat();
            let answer = (done.events.len() as u64) << 32;
            (Outcome { answer, filled, out: Vec::new(), tables: done.tables.words(), counts: done.tables.counts() }, None)
        }
    }
}

impl<'a> Reader<'a> {
    /// The field that starts here; a first octet that is missing comes before all else.
    fn field(&self, kind: &'static str) -> Got<Field> {
        if self.at >= self.octets.len() {
            return Err(Refusal { number: 2, place: self.octets.len(), field: kind });
        }
        Ok(Field { place: self.at, kind, first: None })
    }

    fn close(&mut self, f: Field, behind: usize) -> Got<()> {
        f.judge()?;
        self.done.fields.push((f.place, behind, f.kind));
        self.at = behind;
        Ok(())
    }

    fn first(&self) -> u8 {
        self.octets[self.at]
    }

    fn push(&mut self, place: usize, kind: Kind, strings: [Text; 4]) -> Got<()> {
        if self.done.events.len() >= self.room {
            return Err(Refusal { number: 14, place, field: "event room" });
        }
        self.done.events.push(Event { kind, strings });
        self.done.places.push(place);
        Ok(())
    }

    fn header(&mut self) -> Got<()> {
        let mut f = self.field("header")?;
        f.fault_if(self.octets.len() < 4, Fault::Missing);
        f.fault_if(!self.octets.starts_with(&[0xE0, 0, 0, 1]), Fault::Header);
        self.close(f, 4)
    }

    /// Whether the document has a head.
    fn fifth_octet(&mut self) -> Got<bool> {
        let mut f = self.field("fifth octet")?;
        let octet = self.first();
        f.fault_if(octet & 0x80 != 0, Fault::Padding);
        f.fault_if(octet & 0x5F != 0, Fault::Optional);
        self.close(f, 5)?;
        Ok(octet & 0x20 != 0)
    }

    /// Whether an end stands here. A padded half before it means that the end was due there.
    fn at_end(&mut self) -> Got<bool> {
        let mut late = false;
        if self.low {
            match self.first() & 15 {
                15 => return Ok(true),
                0 => late = true,
                _ => return Err(Refusal { number: 6, place: self.at, field: "half" }),
            }
            self.low = false;
            self.at += 1;
        }
        let mut f = self.field("first octet")?;
        if self.first() >> 4 != 15 {
            return Ok(false);
        }
        f.kind = "end";
        f.fault_if(late, Fault::Padding);
        f.judge()?;
        Ok(true)
    }

    /// Goes behind the four bits of an end.
    fn take_end(&mut self) {
        self.done.fields.push((self.at, self.at + 1, "end"));
        if self.low {
            self.at += 1;
        }
        self.low = !self.low;
    }
}
