//! An independent writer with the required choices: events one by one into a row of bits, on which the ends that are owed are put before an event. Where the row is a count,
//! it measures.
mod head;
mod items;
mod judged;
mod row;
mod strings;

use crate::forms::BitRow;
use crate::words::*;
use row::{Count, Row};

/// Where the list stands, for the question which event may come next.
#[derive(Clone, Copy, PartialEq, Eq)]
enum Mode {
    Content,
    Declaring,
    Attributes,
}

struct Writer<'a, R> {
    text: &'a [u8],
    bits: R,
    tables: Tables,
    mode: Mode,
    open: usize,
    rooted: bool,
    /// The attribute list of the element that was started last is announced and not yet ended.
    owed: bool,
    /// Octets of the events that were judged right.
    right: usize,
}

pub struct Writing {
    pub octets: Vec<u8>,
    pub tables: Tables,
}

/// Writes records (None is a blank or malformed one) into so many octets, with the tables that these words give.
pub fn write(given: &[u32], events: &[Option<Event>], text: &[u8], room: usize) -> Result<Writing, Refusal> {
    let mut w = Writer::<BitRow>::new(text);
    w.all(given, events, room.min(MOST))?;
    Ok(Writing { octets: w.bits.octets, tables: w.tables })
}

/// How many octets they have, within the longest document, and the tables behind them.
pub fn measure(given: &[u32], events: &[Option<Event>], text: &[u8]) -> Result<(usize, Tables), Refusal> {
    let mut w = Writer::<Count>::new(text);
    w.all(given, events, MOST)?;
    Ok((w.bits.len(), w.tables))
}

/// The least room with which a refused list is refused alike: its faulty event needs none, since ROOM is judged last.
pub fn least_room(given: &[u32], events: &[Option<Event>], text: &[u8]) -> usize {
    let mut w = Writer::<Count>::new(text);
    let _ = w.all(given, events, MOST);
    w.right
}

/// What the lengths of the text area, of tables and of counts decide.
fn lengths(text: &[u8], tables: usize, counts: usize) -> Result<(), Refusal> {
    if text.len() > MOST {
        Err(Refusal { number: 1, place: 0, field: "size" })
    } else if tables != TABLES || counts != 10 {
        Err(Refusal { number: 14, place: 0, field: "table room" })
    } else {
        Ok(())
    }
}

fn events_of(records: &[u32]) -> Vec<Option<Event>> {
    records.chunks_exact(RECORD).map(Event::from_record).collect()
}

/// What is left of so many octets, of these if they are written, with these tables.
fn left(got: Result<(usize, Vec<u8>, Tables), Refusal>) -> (Outcome, Option<Refusal>) {
    match got {
        Err(r) => (Outcome::refused(&r), Some(r)),
        Ok((n, out, tables)) => (Outcome { answer: (n as u64) << 32, filled: Vec::new(), out, tables: tables.words(), counts: tables.counts() }, None),
    }
}

/// What a call of the writer must answer and leave, with room of these lengths.
pub fn outcome(given: &[u32], records: &[u32], text: &[u8], [out, tables, counts]: [usize; 3]) -> (Outcome, Option<Refusal>) {
    let got = lengths(text, tables, counts).and_then(|_| write(given, &events_of(records), text, out));
    left(got.map(|done| (done.octets.len(), done.octets, done.tables)))
}

/// What a call of measuring must.
pub fn measured(given: &[u32], records: &[u32], text: &[u8], [tables, counts]: [usize; 2]) -> (Outcome, Option<Refusal>) {
    let got = lengths(text, tables, counts).and_then(|_| measure(given, &events_of(records), text));
    left(got.map(|(n, tables)| (n, Vec::new(), tables)))
}

/// What an event at fault is called: its kind, and whether one of its strings is in another form than utf-8.
fn event_name(e: &Event) -> &'static str {
    let names = [["Namespace", "Start", "Attribute", "Text", "Comment", "Instruction", "End"], ["Namespace, form", "Start, form", "Attribute, form", "Text, form", "Comment, form", "Instruction, form", "End, form"]];
    names[usize::from(e.strings.iter().any(|s| s.form() != StringForm::Utf8))][e.kind as usize - 1]
}

/// Whether the element that starts with the first of these events has attributes: its first octet says so before they come.
fn has_attributes(events: &[Option<Event>]) -> bool {
    let kinds = events.iter().map(|e| e.map(|e| e.kind));
    let mut behind = kinds.skip_while(|k| *k == Some(Kind::Namespace));
    behind.next() == Some(Some(Kind::Start)) && behind.next() == Some(Some(Kind::Attribute))
}

impl<'a, R: Row> Writer<'a, R> {
    fn new(text: &'a [u8]) -> Writer<'a, R> {
        Writer { text, bits: R::default(), tables: Tables::start(), mode: Mode::Content, open: 0, rooted: false, owed: false, right: 0 }
    }

    fn all(&mut self, given: &[u32], events: &[Option<Event>], room: usize) -> Result<(), Refusal> {
        self.head(given, room)?;
        for (place, event) in events.iter().enumerate() {
            let field = event.map_or("blank record", |e| event_name(&e));
            self.first(&events[place..], room).map_err(|number| Refusal { number, place, field })?;
            self.right = self.bits.len();
        }
        self.finish(room).map_err(|number| Refusal { number, place: events.len(), field: "end of the list" })
    }

    /// The first of these events, judged in the required order; Err is the refusal's number.
    fn first(&mut self, events: &[Option<Event>], room: usize) -> Result<(), u32> {
        let e = events[0].filter(|e| self.may_come(e.kind) && self.strings_right(e)).ok_or(16u32)?;
        if !self.has_text(&e) {
            return Err(9);
        }
        if self.starts_element(e.kind) && self.open >= DEEPEST {
            return Err(13);
        }
        self.put(&e, has_attributes(events)).ok_or(12u32)?;
        self.fits(room)
    }

    fn finish(&mut self, room: usize) -> Result<(), u32> {
        if !self.rooted || self.open > 0 || self.mode == Mode::Declaring {
            return Err(16);
        }
        self.bits.code("1111");
        self.fits(room)
    }

    fn fits(&self, room: usize) -> Result<(), u32> {
        if self.bits.len() > room {
            Err(14)
        } else {
            Ok(())
        }
    }
}
