//! The comparison: what the independent program answers and leaves is what the archive must.
use crate::archive::{self, Lent};
use crate::lists::List;
use crate::words::*;
use crate::{reader, writer};

/// What was compared: a difference in words, and the refusal that both gave where there is none.
pub type Compared = (Result<(), String>, Option<Refusal>);

pub fn read(octets: &[u8], lent: &Lent) -> Compared {
    // The check stands for a reader with 32,768 records; where the lent room decides nothing, the answers are the same.
    let (wanted, refusal) = reader::outcome(octets, lent.records, lent.tables, lent.counts);
    let decided_by_room = refusal.map_or(false, |r| r.number == 14);
    let checked = if decided_by_room { reader::outcome(octets, 32768 * RECORD, TABLES, 10).0.answer as u32 } else { wanted.answer as u32 };
    let got = archive::check(octets);
    if got != checked {
        return (Err(format!("check answers {} at {}, the other program {} at {}", got % 32, got / 32, checked % 32, checked / 32)), refusal);
    }
    (archive::compare_read(octets, &wanted, lent), refusal)
}

/// The refusals of a list: of writing it with the room that it has, of measuring it, and, where that accepts it, of writing it with an octet less than was measured.
#[derive(Default)]
pub struct Refusals {
    pub write: Option<Refusal>,
    pub measure: Option<Refusal>,
    pub less: Option<Refusal>,
}

/// A list is written with the room that it has, measured, and written with exactly the octets measured, with other places in its records, and with one less.
pub fn list(l: &List, seed: u32) -> (Result<(), String>, Refusals) {
    let mut found = Refusals::default();
    let compared = list_into(l, seed, &mut found);
    (compared, found)
}

fn list_into(l: &List, seed: u32, found: &mut Refusals) -> Result<(), String> {
    let written = write(l, l.out, seed);
    found.write = written.1;
    written.0?;
    let (wanted, refusal) = writer::measured(&l.given.words(), &l.words(), &l.text, [l.tables, l.counts]);
    found.measure = refusal;
    archive::compare_measure(&l.given.words(), &l.words(), &l.text, &wanted, [l.tables, l.counts], seed)?;
    if refusal.is_some() {
        return Ok(());
    }
    let octets = (wanted.answer >> 32) as usize;
    let (just, less) = (write(&l.elsewhere(), octets, seed), write(l, octets - 1, seed));
    found.less = less.1;
    just.0.and(less.0)?;
    // Of the other program itself: what it measures is what it writes.
    match (just.1, less.1) {
        (None, Some(Refusal { number: 14, .. })) => Ok(()),
        _ => Err(format!("the other program measures {octets} octets, and does not write so many")),
    }
}

/// A list in so many octets.
fn write(l: &List, out: usize, seed: u32) -> Compared {
    let words = l.words();
    let (wanted, refusal) = writer::outcome(&l.given.words(), &words, &l.text, [out, l.tables, l.counts]);
    let compared = archive::compare_write(&l.given.words(), &words, &l.text, &wanted, [out, l.tables, l.counts], seed);
    let own = if refusal.is_none() { reads_back(l, &wanted) } else { Ok(()) };
    (own.and(compared), refusal)
}

/// A document that is read with room enough, and whose events are then measured and written as a list of their own.
pub fn document(octets: &[u8], lent: &Lent) -> Compared {
    let compared = read(octets, lent);
    if compared.0.is_err() {
        return compared;
    }
    let again = reader::read(octets, 2 * MOST).map_or(Ok(()), |done| list(&List::of(done.records(), octets.to_vec()), lent.seed).0);
    (again, compared.1)
}

/// What our own writer writes, our own reader reads back as the same events: a fault in both alike would have to be a pair.
fn reads_back(l: &List, wanted: &Outcome) -> Result<(), String> {
    let done = reader::read(&wanted.out, l.records.len()).map_err(|r| format!("the other program's own writing is refused, {} at {}", r.number, r.place))?;
    let plain = |e: &Event, from: &[u8]| (e.kind, e.strings.map(|s| s.said(from).map(|o| o.to_vec())));
    let same = done.events.iter().map(|e| plain(e, &wanted.out)).eq(l.records.iter().map(|r| plain(&Event::from_record(r).unwrap(), &l.text)));
    if same && done.tables.counts() == wanted.counts {
        Ok(())
    } else {
        Err("the other program's own writing reads back otherwise".to_string())
    }
}
