//! Calls the reader or writer of `compare/` on one document so many times, for a count of instructions from outside. It does the archive's job: the same answer, and the
//! same words and octets left in room that is lent exactly as long as the document needs it. `compare` itself keeps events, tables and fields in vectors and hash
//! maps of its own for each call; what is added here is only the way of its results into the lent room.
//!
//! usage: other check|read|write|measure CALLS < octets    # a digest of what is left in the lent room on standard output, as `ours` prints it
#![allow(dead_code)]
#[path = "../compare/src/forms.rs"]
mod forms;
#[path = "../compare/src/judge.rs"]
mod judge;
#[path = "../compare/src/reader/mod.rs"]
mod reader;
#[path = "../compare/src/tables.rs"]
mod tables;
#[path = "../compare/src/text.rs"]
mod text;
#[path = "../compare/src/words.rs"]
mod words;
#[path = "../compare/src/writer/mod.rs"]
mod writer;

use std::io::Read;
use std::process::exit;
use words::*;

/// What both functions fill besides their own room.
struct Known {
    tables: Vec<u32>,
    counts: Vec<u32>,
}

impl Known {
    fn fill(&mut self, from: &Tables) {
        self.tables.fill(0);
        for (t, table) in from.strings.iter().enumerate() {
            for (i, row) in table.rows.iter().enumerate() {
                if let Text::Stretch(place, length, form) = *row {
                    self.tables[(t * ROWS + i) * 3..][..3].copy_from_slice(&[place as u32, length as u32, form as u32]);
                }
            }
            self.counts[t] = table.rows.len() as u32;
        }
        for (t, table) in from.names.iter().enumerate() {
            for (i, row) in table.rows.iter().enumerate() {
                self.tables[((8 + t) * ROWS + i) * 3..][..3].copy_from_slice(&row.map(|number| number as u32));
            }
            self.counts[8 + t] = table.rows.len() as u32;
        }
    }
}

impl Known {
    /// The entries that are not built in, as words for the writer.
    fn given(&self) -> Vec<u32> {
        let built_in = |t: usize| usize::from(t <= NAMESPACE);
        let mut words: Vec<u32> = (0..10).map(|t| self.counts[t] - built_in(t) as u32).collect();
        for t in 0..10 {
            for row in self.tables[t * ROWS * 3..].chunks_exact(3).take(self.counts[t] as usize).skip(built_in(t)) {
                words.extend(if t < 8 { [TAGS[row[2] as usize], row[0], row[1]] } else { [row[0], row[1], row[2]] });
            }
        }
        words
    }
}

fn check(octets: &[u8]) -> Option<usize> {
    reader::read(octets, 32768).ok().map(|done| done.events.len())
}

/// The number of events, whose records are filled in.
fn read(octets: &[u8], records: &mut [u32], known: &mut Known) -> Option<usize> {
    let done = reader::read(octets, records.len() / RECORD).ok()?;
    for (i, record) in records.chunks_exact_mut(RECORD).take(done.events.len()).enumerate() {
        record.copy_from_slice(&done.events[i].record(done.places[i]));
    }
    records[RECORD * done.events.len()..].fill(0);
    known.fill(&done.tables);
    Some(done.events.len())
}

fn events_of(records: &[u32]) -> Vec<Option<Event>> {
    records.chunks_exact(RECORD).map(Event::from_record).collect()
}

/// The number of octets.
fn measure(given: &[u32], records: &[u32], text: &[u8], known: &mut Known) -> Option<usize> {
    let (octets, tables) = writer::measure(given, &events_of(records), text).ok()?;
    known.fill(&tables);
    Some(octets)
}

/// The number of octets, which are filled in.
fn write(given: &[u32], records: &[u32], text: &[u8], out: &mut [u8], known: &mut Known) -> Option<usize> {
    let events = events_of(records);
    let done = writer::write(given, &events, text, out.len()).ok()?;
    let n = done.octets.len();
    out[..n].copy_from_slice(&done.octets);
    out[n..].fill(0);
    known.fill(&done.tables);
    Some(n)
}

/// FNV-1a over words.
fn digest(h: u32, words: &[u32]) -> u32 {
    words.iter().fold(h, |h, word| (h ^ word).wrapping_mul(16_777_619))
}

fn main() {
    let arguments: Vec<String> = std::env::args().collect();
    let mut octets = Vec::new();
    std::io::stdin().read_to_end(&mut octets).expect("standard input");
    let calls: usize = arguments[2].parse().expect("a number of calls");
    let events = check(&octets).unwrap_or_else(|| exit(1));
    let mut records = vec![0; RECORD * events];
    let mut known = Known { tables: vec![0; TABLES], counts: vec![0; 10] };
    read(&octets, &mut records, &mut known);
    let given = if octets[4] > 0 { known.given() } else { Vec::new() };
    // As many octets as are measured: a document may have strings in another form than our writers choose.
    let writes = matches!(arguments[1].as_str(), "measure" | "write");
    let room = if writes { measure(&given, &records, &octets, &mut known).unwrap_or_else(|| exit(1)) } else { 0 };
    let mut out = vec![0; room];
    for _ in 0..calls {
        let right = match arguments[1].as_str() {
            "check" => check(&octets) == Some(events),
            "read" => read(&octets, &mut records, &mut known) == Some(events),
            "measure" => measure(&given, &records, &octets, &mut known) == Some(room),
            _ => write(&given, &records, &octets, &mut out, &mut known) == Some(room),
        };
        if !right {
            exit(1);
        }
    }
    let words = digest(digest(digest(2_166_136_261, &records), &known.tables), &known.counts);
    println!("{}", out.iter().fold(words, |h, octet| digest(h, &[u32::from(*octet)])));
}
