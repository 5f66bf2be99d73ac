//! The given tables: one judgement over all of them, all at place 0, and their octets.
use super::{Row, Writer};
use crate::forms::{C21, C22, C23, C25};
use crate::words::*;

type Listed = [Vec<[u32; 3]>; 10];

/// What a given string at fault is called, by its form.
const GIVEN: [&str; 7] = [
    "given string",
    "given string, utf-16",
    "given string, alphabet 1",
    "given string, alphabet 2",
    "given string, short",
    "given string, int",
    "given string, long",
];

/// The entries of each table; None where there are not ten counts and so many entries. No words at all are ten empty tables.
fn listed(words: &[u32]) -> Option<Listed> {
    let mut tables = Listed::default();
    if words.is_empty() {
        return Some(tables);
    }
    let counts = words.get(..10)?;
    let entries: u64 = counts.iter().map(|c| u64::from(*c)).sum();
    if words.len() as u64 != 10 + 3 * entries {
        return None;
    }
    let mut rest = words[10..].chunks_exact(3);
    for (table, count) in tables.iter_mut().zip(counts) {
        table.extend(rest.by_ref().take(*count as usize).map(|e| [e[0], e[1], e[2]]));
    }
    Some(tables)
}

/// The tables with what is listed, however much that is, and whether something is there twice that may not be.
fn filled(given: &Listed, text: &[u8]) -> (Tables, bool) {
    let (mut tables, mut repeats) = (Tables::start(), false);
    for (t, entries) in given[..8].iter().enumerate() {
        for string in entries.iter().filter_map(|e| Text::from_words(e)) {
            let said = string.said(text).unwrap_or_default();
            repeats |= Tables::identifies(t) && tables.strings[t].number_of(&said).is_some();
            tables.strings[t].add(string, &said);
        }
    }
    for (t, entries) in given[8..].iter().enumerate() {
        for triple in entries.iter().map(|e| e.map(|n| n as usize)) {
            repeats |= tables.names[t].number_of(triple).is_some();
            tables.names[t].add(triple);
        }
    }
    (tables, repeats)
}

impl<'a, R: Row> Writer<'a, R> {
    /// Judges the given tables and writes header and head. Without any entry there is no head, and the header comes with the first event.
    pub(super) fn head(&mut self, words: &[u32], room: usize) -> Result<(), Refusal> {
        let refused = |number, field| Refusal { number, place: 0, field };
        let given = listed(words).ok_or(refused(16, "given words"))?;
        let strings = || given[..8].iter().enumerate().flat_map(|(t, entries)| entries.iter().map(move |e| (t, Text::from_words(e))));
        let right = |t: usize, s: Text| if Tables::identifies(t) { self.identifying(s) } else { self.stretch(s) };
        if let Some((_, s)) = strings().find(|(t, s)| !s.map_or(false, |s| right(*t, s))) {
            return Err(refused(16, GIVEN[s.map_or(StringForm::Utf8, Text::form) as usize]));
        }
        let (tables, repeats) = filled(&given, self.text);
        let most = [0, 1, 2].map(|t| tables.strings[t].rows.len());
        if !given[8..].iter().flatten().all(|triple| names_entries(triple, most)) {
            return Err(refused(16, "given triple"));
        }
        if let Some(s) = strings().filter_map(|(_, s)| s).find(|s| s.said(self.text).is_none()) {
            return Err(refused(9, GIVEN[s.form() as usize]));
        }
        if repeats {
            return Err(refused(11, "given tables"));
        }
        if tables.counts().iter().any(|c| *c as usize > ROWS) {
            return Err(refused(12, "given tables"));
        }
        self.tables = tables;
        self.put_head(&given);
        self.right = self.bits.len();
        self.fits(room).map_err(|number| refused(number, "head"))
    }

    fn put_head(&mut self, given: &Listed) {
        if given.iter().all(|entries| entries.is_empty()) {
            return;
        }
        self.bits.text(&[0xE0, 0, 0, 1, 0x20]);
        self.bits.code("000000");
        given.iter().for_each(|entries| self.bits.put(u64::from(!entries.is_empty()), 1));
        for (t, entries) in given.iter().enumerate().filter(|(_, entries)| !entries.is_empty()) {
            self.bits.number(entries.len() as u64, C21);
            entries.iter().for_each(|e| self.put_entry(t, e));
        }
    }

    fn put_entry(&mut self, table: usize, entry: &[u32; 3]) {
        if table > OTHER {
            return self.put_surrogate(entry);
        }
        let said = Text::from_words(entry).and_then(|s| s.said(self.text)).expect("judged to be a string");
        if Tables::identifies(table) {
            self.bits.code("0");
            self.bits.number(said.len() as u64, C22);
            self.bits.text(&said);
        } else {
            self.bits.code("00");
            self.formed(&said, C23);
        }
    }

    fn put_surrogate(&mut self, triple: &[u32; 3]) {
        self.bits.code("000000");
        self.bits.put(u64::from(triple[0] > 0), 1);
        self.bits.put(u64::from(triple[1] > 0), 1);
        for number in triple.iter().filter(|n| **n > 0) {
            self.bits.code("0");
            self.bits.number(u64::from(*number), C25);
        }
    }
}

/// Whether a triple has a local name, no prefix without a namespace, and no number beyond these entries.
fn names_entries(triple: &[u32; 3], most: [usize; 3]) -> bool {
    let within = triple.iter().zip(most).all(|(number, most)| *number as usize <= most);
    within && triple[2] > 0 && (triple[0] == 0 || triple[1] > 0)
}
