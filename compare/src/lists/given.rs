//! Tables given to the writer: of strings and names that the list has and of others, good and with one or two faults.
use super::List;
use crate::dice::Dice;
use crate::words::*;
use std::collections::HashSet;

/// Given tables as words, which may be wrong.
#[derive(Clone, Default)]
pub struct Given {
    pub tables: [Vec<[u32; 3]>; 10],
    /// Ten counts though nothing is listed.
    pub counted: bool,
    /// A word that is changed: which one, and its value.
    pub bent: Option<(usize, u32)>,
    /// Words that are left out at the end, and added there.
    pub cut: usize,
    pub more: usize,
}

impl Given {
    pub fn words(&self) -> Vec<u32> {
        let mut w = Vec::new();
        if self.counted || self.entries() > 0 {
            w.extend(self.tables.iter().map(|t| t.len() as u32));
            w.extend(self.tables.iter().flatten().flatten());
        }
        if let Some((i, word)) = self.bent.filter(|(i, _)| *i < w.len()) {
            w[i] = word;
        }
        w.truncate(w.len().saturating_sub(self.cut));
        w.resize(w.len() + self.more, 2);
        w
    }

    pub fn entries(&self) -> usize {
        self.tables.iter().map(Vec::len).sum()
    }
}

/// Gives the list tables; now and then with faults.
pub fn give(dice: &mut Dice, l: &mut List) {
    l.given.counted = dice.percent(20);
    let listed = dice.pick(&[0, 20, 50, 100]);
    let large = if dice.percent(8) { dice.below(10) } else { 10 };
    for table in 0..10 {
        if table == large || dice.percent(listed) {
            let count = if table == large { dice.pick(&[127, 128, 129, 130, 254, 255, 256]) } else { dice.pick(&[1, 1, 2, 2, 3, 4, 5, 9]) };
            fill(dice, l, table, count);
        }
    }
    if dice.percent(40) {
        fault(dice, l);
        if dice.percent(50) {
            fault(dice, l);
        }
    }
}

/// So many entries more, or fewer where there is no room for them.
fn fill(dice: &mut Dice, l: &mut List, table: usize, count: usize) {
    let most = if table <= NAMESPACE { ROWS - 1 } else { ROWS };
    let count = count.min(most - l.given.tables[table].len());
    if table < 8 {
        fill_strings(dice, l, table, count);
    } else {
        fill_names(dice, l, table, count);
    }
}

fn fill_strings(dice: &mut Dice, l: &mut List, table: usize, count: usize) {
    if count > MANY {
        return fill_with_words(l, table, count);
    }
    // What identifies is in utf-8; a value may be in any form.
    let tags = if Tables::identifies(table) { &TAGS[..1] } else { &TAGS };
    let used: Vec<[u32; 3]> = l.records.iter().flat_map(|r| r[1..PLACE].chunks_exact(3)).filter(|s| tags.contains(&s[0])).map(|s| [s[0], s[1], s[2]]).collect();
    let mut held: HashSet<Vec<u8>> = HashSet::from([XML.to_vec(), XML_NAMESPACE.to_vec()]);
    for _ in 0..count {
        let old = if used.is_empty() || dice.percent(30) { None } else { Some(dice.pick(&used)) };
        let length = dice.length();
        let new = old.or_else(|| {
            let (text, form) = dice.formed(length);
            append_in(l, &text, if Tables::identifies(table) { StringForm::Utf8 } else { form })
        });
        let octets = new.and_then(|s| Text::from_words(&s)?.said(&l.text).map(|o| o.to_vec()));
        if let (Some(new), Some(octets)) = (new, octets) {
            // Values, chunks and other strings may be listed again.
            if held.insert(octets) || (table > URI && dice.percent(50)) {
                l.given.tables[table].push(new);
            }
        }
    }
}

/// More entries than these are words that are all new.
const MANY: usize = 60;

fn fill_with_words(l: &mut List, table: usize, count: usize) {
    for i in 0..count {
        let word = [b'A' + (i / 26) as u8, b'a' + (i % 26) as u8, b'0' + table as u8];
        let new = append(l, &word);
        l.given.tables[table].extend(new);
    }
}

/// A new string in the text area; None where that is full.
fn append(l: &mut List, octets: &[u8]) -> Option<[u32; 3]> {
    append_as(l, octets, StringForm::Utf8)
}

fn append_as(l: &mut List, octets: &[u8], form: StringForm) -> Option<[u32; 3]> {
    let place = l.text.len();
    if place + octets.len() > MOST {
        return None;
    }
    l.text.extend_from_slice(octets);
    Some(Text::Stretch(place, octets.len(), form).words())
}

fn append_in(l: &mut List, text: &[u8], form: StringForm) -> Option<[u32; 3]> {
    append_as(l, &form.spelled(std::str::from_utf8(text).ok()?)?, form)
}

/// How many entries a table of strings has then, with the built-in one.
fn entries(l: &List, table: usize) -> usize {
    l.given.tables[table].len() + usize::from(table <= NAMESPACE)
}

fn fill_names(dice: &mut Dice, l: &mut List, table: usize, count: usize) {
    if l.given.tables[LOCAL].is_empty() {
        let some = 1 + dice.below(4);
        fill_strings(dice, l, LOCAL, some.max(count / 4));
    }
    let most = [PREFIX, NAMESPACE, LOCAL].map(|t| entries(l, t));
    let mut held = HashSet::new();
    for _ in 0..2 * count {
        let namespace = dice.below(most[NAMESPACE] + 1);
        let prefix = if namespace > 0 { dice.below(most[PREFIX] + 1) } else { 0 };
        let local = if dice.percent(30) { most[LOCAL] } else { 1 + dice.below(most[LOCAL].max(1)) };
        let triple = [prefix, namespace, local].map(|n| n as u32);
        if most[LOCAL] > 0 && l.given.tables[table].len() < count && held.insert(triple) {
            l.given.tables[table].push(triple);
        }
    }
}

/// One fault of those that are judged, or words of a wrong length.
fn fault(dice: &mut Dice, l: &mut List) {
    match dice.below(14) {
        0 => bad_string(dice, l, &[[0, 0, 0], [1, 0, 0], [3, 0, 0], [4, 0, 0], [5, 0, 2], [6, 0, 1], [7, 0, 1], [8, 0, 2], [9, 0, 4], [10, 0, 8], [11, 0, 1], [0x8000_0002, 0, 1], [0x8000_0005, 0, 2], [3, 1, 0], [0, 0, 1], [0xFFFF_FFFF, 0, 0]]),
        1 => bad_stretch(dice, l),
        2 => bad_triple(dice, l),
        3 => number_beyond(dice, l),
        4 => l.given.cut = 1 + dice.below(12),
        5 => l.given.more = 1 + dice.below(4),
        6 => l.given.bent = Some((dice.below(10), dice.pick(&[0, 1, 2, 3, 256, 257, 0x5555_5556, 0x8000_0000, 0xFFFF_FFFF]))),
        7 | 8 => bad_text(dice, l),
        9 => repeat(dice, l),
        10 => repeat_name(dice, l),
        11 => built_in(dice, l),
        12 => overfill(dice, l),
        _ => l.given.bent = Some((10 + dice.below(3 * l.given.entries() + 1), dice.next() as u32 >> dice.below(32))),
    }
}

fn put(dice: &mut Dice, l: &mut List, table: usize, entry: [u32; 3]) {
    let n = l.given.tables[table].len();
    if n > 0 && dice.percent(50) {
        let i = dice.below(n);
        l.given.tables[table][i] = entry;
    } else {
        l.given.tables[table].push(entry);
    }
}

fn bad_string(dice: &mut Dice, l: &mut List, from: &[[u32; 3]]) {
    let (table, entry) = (dice.below(8), dice.pick(from));
    put(dice, l, table, entry);
}

fn bad_stretch(dice: &mut Dice, l: &mut List) {
    let n = l.text.len() as u32;
    let tag = dice.pick(&[2, 2, 5, 6, 7, 8, 9, 10]);
    bad_string(dice, l, &[[tag, 0, 0], [tag, n, 1], [tag, n, 0], [tag, 0, n + 1], [tag, 1, 0xFFFF_FFFF], [tag, 0xFFFF_FFFF, 2], [tag, 0x8000_0000, 0x8000_0001]]);
}

fn bad_triple(dice: &mut Dice, l: &mut List) {
    let (table, triple) = (8 + dice.below(2), dice.pick(&[[0, 0, 0], [1, 1, 0], [1, 0, 1], [0, 1, 0], [2, 0, 1]]));
    put(dice, l, table, triple);
}

fn number_beyond(dice: &mut Dice, l: &mut List) {
    let (table, part) = (8 + dice.below(2), dice.below(3));
    let mut triple = [1, 1, 1];
    triple[part] = dice.pick(&[entries(l, part) as u32 + 1, entries(l, part) as u32 + 1, 257, 1 << 20, 0xFFFF_FFFF]);
    put(dice, l, table, triple);
}

/// A listed string, the last of the text area, that is no text.
fn bad_text(dice: &mut Dice, l: &mut List) {
    let (table, form) = match dice.below(16) {
        t @ 0..=7 => (t, StringForm::Utf8),
        t => (VALUE + t % 3, dice.pick(&STRING_FORMS[1..])),
    };
    let bad: &[u8] = match form {
        StringForm::Utf8 => dice.pick(&[&[0x80], &[0xC3], &[0x61, 0xFF], &[0xED, 0xA0, 0x80], &[0xF4, 0x90, 0x80, 0x80], &[0xC0, 0x80]]),
        StringForm::Utf16 => dice.pick(&[&[0], &[0, 0x61, 0], &[0xD8, 0], &[0xDC, 0], &[0xDB, 0xFF, 0, 0x61], &[0xDC, 0, 0xD8, 0], &[0xFF, 0xFE], &[0, 0], &[0, 0x1F, 0, 0x61]]),
        StringForm::Numeric | StringForm::Dates => dice.pick(&[&[0xFF], &[0xF1], &[0x1F, 0x11], &[0x11, 0xFF], &[0x11, 0xF1], &[0x1F, 0x1F]]),
        StringForm::Short => dice.pick(&[&[0], &[0xFF], &[0, 1, 0], &[0x80, 0, 0, 7, 0]]),
        StringForm::Int => dice.pick(&[&[0], &[0xFF, 0xFE], &[0, 0, 1], &[0, 0, 0, 1, 0], &[0, 0, 0, 1, 0, 2], &[0, 0, 0, 1, 0, 0, 2]]),
        StringForm::Long => dice.pick(&[&[0], &[0, 0, 0, 1], &[0, 0, 0, 0, 0, 0, 1], &[0, 0, 0, 0, 0, 0, 0, 1, 2], &[0x80, 0, 0, 0, 0, 0, 0, 1, 0, 0, 0, 2]]),
    };
    if let Some(entry) = append_as(l, bad, form) {
        put(dice, l, table, entry);
    }
}

/// A string that the table lists, again: the same stretch, or the same octets at another place.
fn repeat(dice: &mut Dice, l: &mut List) {
    let table = dice.below(8);
    let old = match l.given.tables[table].first() {
        Some(_) => dice.pick(&l.given.tables[table]),
        None => return,
    };
    let said = Text::from_words(&old).and_then(|s| s.said(&l.text)).unwrap_or_default().to_vec();
    let elsewhere = if dice.percent(50) { append(l, &said) } else { None };
    l.given.tables[table].push(elsewhere.unwrap_or(old));
}

fn repeat_name(dice: &mut Dice, l: &mut List) {
    let table = 8 + dice.below(2);
    if !l.given.tables[table].is_empty() {
        let old = dice.pick(&l.given.tables[table]);
        l.given.tables[table].push(old);
    }
}

/// A built-in string, spelled, where it is one and where it is none.
fn built_in(dice: &mut Dice, l: &mut List) {
    let octets = dice.pick(&[XML, XML_NAMESPACE]);
    let table = if dice.percent(70) { usize::from(octets == XML_NAMESPACE) } else { dice.below(8) };
    if let Some(entry) = append(l, octets) {
        put(dice, l, table, entry);
    }
}

/// One entry, or a few, more than a table holds.
fn overfill(dice: &mut Dice, l: &mut List) {
    let (table, more) = (dice.below(10), 1 + dice.below(3));
    if table < 8 {
        l.given.tables[table].clear();
        return fill_with_words(l, table, ROWS + more - usize::from(table <= NAMESPACE));
    }
    if l.given.tables[LOCAL].len() < ROWS / 2 {
        l.given.tables[LOCAL].clear();
        fill_with_words(l, LOCAL, ROWS / 2);
    }
    let locals = l.given.tables[LOCAL].len() as u32;
    l.given.tables[table] = (1..=locals).flat_map(|n| [[0, 0, n], [0, 1, n], [1, 1, n]]).take(ROWS + more).collect();
}
