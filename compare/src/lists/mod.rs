//! Event lists for the writer: of documents, and made from a small pool of strings so that they come again; good and damaged, with and without given tables, some about as long as may be.
mod damage;
pub mod given;
mod long;
mod pool;

use crate::dice::Dice;
use crate::make;
use crate::reader::read;
use crate::words::*;
use crate::writer::{least_room, write};
use given::Given;
use pool::from_pool;

/// All that is lent to the writer, and how much.
#[derive(Clone)]
pub struct List {
    pub given: Given,
    pub records: Vec<Record>,
    pub text: Vec<u8>,
    pub out: usize,
    pub tables: usize,
    pub counts: usize,
    /// Words behind the last whole record, which are ignored.
    pub rest: usize,
}

impl List {
    /// Events over a text area, without given tables and with room enough.
    pub fn of(records: Vec<Record>, text: Vec<u8>) -> List {
        List { given: Given::default(), records, text, out: MOST, tables: TABLES, counts: 10, rest: 0 }
    }

    /// The same events, each at another place.
    pub fn elsewhere(&self) -> List {
        let mut l = self.clone();
        l.records.iter_mut().for_each(|r| r[PLACE] = !r[PLACE]);
        l
    }

    pub fn words(&self) -> Vec<u32> {
        let mut w: Vec<u32> = self.records.iter().flatten().copied().collect();
        w.resize(w.len() + self.rest, 7);
        w
    }
}

pub fn list(dice: &mut Dice) -> List {
    let mut l = if dice.percent(40) { of_document(dice) } else { from_pool(dice) };
    if dice.percent(40) {
        given::give(dice, &mut l);
    }
    if dice.percent(5) {
        long::lengthen(dice, &mut l);
    }
    place(dice, &mut l);
    let sound = if l.given.entries() > 0 { 25 } else { 45 };
    if dice.percent(sound) {
        damage::damage(dice, &mut l);
    }
    lend(dice, &mut l);
    l
}

/// Places of any size in the records, or all of one, or those that they were read with.
fn place(dice: &mut Dice, l: &mut List) {
    let (same, bits) = (dice.pick(&[0, 1, MOST as u32, 0xFFFF_FFFF]), dice.pick(&[1, 4, 14, 32]));
    match dice.below(4) {
        0 => l.records.iter_mut().for_each(|r| r[PLACE] = same),
        1 | 2 => l.records.iter_mut().for_each(|r| r[PLACE] = dice.next() as u32 >> (32 - bits)),
        _ => (),
    }
}

fn of_document(dice: &mut Dice) -> List {
    let style = make::Style::any(dice);
    let document = make::document(dice, style);
    match read(&document, MOST * 2) {
        Ok(done) => List::of(done.records(), document),
        Err(_) => from_pool(dice),
    }
}

/// Room for the output: enough, just enough, a little or much too little; now and then table room of another length.
fn lend(dice: &mut Dice, l: &mut List) {
    let events: Vec<_> = l.records.iter().map(|r| Event::from_record(r)).collect();
    let given = l.given.words();
    // What header and head take, or nothing without a head.
    let head = least_room(&given, &[], &l.text);
    let refused = match dice.below(100) {
        0..=9 => dice.below(60),
        10..=39 => least_room(&given, &events, &l.text),
        _ => MOST - 50,
    };
    let needed = write(&given, &events, &l.text, MOST).map_or(refused, |w| w.octets.len());
    l.out = match dice.below(if needed == refused && refused == MOST - 50 { 90 } else { 10 }) {
        0 | 5 | 6 => needed,
        1 => needed.saturating_sub(1),
        2 => dice.below(needed + 1),
        3 => needed + 3,
        4 if dice.percent(20) => MOST + dice.below(3),
        _ => needed + 50,
    };
    if l.given.entries() > 0 && dice.percent(12) {
        l.out = match dice.below(4) {
            0 => head,
            1 => head.saturating_sub(1),
            2 => head + dice.below(3),
            _ => dice.below(head + 1),
        };
    }
    if dice.percent(1) {
        l.tables = dice.pick(&[0, 1, TABLES - 1, TABLES + 1]);
    }
    if dice.percent(1) {
        l.counts = dice.pick(&[0, 9, 11]);
    }
    if dice.percent(5) {
        l.rest = 1 + dice.below(RECORD - 1);
    }
    if dice.below(1000) < 4 {
        // SIZE comes before the table room, so the two are to meet.
        l.text.resize(MOST + dice.below(3), b'a');
        l.tables -= usize::from(l.tables > 0 && dice.percent(30));
    }
}
