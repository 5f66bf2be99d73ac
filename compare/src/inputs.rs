//! Seeded inputs: documents of several kinds with the room lent for them, and event lists. Input I is made from the seed and I alone.
use crate::archive::Lent;
use crate::dice::Dice;
use crate::tally::Tally;
use crate::words::{MOST, RECORD, TABLES};
use crate::{damage, differ, lists, make, reader, report};

/// Event room: enough with some to spare, just what is needed, or less; now and then table room of another length.
fn lend(dice: &mut Dice, octets: &[u8]) -> Lent {
    // A refused document has no count; no more events than this are read before a refusal.
    let most = octets.len().min(MOST) * 4 / 3 + 1;
    let events = reader::read(octets, MOST * 2).map_or(most, |done| done.events.len());
    let records = match dice.below(12) {
        0 => events,
        1 => dice.below(events + 1),
        2 => events.saturating_sub(1),
        _ => events + 1 + dice.below(6),
    };
    let rest = if dice.percent(10) { dice.below(RECORD) } else { 0 };
    // SIZE comes before the table room, so the two are to meet.
    let odd = if octets.is_empty() || octets.len() > MOST { 30 } else { 1 };
    let tables = if dice.percent(odd) { dice.pick(&[0, 1, 3, TABLES - 1, TABLES + 1]) } else { TABLES };
    let counts = if dice.percent(odd) { dice.pick(&[0, 9, 11]) } else { 10 };
    Lent { records: records * RECORD + rest, tables, counts, calls: 2, seed: dice.next() as u32 }
}

/// Documents that must be accepted where the room is enough.
const LAWFUL: &str = "made by the rules";

fn made(dice: &mut Dice) -> Vec<u8> {
    let style = make::Style::any(dice);
    make::document(dice, style)
}

/// A document of one of the kinds.
fn document(dice: &mut Dice) -> (&'static str, Vec<u8>) {
    match dice.below(1000) {
        0..=3 => ("about the greatest size", make::long_document(dice)),
        4..=5 => ("empty", Vec::new()),
        6 => {
            let long = make::long_document(dice);
            ("far too long", long.iter().cycle().take(MOST + 1 + dice.below(4 * MOST)).copied().collect())
        }
        7..=349 => {
            let style = make::Style::any(dice);
            let octets = make::document(dice, style);
            (if style.lawful() && octets.len() <= MOST { LAWFUL } else { "made, one rule not kept" }, octets)
        }
        350..=929 => {
            let (one, other) = (made(dice), made(dice));
            ("damaged", damage::damaged(dice, &one, &other))
        }
        _ => ("random octets", damage::random_octets(dice)),
    }
}

/// Input number `i`; false at a difference.
pub fn compare(i: u64, seed: u64, tally: &mut Tally) -> bool {
    let mut dice = Dice::new(seed, i);
    let same = if dice.percent(30) { compare_list(&mut dice, tally) } else { compare_document(&mut dice, tally) };
    if !same {
        println!("at input {i} of seed {seed}");
    }
    same
}

fn compare_list(dice: &mut Dice, tally: &mut Tally) -> bool {
    let l = lists::list(dice);
    let dirt = dice.next() as u32;
    let (compared, refusals) = differ::list(&l, dirt);
    tally.count("event lists", "write", refusals.write);
    tally.answer("measure", refusals.measure);
    if refusals.measure.is_none() {
        tally.answer("write, the octets measured", None);
        tally.answer("write, an octet less", refusals.less);
    }
    compared.map_err(|e| report::write(&l, dirt, &e)).is_ok()
}

fn compare_document(dice: &mut Dice, tally: &mut Tally) -> bool {
    let (kind, octets) = document(dice);
    let lent = lend(dice, &octets);
    let (compared, refusal) = differ::read(&octets, &lent);
    tally.count(kind, "read", refusal);
    if kind == LAWFUL && refusal.map_or(false, |r| r.number != 14) {
        println!("DIFFERENCE the other program refuses a document made by the rules: {}", report::hex(&octets));
        return false;
    }
    compared.map_err(|e| report::read(&octets, &lent, &e, differ::read)).is_ok()
}
