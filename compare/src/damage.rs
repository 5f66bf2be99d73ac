//! Damage to valid documents: blind (flips, cuts, insertions, splices) and aimed, one fault for a field.
use crate::dice::Dice;
use crate::faults::faults;
use crate::reader::read;
use crate::words::MOST;

/// Octets that mean something somewhere, so that blind damage is not always the same refusal.
const TELLING: &[u8] = &[
    0, 1, 9, 0x10, 0x11, 0x1F, 0x20, 0x21, 0x28, 0x30, 0x38, 0x3C, 0x3D, 0x3E, 0x3F, 0x40, 0x60, 0x78, 0x7C, 0x7F, 0x80, 0x81, 0x85, 0x88, 0x8C, 0x90, 0x98, 0x9C, 0xA0, 0xB0, 0xB8, 0xC0, 0xC4, 0xC8, 0xCC, 0xCF, 0xE0,
    0xE1, 0xE2, 0xF0, 0xFF,
];

/// A valid document with one or two faults.
pub fn damaged(dice: &mut Dice, document: &[u8], other: &[u8]) -> Vec<u8> {
    let mut d = document.to_vec();
    if dice.percent(45) {
        aim(dice, &mut d);
    } else {
        blind(dice, &mut d, other);
    }
    if dice.percent(15) {
        blind(dice, &mut d, other);
    }
    d.truncate(MOST + 1);
    d
}

/// Replaces one field by a faulty one; a document that is not accepted has no list of fields and is damaged blindly.
fn aim(dice: &mut Dice, d: &mut Vec<u8>) {
    let fields = match read(d, MOST * 2) {
        Ok(done) => done.fields,
        Err(_) => return blind(dice, d, &[]),
    };
    let (place, behind, kind) = dice.pick(&fields);
    match dice.below(10) {
        0 => d.truncate(place + dice.below(behind - place)),
        1 => again(dice, d, &fields, (place, behind), kind),
        2 => insert(dice, d, place),
        3 => deeper(d, place),
        _ => {
            let new = dice.pick(&faults(kind));
            d.splice(place..behind, new.iter().copied());
            if dice.percent(15) {
                d.truncate(place + new.len());
            }
        }
    }
}

/// A spelled field of the same kind in place of this one: a string that is held, if it stands behind that one.
fn again(dice: &mut Dice, d: &mut Vec<u8>, fields: &[(usize, usize, &'static str)], here: (usize, usize), kind: &str) {
    let alike: Vec<_> = fields.iter().filter(|f| f.2 == kind && d[f.0] < 0x80).copied().collect();
    if !alike.is_empty() {
        let (from, to, _) = dice.pick(&alike);
        let copy = d[from..to].to_vec();
        d.splice(here.0..here.1, copy);
    }
}

/// Elements with name number 1, one in the other.
fn deeper(d: &mut Vec<u8>, place: usize) {
    d.splice(place..place, std::iter::repeat(0).take(33));
}

fn insert(dice: &mut Dice, d: &mut Vec<u8>, place: usize) {
    for _ in 0..1 + dice.below(3) {
        let octet = if dice.percent(60) { dice.pick(TELLING) } else { dice.octet() };
        d.insert(place, octet);
    }
}

fn blind(dice: &mut Dice, d: &mut Vec<u8>, other: &[u8]) {
    if d.is_empty() {
        return;
    }
    // The header is one octet in three of a small document; most damage is to be behind it.
    let first = if d.len() > 6 && dice.percent(90) { 5 } else { 0 };
    let place = first + dice.below(d.len() - first);
    match dice.below(8) {
        0 | 1 => d[place] ^= 1 << dice.below(8),
        2 => d.truncate(place),
        3 => insert(dice, d, place),
        4 => {
            let behind = (place + 1 + dice.below(4)).min(d.len());
            d.drain(place..behind);
        }
        5 => d[place] = if dice.percent(60) { dice.pick(TELLING) } else { dice.octet() },
        6 => splice(dice, d, place, other),
        _ => {
            let behind = (place + 1 + dice.below(12)).min(d.len());
            let copy = d[place..behind].to_vec();
            let to = first + dice.below(d.len() - first);
            d.splice(to..to, copy);
        }
    }
}

fn splice(dice: &mut Dice, d: &mut Vec<u8>, place: usize, other: &[u8]) {
    d.truncate(place);
    if other.len() > 5 {
        d.extend_from_slice(&other[5 + dice.below(other.len() - 5)..]);
    }
}

/// Octets of no document, most of them behind a right header.
pub fn random_octets(dice: &mut Dice) -> Vec<u8> {
    let mut d = if dice.percent(90) { vec![0xE0, 0, 0, 1, 0] } else { Vec::new() };
    if !d.is_empty() && dice.percent(30) {
        d[4] = 0x20;
        d.extend_from_slice(dice.pick::<&[u8]>(&[&[], &[0], &[0, 0x80], &[0, 0x82, 0, 0, 0x61], &[2, 0], &[0, 0x10, 1], &[3, 0xFF, 0]]));
    } else if dice.percent(60) {
        d.extend_from_slice(&[0x3C, 0, 0x61]);
    }
    for _ in 0..dice.below(24) {
        d.push(if dice.percent(50) { dice.pick(TELLING) } else { dice.octet() });
    }
    d
}
