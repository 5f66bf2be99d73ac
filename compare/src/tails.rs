//! All tails of one and two octets behind some starts: after the header, in an element, in each kind of field of the body and of a head; and all pairs of octets between a start
//! and what may follow: a string's first octets and its octets in each form.
use crate::archive::Lent;
use crate::tally::Tally;
use crate::words::{RECORD, TABLES};
use crate::{differ, report};

const STARTS: [&[u8]; 12] = [
    &[],
    &[0x3C],
    &[0x3C, 0, 0x61],
    &[0x7C, 0, 0x61],
    &[0x7C, 0, 0x61, 0x78, 0, 0x62],
    &[0x7C, 0, 0x61, 0x78, 0, 0x62, 0x40, 0x63],
    &[0x38],
    &[0x38, 0xCC, 0xF0],
    &[0x3C, 0, 0x61, 0xF0],
    &[0x3C, 0, 0x61, 0x90, 0x62, 0x00],
    &[0xE1],
    &[0xE2, 0x40, 0x61, 0x3C, 0, 0x61, 0xF0, 0xE2],
];

/// Starts of a head: before and behind its presence bits, in a length, before an entry of each kind and a second one, in a name and behind one.
const HEADS: [&[u8]; 10] = [
    &[],
    &[0, 0x80],
    &[0, 0x80, 0x80],
    &[0, 0x80, 1],
    &[0, 0x80, 1, 0, 0x61],
    &[0, 0x08, 1],
    &[0, 0x82, 0, 0, 0x61, 1],
    &[0, 0x81, 0, 0, 0x61, 0, 3, 0],
    &[0, 0x82, 0, 0, 0x61, 1, 0, 0],
    &[0, 0x82, 0, 0, 0x61, 0, 0, 0],
];

type Between = (&'static [u8], &'static [u8]);

/// Around the octets of a string: a chunk in alphabets 1 and 2 and in utf-16, also behind a high surrogate; a value and a comment; every short, and the last two octets of an int
/// and of a long. Around its first two octets.
const FORMS: [Between; 15] = [
    (&[0x3C, 0, 0x61, 0x98, 1], &[0xFF]),
    (&[0x3C, 0, 0x61, 0x98, 5], &[0xFF]),
    (&[0x3C, 0, 0x61, 0x95], &[0xFF]),
    (&[0x3C, 0, 0x61, 0x96, 1, 0xD8, 0], &[0xFF]),
    (&[0x3C, 0, 0x61, 0x96, 1, 0xDB, 0xFF], &[0xFF]),
    (&[0x7C, 0, 0x61, 0x78, 0, 0x62, 0x60, 1], &[0xFF, 0xF0]),
    (&[0x7C, 0, 0x61, 0x78, 0, 0x62, 0x51], &[0xFF, 0xF0]),
    (&[0xE2, 0x60, 0x11], &[0x3C, 0, 0x61, 0xFF]),
    (&[0x3C, 0, 0x61, 0x9C, 9], &[0xFF]),
    (&[0x7C, 0, 0x61, 0x78, 0, 0x62, 0x70, 0x23, 0x80, 0], &[0xFF, 0xF0]),
    (&[0xE2, 0x70, 0x33, 0x7F, 0xFF], &[0x3C, 0, 0x61, 0xFF]),
    (&[0x3C, 0, 0x61, 0x9C, 0x0E, 1, 0xFF, 0xFF], &[0xFF]),
    (&[0x3C, 0, 0x61, 0x9C, 0x12, 5, 0x80, 0, 0, 0, 0, 0], &[0xFF]),
    (&[0x3C, 0, 0x61], &[0x12, 0x34, 0x5F, 0x12, 0x34, 0x56, 0x78, 0x90, 0x12, 0xFF]),
    (&[0x7C, 0, 0x61, 0x78, 0, 0x62], &[0x12, 0x34, 0x5F, 0x12, 0x34, 0x56, 0x78, 0x90, 0x12, 0xFF, 0xF0]),
];

/// The same of strings that a head lists, which the body has by their number.
const HEAD_FORMS: [Between; 4] = [
    (&[0, 8, 0, 0x20, 1], &[0x3C, 0, 0x61, 0xA0, 0xFF]),
    (&[0, 4, 0, 0x11], &[0x3C, 0, 0x61, 0xE2, 0x80, 0xFF]),
    (&[0, 8, 0, 0x30, 0x21], &[0x3C, 0, 0x61, 0xA0, 0xFF]),
    (&[0, 0x10, 0], &[0x12, 0x34, 0x56, 0x78, 0x90, 0x12, 0x34, 0x56, 0x78, 0x3C, 0, 0x61, 0xFF]),
];

/// The starts with their header, and what follows the tails; nothing in those that came first.
pub fn starts() -> Vec<(Vec<u8>, &'static [u8])> {
    let nothing: &[u8] = &[];
    let opened = |head: u8, start: &[u8]| [&[0xE0, 0, 0, 1, head], start].concat();
    let bodies = STARTS.iter().map(|s| (opened(0, s), nothing));
    let heads = HEADS.iter().map(|s| (opened(0x20, s), nothing));
    let forms = FORMS.iter().map(|(s, behind)| (opened(0, s), *behind));
    bodies.chain(heads).chain(forms).chain(HEAD_FORMS.iter().map(|(s, behind)| (opened(0x20, s), *behind))).collect()
}

/// All tails behind one start, with what follows them; false at a difference. What follows can make a document of it, and then its events are written too.
pub fn compare(start: &[u8], behind: &[u8], tally: &mut Tally) -> bool {
    let lent = Lent { records: 12 * RECORD, tables: TABLES, counts: 10, calls: 1, seed: 1 };
    let (what, differ): (_, fn(&[u8], &Lent) -> differ::Compared) =
        if behind.is_empty() { ("tails of one and two octets", differ::read) } else { ("one and two octets of a string", differ::document) };
    (0..256 + 65536usize).all(|tail| {
        let tail = if tail < 256 { vec![tail as u8] } else { ((tail - 256) as u16).to_be_bytes().to_vec() };
        let octets = [start, &tail, behind].concat();
        let (compared, refusal) = differ(&octets, &lent);
        tally.count(what, "read", refusal);
        compared.map_err(|e| report::read(&octets, &lent, &e, differ)).is_ok()
    })
}
