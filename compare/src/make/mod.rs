//! Valid documents with random choices: every string and name numbered or spelled, added or not, wherever the rules leave it open.
mod fill;
mod head;
mod items;
mod strings;

use crate::dice::Dice;
use crate::forms::{BitRow, Form, C22, C23, C24};
use crate::words::{ATTRIBUTES, CHUNK, DEEPEST, ELEMENTS, LOCAL, MOST, NAMESPACE, OTHER, PREFIX, ROWS, TARGET, VALUE, XML, XML_NAMESPACE};

/// What kind of document is made.
#[derive(Clone, Copy)]
pub struct Style {
    /// Items left to be made; an element, a chunk, an attribute and so on is one.
    pub items: usize,
    pub deepest: usize,
    /// Entries that a table may get: 256, or more for a document that is to be refused.
    pub entries: usize,
    /// How often a string is new, in percent.
    pub fresh: usize,
    /// How often a child is an element, in percent.
    pub down: usize,
    /// How often the root goes on with another child, in percent.
    pub on: usize,
    /// Short strings only, so that full tables fit into a document.
    pub short: bool,
    pub head: Head,
    /// A table (0 to 9, in the required order) that is filled to about its limit first.
    pub fill: Option<usize>,
    /// How often a string, number or name breaks the rule of its table, in a thousand.
    pub wrong: usize,
}

/// What the head of a document lists.
#[derive(Clone, Copy)]
pub struct Head {
    /// How often a table is listed, in percent.
    pub listed: usize,
    /// A table (0 to 9) that lists many entries.
    pub large: Option<usize>,
}

const NO_HEAD: Head = Head { listed: 0, large: None };

impl Style {
    pub fn any(dice: &mut Dice) -> Style {
        let head = Head { listed: dice.pick(&[0, 0, 0, 15, 40, 100]), ..NO_HEAD };
        let usual = Style { items: 2 + dice.below(14), deepest: 32, entries: ROWS, fresh: 50, down: 40, on: 93, short: false, head, fill: None, wrong: 0 };
        let large = Style { short: true, head: Head { listed: dice.pick(&[0, 20]), large: Some(dice.pick(&[0, 1, 2, 3, 4, 5, 5, 5, 6, 6, 6, 7, 7, 7, 8, 9])) }, ..usual };
        let many = Style { items: 1100, head: NO_HEAD, fresh: 95, down: dice.pick(&[5, 60, 90]), on: 100, short: true, ..usual };
        match dice.below(200) {
            0 => many,
            65..=68 => Style { items: 30, on: 100, short: true, head: NO_HEAD, fill: Some(dice.pick(&FILLED)), ..usual },
            69..=72 => Style { items: 30, on: 100, short: true, head: NO_HEAD, fill: Some(dice.pick(&FILLED)), entries: 300, ..usual },
            73..=76 => large,
            77..=79 => Style { entries: 300, ..large },
            80..=81 => Style { wrong: 10, ..large },
            1 => Style { entries: 400, ..many },
            2..=6 => Style { items: 40, down: 97, on: 100, ..usual },
            7..=10 => Style { items: 45, down: 97, on: 100, deepest: 34, ..usual },
            11..=14 => Style { items: 120, on: 100, ..usual },
            15..=64 => Style { items: 8 + dice.below(20), wrong: 60, ..usual },
            _ => usual,
        }
    }

    /// Whether a document of this style, if it is not too long, is one that must be accepted.
    pub fn lawful(&self) -> bool {
        self.entries <= ROWS && self.deepest <= DEEPEST && self.wrong == 0
    }
}

/// All tables but OTHER URI, which no document of the link touches.
const FILLED: [usize; 9] = [PREFIX, NAMESPACE, LOCAL, TARGET, VALUE, CHUNK, OTHER, 8 + ELEMENTS, 8 + ATTRIBUTES];

struct Maker<'d> {
    dice: &'d mut Dice,
    style: Style,
    bits: BitRow,
    strings: [Vec<Vec<u8>>; 8],
    names: [Vec<[usize; 3]>; 2],
}

pub fn document(dice: &mut Dice, style: Style) -> Vec<u8> {
    let mut m = Maker { dice, style, bits: BitRow::default(), strings: Default::default(), names: Default::default() };
    m.strings[PREFIX].push(XML.to_vec());
    m.strings[NAMESPACE].push(XML_NAMESPACE.to_vec());
    m.opening(style.head);
    m.beside_root();
    m.element(1);
    m.beside_root();
    m.bits.code("1111");
    m.bits.octets
}

/// Documents about as long as a document may be.
pub fn long_document(dice: &mut Dice) -> Vec<u8> {
    let wanted = MOST + 2 - dice.below(5);
    let mut bits = BitRow::default();
    bits.text(&[0xE0, 0, 0, 1, 0]);
    let (before, code, forms, behind): (&[u8], &str, &[Form], &[u8]) = match dice.below(3) {
        0 => (&[0x3C, 0, b'a'], "1000", C24, &[0xFF]),
        1 => (&[0xE2], "00", C23, &[0x3C, 0, b'a', 0xFF]),
        _ => (&[0x3C], "0", C22, &[0xFF]),
    };
    bits.text(before);
    bits.code(code);
    let form = if code == "0" { "" } else { dice.pick(&["00", "00", "01", "1000000000", "1000000001", "1100000010", "1100000011", "1100000100"]) };
    bits.code(form);
    // The field's octets before the text: those of the length, and one more for the number of an alphabet or algorithm.
    let lead = if form.len() > 2 { 6 } else { 5 };
    let length = wanted - 5 - before.len() - lead - behind.len();
    bits.number(length as u64, forms);
    bits.text(&match form.len() {
        10 => (0..length).map(|_| dice.pick(&[0x12, 0xEE, 0x40])).collect(),
        2 if form == "01" => dice.pick(&[&b"\0a"[..], &[0xD7, 0xFF]]).iter().cycle().take(length).copied().collect(),
        _ => dice.text(length),
    });
    bits.text(behind);
    bits.octets
}
