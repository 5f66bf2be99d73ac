//! Lists whose documents, or heads, are about as long as a document may be.
use super::List;
use crate::dice::Dice;
use crate::words::*;
use crate::writer::{least_room, measure};

/// Octets of the long string at first: with any more, its length has the same form.
const FIRST: usize = 300;

/// Where the long string stands: in a chunk before this event, or in a value that is listed twice; and whether it is the head alone that is to be so long.
enum Where {
    Chunk(usize),
    Listed(bool),
}

fn with(l: &List, at: &Where, octets: &[u8], form: StringForm) -> List {
    let (mut longer, place) = (l.clone(), l.text.len());
    let string = Text::Stretch(place, octets.len(), form);
    match at {
        Where::Chunk(i) => longer.records.insert(*i, Event { kind: Kind::Chunk, strings: [Text::Absent, Text::Absent, Text::Absent, string] }.record(0)),
        Where::Listed(_) => longer.given.tables[VALUE].extend([string.words(); 2]),
    }
    longer.text.extend_from_slice(octets);
    longer
}

fn octets(dice: &mut Dice, n: usize, form: StringForm) -> Vec<u8> {
    if form == StringForm::Utf8 {
        dice.text(n)
    } else {
        // An octet less where integers of two would not divide so many.
        let n = if form == StringForm::Short { n & !1 } else { n };
        (0..n).map(|_| dice.pick(&[0x12, 0x90, 0xDB])).collect()
    }
}

/// The octets that are to be so many; None for a list that is refused.
fn octets_of(l: &List, at: &Where) -> Option<usize> {
    let events: Vec<_> = l.records.iter().map(|r| Event::from_record(r)).collect();
    let (octets, _) = measure(&l.given.words(), &events, &l.text).ok()?;
    Some(if let Where::Listed(true) = at { least_room(&l.given.words(), &[], &l.text) } else { octets })
}

/// A long string makes the document or its head a few octets shorter or longer than the longest document. A list that is refused, or has no room in its text area, stays as it is.
pub fn lengthen(dice: &mut Dice, l: &mut List) {
    let ends: Vec<usize> = (0..l.records.len()).filter(|i| l.records[*i][0] == Kind::End as u32).collect();
    if ends.is_empty() {
        return;
    }
    let at = if dice.percent(75) { Where::Chunk(dice.pick(&ends)) } else { Where::Listed(dice.percent(50)) };
    let wanted = MOST + 3 - dice.below(7);
    // In these forms a string is written in as many octets as it is given.
    let form = dice.pick(&[StringForm::Utf8, StringForm::Numeric, StringForm::Short]);
    let short = with(l, &at, &octets(dice, FIRST, form), form);
    let times = if let Where::Listed(_) = at { 2 } else { 1 };
    let more = octets_of(&short, &at).and_then(|octets| wanted.checked_sub(octets)).map(|octets| FIRST + octets / times);
    if let Some(n) = more.filter(|n| l.text.len() + n <= MOST) {
        *l = with(l, &at, &octets(dice, n, form), form);
    }
}
