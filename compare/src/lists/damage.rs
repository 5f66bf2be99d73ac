//! Damage to event lists, in a record or in the text.
use super::List;
use crate::dice::Dice;
use crate::words::{PLACE, RECORD, TAGS};

/// One or two faults in the list.
pub fn damage(dice: &mut Dice, l: &mut List) {
    for _ in 0..1 + dice.below(2) {
        if l.records.is_empty() {
            return;
        }
        let (i, j) = (dice.below(l.records.len()), dice.below(l.records.len()));
        match dice.below(18) {
            0 => drop(l.records.remove(i)),
            1 => l.records.insert(j, l.records[i]),
            2 => l.records.swap(i, j),
            3 => l.records.truncate(i),
            4 => l.records[i][0] = dice.pick(&[0, 1, 2, 3, 4, 5, 6, 7, 8, 9, 0xFFFF_FFFF]),
            5 => l.records[i][1 + 3 * dice.below(4)] = dice.pick(&[0, 1, 2, 3, 4, 5, 5, 6, 7, 8, 9, 10, 11, 0x8000_0002]),
            6 => bend(dice, l, i),
            7 => l.records[i][1 + dice.below(PLACE - 1)] = dice.next() as u32 >> dice.below(32),
            8 => l.records.push(dice.pick(&[[0; RECORD], l.records[i]])),
            9 => cut_text(dice, l),
            10..=11 => dice.bar(&mut l.text),
            12..=14 => reform(dice, l, i),
            // No fault: the answer stays what it was.
            15 => l.records[i][PLACE] = dice.next() as u32 >> dice.below(32),
            _ => spoil_text(dice, l),
        }
    }
}

/// A string that ends at the end of the text, behind it, or wraps around.
fn bend(dice: &mut Dice, l: &mut List, i: usize) {
    let n = l.text.len() as u32;
    let strings: Vec<usize> = (0..4).filter(|s| TAGS.contains(&l.records[i][1 + 3 * s])).collect();
    if strings.is_empty() {
        return;
    }
    let at = 1 + 3 * dice.pick(&strings);
    let bent = dice.pick(&[
        (n, 1),
        (n.wrapping_sub(1), 1),
        (n.wrapping_sub(1), 2),
        (0, n),
        (0, n + 1),
        (0, 0),
        (1, 0xFFFF_FFFF),
        (0xFFFF_FFFF, 1),
        (0xFFFF_FFFF, 2),
        (0x8000_0000, 0x8000_0000),
        (0x8000_0000, 0x8000_0001),
    ]);
    l.records[i][at + 1] = bent.0;
    l.records[i][at + 2] = bent.1;
}

/// The value of a record, from i on, in another form: its octets say something else, or nothing.
fn reform(dice: &mut Dice, l: &mut List, i: usize) {
    if let Some(r) = l.records[i..].iter_mut().find(|r| TAGS.contains(&r[10])) {
        r[10] = dice.pick(&TAGS);
        let width = dice.pick(&[1, 1, 1, 2, 4, 8]);
        r[12] = r[12].max(width) / width * width;
    }
}

fn cut_text(dice: &mut Dice, l: &mut List) {
    let n = dice.below(l.text.len() + 1);
    l.text.truncate(n);
}

fn spoil_text(dice: &mut Dice, l: &mut List) {
    if !l.text.is_empty() {
        let i = dice.below(l.text.len());
        l.text[i] = dice.pick(&[0x80, 0xBF, 0xC0, 0xC3, 0xE0, 0xED, 0xF0, 0xF4, 0xF5, 0xFF]);
    }
}
