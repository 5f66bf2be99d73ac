//! Documents with a head, each cut before every octet, and with every octet of its head replaced by every other.
use crate::archive::Lent;
use crate::dice::Dice;
use crate::make::{document, Head, Style};
use crate::reader::read;
use crate::tally::Tally;
use crate::words::{MOST, RECORD, TABLES};
use crate::{differ, report};

/// How many documents there are.
pub const DOCUMENTS: usize = 24;

/// Document number `i`: few items behind a head that lists all tables, or some. It is short, so that all of this does not take long.
fn made(i: usize) -> Vec<u8> {
    let mut tries = (0..).map(|k| {
        let mut dice = Dice::new(i as u64, k);
        let usual = Style::any(&mut dice);
        let head = Head { listed: [100, 30][i % 2], large: None };
        document(&mut dice, Style { items: 3, deepest: 32, entries: 256, fresh: 60, short: i % 3 > 0, head, fill: None, wrong: 0, ..usual })
    });
    tries.find(|d| d[4] == 0x20 && d.len() <= 400).expect("one of them is short")
}

/// The octet behind the head.
fn behind_head(octets: &[u8]) -> usize {
    let fields = read(octets, MOST).map_or(Vec::new(), |done| done.fields);
    let heads = fields.iter().filter(|f| f.2 == "head" || f.2 == "number of a part" || f.2.starts_with("listed"));
    heads.map(|f| f.1).max().unwrap_or(5)
}

fn compare_one(octets: &[u8], tally: &mut Tally) -> bool {
    let lent = Lent { records: 30 * RECORD, tables: TABLES, counts: 10, calls: 1, seed: 1 };
    let (compared, refusal) = differ::read(octets, &lent);
    tally.count("heads, cut or with another octet", "read", refusal);
    compared.map_err(|e| report::read(octets, &lent, &e, differ::read)).is_ok()
}

/// Document number `i`; false at a difference.
pub fn compare(i: usize, tally: &mut Tally) -> bool {
    let whole = made(i);
    let cuts = (0..whole.len()).all(|n| compare_one(&whole[..n], tally));
    let places = 4..behind_head(&whole).min(whole.len());
    cuts && places.flat_map(|at| (0..=255).map(move |octet| (at, octet))).all(|(at, octet)| {
        let mut other = whole.clone();
        other[at] = octet;
        compare_one(&other, tally)
    })
}
