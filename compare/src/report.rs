//! A difference in print: the shortest input that shows it, and the room lent.
use crate::archive::Lent;
use crate::differ::{self, Compared};
use crate::lists::given::Given;
use crate::lists::List;
use crate::shrink;
use crate::tails::starts;
use crate::words::{Record, PLACE, TAGS};

pub fn hex(octets: &[u8]) -> String {
    octets.iter().map(|o| format!("{o:02x}")).collect()
}

pub fn read(octets: &[u8], lent: &Lent, message: &str, compare: fn(&[u8], &Lent) -> Compared) {
    println!("DIFFERENCE {message}");
    let starts: Vec<Vec<u8>> = starts().into_iter().map(|(start, _)| start).collect();
    let short = shrink::octets(octets, &starts, &|o| compare(o, lent).0.is_err());
    println!("shortest: {}", hex(&short));
    println!("lent words: records {}, tables {}, counts {}", lent.records, lent.tables, lent.counts);
    println!("there: {}", compare(&short, lent).0.unwrap_err());
}

pub fn write(l: &List, seed: u32, message: &str) {
    println!("DIFFERENCE {message}");
    let differs = |l: &List| differ::list(l, seed).0.is_err();
    let given = fewer(l, &differs);
    let with = |records: &[Record], text: &[u8]| List { given: given.clone(), records: records.to_vec(), text: text.to_vec(), ..*l };
    let records = shrink::shorter(&l.records, &|r| differs(&with(r, &l.text)));
    let short = Some(packed(&with(&records, &l.text))).filter(differs).unwrap_or_else(|| with(&records, &l.text));
    let with = |records: &[Record], text: &[u8]| List { records: records.to_vec(), text: text.to_vec(), ..short.clone() };
    let text = shrink::octets(&short.text, &[], &|t| differs(&with(&short.records, t)));
    println!("shortest, given: {:?}", short.given.words());
    println!("shortest, text: {}", hex(&text));
    short.records.iter().for_each(|r| println!("shortest, record: {r:?}"));
    println!("lent: output {}, tables {}, counts {}", l.out, l.tables, l.counts);
    println!("there: {}", differ::list(&with(&short.records, &text), seed).0.unwrap_err());
}

/// Given tables with fewer entries.
fn fewer(l: &List, differs: &dyn Fn(&List) -> bool) -> Given {
    let entries: Vec<(usize, [u32; 3])> = l.given.tables.iter().enumerate().flat_map(|(t, entries)| entries.iter().map(move |e| (t, *e))).collect();
    let with = |entries: &[(usize, [u32; 3])]| {
        let mut given = Given { tables: Default::default(), ..l.given.clone() };
        entries.iter().for_each(|(t, e)| given.tables[*t].push(*e));
        List { given, ..l.clone() }
    };
    with(&shrink::shorter(&entries, &|e| differs(&with(e)))).given
}

/// The same list over a text of its own strings only; one that passes the end of the text stays as it is.
fn packed(l: &List) -> List {
    let mut less = List { text: Vec::new(), ..l.clone() };
    let listed = less.given.tables[..8].iter_mut().flatten().map(|e| &mut e[..]);
    let strings = less.records.iter_mut().flat_map(|r| r[1..PLACE].chunks_exact_mut(3));
    for string in listed.chain(strings).filter(|s| TAGS.contains(&s[0])) {
        let (place, length) = (string[1] as usize, string[2] as usize);
        if let Some(octets) = l.text.get(place..place + length) {
            string[1] = less.text.len() as u32;
            less.text.extend_from_slice(octets);
        }
    }
    less
}
