//! The reader and the writer held against the vectors, without the archive.
use crate::words::*;
use crate::{reader, writer};

fn unhex(s: &str) -> Vec<u8> {
    (0..s.len() / 2).map(|i| u8::from_str_radix(&s[2 * i..2 * i + 2], 16).unwrap()).collect()
}

fn rows(file: &'static str) -> Vec<Vec<&'static str>> {
    file.lines().filter(|l| !l.starts_with('#')).map(|l| l.split('\t').collect()).collect()
}

const READ: &str = include_str!("../../vectors/read.tsv");
const WRITE: &str = include_str!("../../vectors/write.tsv");
const ADVERSARIAL: &str = include_str!("../../vectors/adversarial.tsv");
const BOUNDARY: &str = include_str!("../../vectors/boundary.tsv");
const CHARACTERS: &str = include_str!("../../vectors/characters_read.tsv");
const READ_1: &str = include_str!("../../vectors/items/read_1.tsv");
const READ_2: &str = include_str!("../../vectors/items/read_2.tsv");
const READ_4: &str = include_str!("../../vectors/items/read_4.tsv");
const READ_6: &str = include_str!("../../vectors/items/read_6.tsv");
const PLACES: &str = include_str!("../../vectors/items/places.tsv");
const FORMS: &str = include_str!("../../vectors/forms_read.tsv");
const WRITE_1: &str = include_str!("../../vectors/items/write_1.tsv");
const WRITE_2: &str = include_str!("../../vectors/items/write_2.tsv");
const WRITE_4: &str = include_str!("../../vectors/items/write_4.tsv");
const WRITE_6: &str = include_str!("../../vectors/items/write_6.tsv");
const FORMS_WRITE: &str = include_str!("../../vectors/forms_write.tsv");
const CHARACTERS_WRITE: &str = include_str!("../../vectors/characters_write.tsv");
const EVENTS: &str = include_str!("../../vectors/events.tsv");

/// What stands behind a stretch, by its form.
const MARKS: [&str; 7] = ["", "/u", "/1", "/2", "/3", "/4", "/5"];

/// The three words of a string.
fn words_of(s: &str) -> [u32; 3] {
    let mark = match s {
        "-" => Text::Absent,
        "0" => Text::Empty,
        "X" => Text::XmlPrefix,
        "U" => Text::XmlNamespace,
        _ => {
            let (stretch, form) = s.split_at(s.find('/').unwrap_or(s.len()));
            let (place, length) = stretch.split_once('+').unwrap();
            let tag = TAGS[MARKS.iter().position(|m| *m == form).unwrap()];
            return [tag, place.parse().unwrap(), length.parse().unwrap()];
        }
    };
    mark.words()
}

/// The words of a list's records, with 0 for their places.
fn records_of(list: &str) -> Vec<u32> {
    let record = |e: &str| {
        let (kind, strings) = e.split_once(',').unwrap();
        let kind = [".", "N", "S", "A", "T", "C", "P", "E"].iter().position(|k| *k == kind).unwrap();
        [kind as u32].into_iter().chain(strings.split(',').flat_map(words_of)).chain([0]).collect::<Vec<_>>()
    };
    list.split_whitespace().flat_map(record).collect()
}

fn events(list: &str) -> Vec<Option<Event>> {
    records_of(list).chunks_exact(RECORD).map(Event::from_record).collect()
}

fn line(octets: &[u8], e: &Event) -> String {
    let has: &[usize] = match e.kind {
        Kind::Namespace => &[0, 1],
        Kind::Start => &[0, 1, 2],
        Kind::Attribute => &[0, 1, 2, 3],
        Kind::Chunk | Kind::Comment => &[3],
        Kind::Instruction => &[2, 3],
        Kind::End => &[],
    };
    let mut out = "NSATCPE"[e.kind as usize - 1..e.kind as usize].to_string();
    for i in has {
        match e.strings[*i].said(octets) {
            None => out += " -",
            Some(s) => out += &format!(" ={}", crate::report::hex(&s)),
        }
    }
    out + "\n"
}

fn listing(octets: &[u8]) -> String {
    match reader::read(octets, 512) {
        Err(r) => format!("refused {} at {}\n", r.number, r.place),
        Ok(done) => done.events.iter().map(|e| line(octets, e)).collect::<String>() + &format!("end {}\n", done.events.len()),
    }
}

/// SHA-1 (FIPS 180-4), in which read.tsv keeps the listings.
fn sha1(message: &[u8]) -> String {
    let mut h: [u32; 5] = [0x67452301, 0xEFCDAB89, 0x98BADCFE, 0x10325476, 0xC3D2E1F0];
    let mut m = message.to_vec();
    m.push(0x80);
    while m.len() % 64 != 56 {
        m.push(0);
    }
    m.extend_from_slice(&(message.len() as u64 * 8).to_be_bytes());
    for block in m.chunks(64) {
        let mut w: Vec<u32> = block.chunks(4).map(|c| u32::from_be_bytes([c[0], c[1], c[2], c[3]])).collect();
        for i in 16..80 {
            w.push((w[i - 3] ^ w[i - 8] ^ w[i - 14] ^ w[i - 16]).rotate_left(1));
        }
        let [mut a, mut b, mut c, mut d, mut e] = h;
        for (i, word) in w.iter().enumerate() {
            let (f, k) = match i / 20 {
                0 => (b & c | !b & d, 0x5A827999),
                1 => (b ^ c ^ d, 0x6ED9EBA1),
                2 => (b & c | b & d | c & d, 0x8F1BBCDC),
                _ => (b ^ c ^ d, 0xCA62C1D6u32),
            };
            let next = a.rotate_left(5).wrapping_add(f).wrapping_add(e).wrapping_add(k).wrapping_add(*word);
            e = d;
            d = c;
            c = b.rotate_left(30);
            b = a;
            a = next;
        }
        for (x, y) in h.iter_mut().zip([a, b, c, d, e]) {
            *x = x.wrapping_add(y);
        }
    }
    h.iter().map(|x| format!("{x:08x}")).collect()
}

fn check(octets: &[u8]) -> u64 {
    reader::outcome(octets, 32768 * RECORD, TABLES, 10).0.answer & 0xFFFF_FFFF
}

fn read_rows() -> Vec<Vec<&'static str>> {
    [READ, READ_1, READ_2, READ_4, READ_6, FORMS].into_iter().flat_map(rows).collect()
}

#[test]
fn documents_of_read_tsv() {
    for r in read_rows() {
        let octets = unhex(r[1]);
        assert_eq!(check(&octets).to_string(), r[2], "check of {}", r[0]);
        assert_eq!(sha1(listing(&octets).as_bytes()), r[3], "listing of {}", r[0]);
    }
}

#[test]
fn documents_of_boundary_and_characters() {
    for r in rows(BOUNDARY).into_iter().chain(rows(CHARACTERS)) {
        let octets = unhex(r[1]);
        let count = reader::read(&octets, 32768).map_or(0, |done| done.events.len());
        assert_eq!((check(&octets).to_string(), count.to_string()), (r[2].to_string(), r[3].to_string()), "{}", r[0]);
    }
}

#[test]
fn documents_of_adversarial_tsv() {
    for r in rows(ADVERSARIAL) {
        let answer = match reader::read(&unhex(r[1]), r[2].parse().unwrap()) {
            Ok(done) => format!("accepted {}", done.events.len()),
            Err(x) => format!("refused {} {}", x.number, x.place),
        };
        assert_eq!(answer, r[3], "{}", r[0]);
    }
}

fn entry(t: &Text) -> String {
    match t {
        Text::Stretch(place, length, form) => format!("{place}+{length}{}", MARKS[*form as usize]),
        Text::XmlPrefix => "X".to_string(),
        _ => "U".to_string(),
    }
}

fn tables(t: &Tables) -> String {
    let strings = t.strings.iter().map(|s| s.rows.iter().map(entry).collect::<Vec<_>>().join(" "));
    let triple = |r: &[usize; 3]| format!("{}.{}.{}", r[0], r[1], r[2]);
    let names = t.names.iter().map(|n| n.rows.iter().map(triple).collect::<Vec<_>>().join(" "));
    strings.chain(names).collect::<Vec<_>>().join("|")
}

fn places(done: &reader::Reading) -> String {
    done.places.iter().map(usize::to_string).collect::<Vec<_>>().join(",")
}

/// The drafts are refused for their header.
#[test]
fn places_of_places_tsv() {
    for r in rows(PLACES) {
        let got = match reader::read(&unhex(r[1]), 32768) {
            Ok(done) => places(&done),
            Err(x) => format!("refused {} at {}", x.number, x.place),
        };
        assert_eq!(got, if r[1].starts_with("e0010000") { "refused 3 at 0" } else { r[2] }, "{}", r[0]);
    }
}

#[test]
fn all_of_events_tsv() {
    let documents: std::collections::HashMap<_, _> = read_rows().into_iter().map(|r| (r[0], r[1])).collect();
    for r in rows(EVENTS) {
        let done = reader::read(&unhex(documents[r[0]]), 512).unwrap();
        assert_eq!(done.events.iter().map(|e| Some(*e)).collect::<Vec<_>>(), events(r[1]), "{}", r[0]);
        assert_eq!((tables(&done.tables), places(&done)), (r[2].to_string(), r[3].to_string()), "{}", r[0]);
    }
}

/// The words of given tables: an entry is a string, or the numbers of a name with stops between.
fn given(s: &str) -> Vec<u32> {
    if s == "-" {
        return Vec::new();
    }
    let tables: Vec<Vec<&str>> = s.split(';').map(|t| t.split(',').filter(|e| !e.is_empty()).collect()).collect();
    let entry = |e: &str| if e.contains('.') { e.split('.').map(|n| n.parse().unwrap()).collect() } else { words_of(e).to_vec() };
    let counts = tables.iter().map(|t| t.len() as u32);
    counts.chain(tables.iter().flatten().flat_map(|e| entry(e))).collect()
}

/// Measuring is writing with room for the longest document, but for the octets.
fn measures_too(given: &[u32], text: &str, list: &str) {
    let (got, refusal) = writer::measured(given, &records_of(list), &unhex(text), [TABLES, 10]);
    let (written, same) = writer::outcome(given, &records_of(list), &unhex(text), [MOST, TABLES, 10]);
    assert_eq!((got.answer, refusal, got.tables, got.counts), (written.answer, same, written.tables, written.counts), "{list}");
    assert!(got.out.is_empty() && written.out.len() as u64 == got.answer >> 32);
}

fn written(given: &[u32], text: &str, room: &str, list: &str) -> String {
    measures_too(given, text, list);
    let (got, refusal) = writer::outcome(given, &records_of(list), &unhex(text), [room.parse().unwrap(), TABLES, 10]);
    match refusal {
        Some(x) => format!("refused {} {}", x.number, x.place),
        None => {
            let counts: Vec<String> = got.counts.iter().map(|c| c.to_string()).collect();
            format!("ok {} {}", crate::report::hex(&got.out[..(got.answer >> 32) as usize]), counts.join(","))
        }
    }
}

#[test]
fn lists_of_write_tsv() {
    for (i, r) in rows(WRITE).iter().enumerate() {
        assert_eq!(written(&[], r[1], r[2], r[3]), r[4], "line {}, {}", i + 1, r[0]);
    }
    for r in [WRITE_1, WRITE_2, WRITE_4, WRITE_6, CHARACTERS_WRITE, FORMS_WRITE].into_iter().flat_map(rows) {
        assert_eq!(written(&given(r[4]), r[1], r[2], r[5]), r[6], "{}, {}", r[0], r[5]);
    }
}

#[test]
fn the_order_document_of_annex_d() {
    let octets = unhex(include_str!("../../vectors/d5_000_header_corrected.hex").trim());
    assert_eq!(listing(&octets), include_str!("../../vectors/d5_listing.txt"));
    let done = reader::read(&octets, 512).unwrap();
    let events: Vec<_> = done.events.into_iter().map(Some).collect();
    assert_eq!(writer::write(&[], &events, &octets, MOST).ok().unwrap().octets, with_dates(&octets));
}

/// The order document with its two dates in the alphabets, as the writer has them.
fn with_dates(octets: &[u8]) -> Vec<u8> {
    let date: &[u8] = &[0x88, 2, 2, 0x20, 0x03, 0xA0, 0x2A, 0x03];
    let time: &[u8] = &[0x88, 6, 7, 0x20, 0x03, 0xA0, 0x2A, 0x24, 0xC0, 0x0B, 0x00, 0xB0, 0x0F];
    let mut changed = octets.to_vec();
    for (old, new) in [(&b"\x82\x072003-02-03"[..], date), (b"\x82\x102003-02-24T00:00:00", time)] {
        let at = changed.windows(old.len()).position(|w| w == old).unwrap();
        changed.splice(at..at + old.len(), new.iter().copied());
    }
    changed
}

#[test]
fn shrinking_finds_the_shortest() {
    let differs = |s: &[u8]| s.iter().position(|o| *o >= 7).map_or(false, |i| s[i..].contains(&2));
    let input: Vec<u8> = (0..100).chain(0..100).collect();
    assert_eq!(crate::shrink::octets(&input, &[], &differs).len(), 2);
    let pairs = |s: &[u8]| s.len() % 2 == 0 && s.contains(&50);
    assert_eq!(crate::shrink::shorter(&input, &pairs).len(), 2);
}

#[test]
fn every_short_and_the_edges_of_every_width() {
    for z in i16::MIN..=i16::MAX {
        let text = z.to_string();
        assert_eq!(StringForm::Short.spelled(&text), Some(z.to_be_bytes().to_vec()));
        assert_eq!(StringForm::Short.said(&z.to_be_bytes()).unwrap(), text.as_bytes());
    }
    for (form, width) in [(StringForm::Short, 2), (StringForm::Int, 4), (StringForm::Long, 8)] {
        let half = 1i128 << (8 * width - 1);
        for (z, held) in [(-half - 1, false), (-half, true), (half - 1, true), (half, false)] {
            assert_eq!(form.spelled(&z.to_string()).map(|octets| octets.len()), held.then_some(width), "{z}");
        }
        for wrong in ["", "-", "+1", "01", "-0", "-01", "00", " 1", "1 ", "1  2", "1,2", "1\t2", "1.0", "1e2", "- 1", "--1"] {
            assert_eq!(form.spelled(wrong), None, "{wrong}");
        }
    }
}

#[test]
fn numbers_at_the_ends_of_their_forms() {
    use crate::forms::*;
    for (start, forms) in [(1, C21), (2, C22), (5, C23), (7, C24), (2, C25), (3, C27), (4, C28)] {
        for f in forms {
            for value in [f.low, f.high()] {
                let mut row = BitRow::default();
                row.put(0, start - 1);
                row.number(value, forms);
                let found = form_at(&row.octets, start - 1, forms).unwrap();
                let field = start - 1 + found.code.len() + found.zeros;
                assert_eq!(found.low + bits(&row.octets, field, found.bits), value);
                assert_eq!((row.octets.len(), row.aligned()), (found.octets(start), true));
            }
        }
    }
}
