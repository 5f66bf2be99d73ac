//! The archive behind its C boundary: a slice is a pointer and a length. Lent room is dirty, and has a fence behind it that no call may touch.
use crate::words::Outcome;
use std::fmt::Debug;
use std::ops::BitOr;

extern "C" {
    fn lomphachit_check(octets: *const u8, n: usize) -> u32;
    fn lomphachit_read(octets: *const u8, n: usize, records: *mut u32, r: usize, tables: *mut u32, t: usize, counts: *mut u32, c: usize) -> u64;
    fn lomphachit_write(
        given: *const u32,
        g: usize,
        records: *const u32,
        r: usize,
        text: *const u8,
        n: usize,
        out: *mut u8,
        o: usize,
        tables: *mut u32,
        t: usize,
        counts: *mut u32,
        c: usize,
    ) -> u64;
    fn lomphachit_measure(
        given: *const u32,
        g: usize,
        records: *const u32,
        r: usize,
        text: *const u8,
        n: usize,
        tables: *mut u32,
        t: usize,
        counts: *mut u32,
        c: usize,
    ) -> u64;
}

const FENCE: usize = 8;
const POST: u32 = 0xA5C3_96F1;
const OCTET_POST: u8 = 0xA5;

/// Dirt, from which each room takes its own: most inputs are small, and so many new words for each would cost more than the call.
static DIRT: [u32; DIRTY] = dirt();
const DIRTY: usize = 8192;

const fn dirt() -> [u32; DIRTY] {
    let mut words = [1; DIRTY];
    let mut i = 1;
    while i < words.len() {
        words[i] = 1_664_525u32.wrapping_mul(words[i - 1]).wrapping_add(1_013_904_223);
        i += 1;
    }
    words
}

/// Room of words to lend: dirty, with a fence behind it.
struct Room {
    words: Vec<u32>,
    lent: usize,
}

impl Room {
    fn dirty(lent: usize, seed: u32) -> Room {
        let mut words = Vec::with_capacity(lent + FENCE);
        while words.len() < lent {
            let more = DIRTY.min(lent - words.len());
            words.extend(DIRT[..more].iter().map(|w| w ^ seed));
        }
        words.resize(lent + FENCE, POST);
        Room { words, lent }
    }

    fn fenced(&self) -> bool {
        self.words[self.lent..].iter().all(|w| *w == POST)
    }

    fn left(&self) -> &[u32] {
        &self.words[..self.lent]
    }
}

pub fn check(octets: &[u8]) -> u32 {
    unsafe { lomphachit_check(octets.as_ptr(), octets.len()) }
}

/// Whether what was left is what is wanted, and blank behind that. All of the rest is looked at: a loop that stops early takes it one by one.
fn right<T: Copy + Default + PartialEq + BitOr<Output = T>>(wanted: &[T], got: &[T]) -> bool {
    let (front, rest) = got.split_at(wanted.len());
    front == wanted && rest.iter().fold(T::default(), |all, w| all | *w) == T::default()
}

/// Says the first word or octet that is not right.
fn same<T: Copy + Default + PartialEq + BitOr<Output = T> + Debug>(what: &'static str, wanted: &[T], got: &[T]) -> Result<(), String> {
    if right(wanted, got) {
        return Ok(());
    }
    let should = |i: usize| wanted.get(i).copied().unwrap_or_default();
    let i = (0..got.len()).find(|i| got[*i] != should(*i)).expect("words that differ");
    Err(format!("{what}: number {i} is {:?} and should be {:?}", got[i], should(i)))
}

fn show(answer: u64) -> String {
    let (low, high) = (answer & 0xFFFF_FFFF, answer >> 32);
    if low == 0 {
        format!("accepted with {high}")
    } else {
        format!("{} at {}, with {high}", low % 32, low / 32)
    }
}

fn same_answer(wanted: u64, got: u64) -> Result<(), String> {
    if wanted == got {
        Ok(())
    } else {
        Err(format!("the archive answers {}, the other program {}", show(got), show(wanted)))
    }
}

/// Room that is lent to one call of the reader, in words, the dirt in it, and how often it is called on what it left.
#[derive(Clone, Copy)]
pub struct Lent {
    pub records: usize,
    pub tables: usize,
    pub counts: usize,
    pub calls: usize,
    pub seed: u32,
}

/// Calls the reader on dirty room, and again on what it left; says the first thing that is not as wanted.
pub fn compare_read(octets: &[u8], wanted: &Outcome, lent: &Lent) -> Result<(), String> {
    let mut records = Room::dirty(lent.records, lent.seed);
    let mut tables = Room::dirty(lent.tables, lent.seed ^ 0x5555);
    let mut counts = Room::dirty(lent.counts, lent.seed ^ 0x3333);
    let before = octets.to_vec();
    for call in 1..=lent.calls {
        let answer = unsafe {
            lomphachit_read(
                octets.as_ptr(),
                octets.len(),
                records.words.as_mut_ptr(),
                records.lent,
                tables.words.as_mut_ptr(),
                tables.lent,
                counts.words.as_mut_ptr(),
                counts.lent,
            )
        };
        let judged = same_answer(wanted.answer, answer)
            .and_then(|_| same("records", &wanted.filled, records.left()))
            .and_then(|_| same("tables", &wanted.tables, tables.left()))
            .and_then(|_| same("counts", &wanted.counts, counts.left()));
        judged.map_err(|e| format!("read, call {call}: {e}"))?;
        if !(records.fenced() && tables.fenced() && counts.fenced()) || before != octets {
            return Err(format!("read, call {call}: words outside of the lent room are changed"));
        }
    }
    Ok(())
}

/// The same for measuring, which is lent so many table words and counts.
pub fn compare_measure(given: &[u32], records: &[u32], text: &[u8], wanted: &Outcome, room: [usize; 2], seed: u32) -> Result<(), String> {
    let mut tables = Room::dirty(room[0], seed ^ 0x5555);
    let mut counts = Room::dirty(room[1], seed ^ 0x3333);
    let before = (given.to_vec(), records.to_vec(), text.to_vec());
    for call in 1..=2 {
        let answer = unsafe {
            lomphachit_measure(
                given.as_ptr(),
                given.len(),
                records.as_ptr(),
                records.len(),
                text.as_ptr(),
                text.len(),
                tables.words.as_mut_ptr(),
                tables.lent,
                counts.words.as_mut_ptr(),
                counts.lent,
            )
        };
        let judged = same_answer(wanted.answer, answer)
            .and_then(|_| same("tables", &wanted.tables, tables.left()))
            .and_then(|_| same("counts", &wanted.counts, counts.left()));
        judged.map_err(|e| format!("measure, call {call}: {e}"))?;
        if !(tables.fenced() && counts.fenced()) || before.0 != given || before.1 != records || before.2 != text {
            return Err(format!("measure, call {call}: words outside of the lent room are changed"));
        }
    }
    Ok(())
}

/// The same for the writer, which is lent so many octets, table words and counts.
pub fn compare_write(given: &[u32], records: &[u32], text: &[u8], wanted: &Outcome, room: [usize; 3], seed: u32) -> Result<(), String> {
    let lent = room[0];
    let mut out: Vec<u8> = (0..lent).map(|i| (i as u32).wrapping_mul(seed | 1) as u8 | 1).collect();
    out.resize(lent + FENCE, OCTET_POST);
    let mut tables = Room::dirty(room[1], seed ^ 0x5555);
    let mut counts = Room::dirty(room[2], seed ^ 0x3333);
    let before = (given.to_vec(), records.to_vec(), text.to_vec());
    for call in 1..=2 {
        let answer = unsafe {
            lomphachit_write(
                given.as_ptr(),
                given.len(),
                records.as_ptr(),
                records.len(),
                text.as_ptr(),
                text.len(),
                out.as_mut_ptr(),
                lent,
                tables.words.as_mut_ptr(),
                tables.lent,
                counts.words.as_mut_ptr(),
                counts.lent,
            )
        };
        let judged = same_answer(wanted.answer, answer)
            .and_then(|_| same("output", &wanted.out, &out[..lent]))
            .and_then(|_| same("tables", &wanted.tables, tables.left()))
            .and_then(|_| same("counts", &wanted.counts, counts.left()));
        judged.map_err(|e| format!("write, call {call}: {e}"))?;
        let fenced = out[lent..].iter().all(|o| *o == OCTET_POST) && tables.fenced() && counts.fenced();
        if !fenced || before.0 != given || before.1 != records || before.2 != text {
            return Err(format!("write, call {call}: octets or words outside of the lent room are changed"));
        }
    }
    Ok(())
}
