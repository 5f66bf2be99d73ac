//! Events and answers, and how they stand in the words of the C boundary.
pub use crate::tables::*;
pub use crate::text::{StringForm, STRING_FORMS};
use std::borrow::Cow;

/// Words of a record, of which the last is the place.
pub const RECORD: usize = 14;
pub const PLACE: usize = 13;
pub const ROWS: usize = 256;
pub const TABLES: usize = 10 * ROWS * 3;
pub const MOST: usize = 16384;
pub const DEEPEST: usize = 32;
pub const XML: &[u8] = b"xml";
pub const XML_NAMESPACE: &[u8] = b"http://www.w3.org/XML/1998/namespace";

/// A string; a stretch is a place, a length and the form of its octets.
#[derive(Clone, Copy, PartialEq, Eq, Debug)]
pub enum Text {
    Absent,
    Empty,
    Stretch(usize, usize, StringForm),
    XmlPrefix,
    XmlNamespace,
}

#[derive(Clone, Copy, PartialEq, Eq, Debug)]
pub enum Kind {
    Namespace = 1,
    Start,
    Attribute,
    Chunk,
    Comment,
    Instruction,
    End,
}

pub const KINDS: [Kind; 7] = [Kind::Namespace, Kind::Start, Kind::Attribute, Kind::Chunk, Kind::Comment, Kind::Instruction, Kind::End];

/// An event; its strings are prefix, namespace, name (or target), value (or chunk, comment, content). Where it was read is no part of it, so that no writer can look at that.
#[derive(Clone, Copy, PartialEq, Eq, Debug)]
pub struct Event {
    pub kind: Kind,
    pub strings: [Text; 4],
}

/// A refusal, its place, and the kind of the field that was at fault (for the counts that are printed).
#[derive(Clone, Copy, PartialEq, Eq, Debug)]
pub struct Refusal {
    pub number: u32,
    pub place: usize,
    pub field: &'static str,
}

impl Refusal {
    pub fn answer(&self) -> u64 {
        (self.place * 32) as u64 + u64::from(self.number)
    }
}

pub type Record = [u32; RECORD];

/// The tags of stretches, by their forms.
pub const TAGS: [u32; 7] = [2, 5, 6, 7, 8, 9, 10];

impl Text {
    pub fn words(self) -> [u32; 3] {
        match self {
            Text::Absent => [0, 0, 0],
            Text::Empty => [1, 0, 0],
            Text::Stretch(place, length, form) => [TAGS[form as usize], place as u32, length as u32],
            Text::XmlPrefix => [3, 0, 0],
            Text::XmlNamespace => [4, 0, 0],
        }
    }

    pub fn from_words(w: &[u32]) -> Option<Text> {
        match (w[0], w[1], w[2]) {
            (0, 0, 0) => Some(Text::Absent),
            (1, 0, 0) => Some(Text::Empty),
            (3, 0, 0) => Some(Text::XmlPrefix),
            (4, 0, 0) => Some(Text::XmlNamespace),
            (tag, place, length) => {
                let form = TAGS.iter().position(|t| *t == tag)?;
                Some(Text::Stretch(place as usize, length as usize, STRING_FORMS[form]))
            }
        }
    }

    /// What the string says, in UTF-8, by the octets that it was read from; None for an absent one, and where those are no string in its form.
    pub fn said(self, from: &[u8]) -> Option<Cow<'_, [u8]>> {
        match self {
            Text::Absent => None,
            Text::Empty => Some(Cow::from(&[][..])),
            Text::Stretch(place, length, form) => form.said(from.get(place..place.checked_add(length)?)?),
            Text::XmlPrefix => Some(Cow::from(XML)),
            Text::XmlNamespace => Some(Cow::from(XML_NAMESPACE)),
        }
    }

    /// The form of its octets; what is no stretch counts as utf-8.
    pub fn form(self) -> StringForm {
        match self {
            Text::Stretch(_, _, form) => form,
            _ => StringForm::Utf8,
        }
    }
}

impl Event {
    pub fn record(&self, place: usize) -> Record {
        let mut r = [0; RECORD];
        r[0] = self.kind as u32;
        for (i, s) in self.strings.iter().enumerate() {
            r[1 + 3 * i..4 + 3 * i].copy_from_slice(&s.words());
        }
        r[PLACE] = place as u32;
        r
    }

    /// None where the words are no event: blank, another kind or tag, words beside a tag that has none. The place is not looked at.
    pub fn from_record(r: &[u32]) -> Option<Event> {
        let kind = *KINDS.get((r[0] as usize).checked_sub(1)?)?;
        let mut strings = [Text::Absent; 4];
        for (i, s) in strings.iter_mut().enumerate() {
            *s = Text::from_words(&r[1 + 3 * i..4 + 3 * i])?;
        }
        Some(Event { kind, strings })
    }
}

/// All that a call answers and leaves; `filled` is the records of a reading, `out` the octets of a writing. All lent room beyond these is blank.
pub struct Outcome {
    pub answer: u64,
    pub filled: Vec<u32>,
    pub out: Vec<u8>,
    pub tables: Vec<u32>,
    pub counts: Vec<u32>,
}

impl Outcome {
    /// A refusal blanks everything lent.
    pub fn refused(r: &Refusal) -> Outcome {
        Outcome { answer: r.answer(), filled: Vec::new(), out: Vec::new(), tables: Vec::new(), counts: Vec::new() }
    }
}
