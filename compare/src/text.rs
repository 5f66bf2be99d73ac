//! Text: which characters there are, by their numbers, and the forms in which octets say them.
use std::borrow::Cow;

/// XML 1.0, clause 2.2: from which to which.
const CHARACTERS: &[(u32, u32)] = &[(0x9, 0xA), (0xD, 0xD), (0x20, 0xD7FF), (0xE000, 0xFFFD), (0x1_0000, 0x10_FFFF)];

fn is_character(c: char) -> bool {
    CHARACTERS.iter().any(|(first, last)| (*first..=*last).contains(&u32::from(c)))
}

/// The form of a string's octets (C.19, C.20): utf-8, utf-16 with the higher octet first, one of the two alphabets that are built in (clause 9), or integers by one of three
/// algorithms that are (10.4 to 10.6).
#[derive(Clone, Copy, PartialEq, Eq, Debug)]
pub enum StringForm {
    Utf8,
    Utf16,
    Numeric,
    Dates,
    Short,
    Int,
    Long,
}

/// In the order of their numbers at the C boundary.
pub const STRING_FORMS: [StringForm; 7] =
    [StringForm::Utf8, StringForm::Utf16, StringForm::Numeric, StringForm::Dates, StringForm::Short, StringForm::Int, StringForm::Long];

/// The four bits that are no character of an alphabet: they fill up the last octet.
const FILL: u8 = 15;

impl StringForm {
    /// The characters of an alphabet, by their codes.
    pub fn letters(self) -> Option<&'static [u8; 15]> {
        match self {
            StringForm::Numeric => Some(b"0123456789-+.e "),
            StringForm::Dates => Some(b"0123456789-:TZ "),
            _ => None,
        }
    }

    /// The octets of an integer, in a form of integers.
    pub fn width(self) -> Option<usize> {
        match self {
            StringForm::Short => Some(2),
            StringForm::Int => Some(4),
            StringForm::Long => Some(8),
            _ => None,
        }
    }

    /// The octets in UTF-8 of what octets in this form say; None where they are not well formed, or say a character that XML does not have.
    pub fn said(self, octets: &[u8]) -> Option<Cow<'_, [u8]>> {
        match (self.letters(), self.width()) {
            (Some(letters), _) => unpacked(letters, octets).map(Cow::from),
            (_, Some(width)) => in_decimal(width, octets).map(Cow::from),
            _ if self == StringForm::Utf8 => is_text(octets).then_some(Cow::from(octets)),
            _ => from_units(octets).filter(|s| s.chars().all(is_character)).map(|s| Cow::from(s.into_bytes())),
        }
    }

    /// The octets in this form that say a text; None where an alphabet does not have one of its characters, or it is no list of integers.
    pub fn spelled(self, text: &str) -> Option<Vec<u8>> {
        match (self.letters(), self.width()) {
            (Some(letters), _) => packed(letters, text.as_bytes()),
            (_, Some(width)) => from_decimal(width, text),
            _ if self == StringForm::Utf8 => Some(text.as_bytes().to_vec()),
            _ => Some(text.encode_utf16().flat_map(u16::to_be_bytes).collect()),
        }
    }
}

/// An integer of two's complement, the highest octet first.
fn integer(octets: &[u8]) -> i64 {
    let sign = if octets[0] < 0x80 { 0 } else { -1 };
    octets.iter().fold(sign, |z, o| z << 8 | i64::from(*o))
}

/// Integers of so many octets each, in decimal with single blanks between.
fn in_decimal(width: usize, octets: &[u8]) -> Option<Vec<u8>> {
    let words: Vec<String> = octets.chunks(width).map(|o| integer(o).to_string()).collect();
    (octets.len() % width == 0).then_some(words.join(" ").into_bytes())
}

/// The way back: a word must be the decimal text of an integer that has so many octets.
fn from_decimal(width: usize, text: &str) -> Option<Vec<u8>> {
    let words = text.split(' ').map(|word| {
        let z = word.parse::<i64>().ok().filter(|z| z.to_string() == word)?;
        let octets = z.to_be_bytes()[8 - width..].to_vec();
        Some(octets).filter(|octets| integer(octets) == z)
    });
    Some(words.collect::<Option<Vec<_>>>()?.concat())
}

fn is_text(octets: &[u8]) -> bool {
    std::str::from_utf8(octets).map_or(false, |s| s.chars().all(is_character))
}

/// Pairs of octets as units of UTF-16; an odd octet and a surrogate without its other half are none.
fn from_units(octets: &[u8]) -> Option<String> {
    let units: Vec<u16> = octets.chunks(2).map(|pair| Some(u16::from_be_bytes([pair[0], *pair.get(1)?]))).collect::<Option<_>>()?;
    String::from_utf16(&units).ok()
}

/// Four bits for each character, the higher first; the last four may fill up.
fn unpacked(letters: &[u8; 15], octets: &[u8]) -> Option<Vec<u8>> {
    let mut codes: Vec<u8> = octets.iter().flat_map(|o| [o >> 4, o & 15]).collect();
    if codes.last() == Some(&FILL) {
        codes.pop();
    }
    codes.iter().map(|code| letters.get(usize::from(*code)).copied()).collect()
}

fn packed(letters: &[u8; 15], text: &[u8]) -> Option<Vec<u8>> {
    let codes: Vec<u8> = text.iter().map(|c| letters.iter().position(|l| l == c).map(|code| code as u8)).collect::<Option<_>>()?;
    Some(codes.chunks(2).map(|pair| pair[0] << 4 | pair.get(1).copied().unwrap_or(FILL)).collect())
}
