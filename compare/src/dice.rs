//! Seeded choices (splitmix64): the same seed and number give the same input on every machine.
use crate::text::{StringForm, STRING_FORMS};

pub struct Dice(u64);

impl Dice {
    pub fn new(seed: u64, number: u64) -> Dice {
        let mut d = Dice(seed ^ number.wrapping_mul(0xD134_2543_DE82_EF95));
        d.next();
        d
    }

    pub fn next(&mut self) -> u64 {
        self.0 = self.0.wrapping_add(0x9E37_79B9_7F4A_7C15);
        let mut z = self.0;
        z = (z ^ (z >> 30)).wrapping_mul(0xBF58_476D_1CE4_E5B9);
        z = (z ^ (z >> 27)).wrapping_mul(0x94D0_49BB_1331_11EB);
        z ^ (z >> 31)
    }

    /// A number below `n`, which is not 0.
    pub fn below(&mut self, n: usize) -> usize {
        (self.next() % n as u64) as usize
    }

    pub fn percent(&mut self, n: usize) -> bool {
        self.below(100) < n
    }

    pub fn pick<T: Copy>(&mut self, from: &[T]) -> T {
        from[self.below(from.len())]
    }

    pub fn octet(&mut self) -> u8 {
        self.next() as u8
    }

    /// Text of exactly so many octets, with characters of every length.
    pub fn text(&mut self, length: usize) -> Vec<u8> {
        let mut out = String::new();
        while out.len() < length {
            let c = match self.below(12) {
                0 => self.pick(&['\u{80}', '\u{9f}', '\u{e9}', '\u{7ff}']),
                1 => self.pick(&['\u{800}', '\u{d7ff}', '\u{e000}', '\u{fdd0}', '\u{feff}', '\u{fffd}']),
                2 => self.pick(&['\u{10000}', '\u{10ffff}', '\u{1fffe}', '\u{1f600}']),
                3 => self.pick(&['\t', '\n', '\r', ' ', '~', '\u{7f}']),
                _ => (b'a' + self.below(26) as u8) as char,
            };
            out.push(if out.len() + c.len_utf8() <= length { c } else { 'z' });
        }
        out.into_bytes()
    }

    /// Text of so many octets that an alphabet has, or both, or none by one character.
    pub fn packable(&mut self, length: usize) -> Vec<u8> {
        let letters: &[u8] = self.pick(&[b"0123456789-+.e ", b"0123456789-:TZ ", b"0123456789", b"0123456789- "]);
        let mut text: Vec<u8> = (0..length).map(|_| self.pick(letters)).collect();
        if self.percent(10) {
            let i = self.below(length);
            text[i] = self.pick(b"+:/;eETtZz,~");
        }
        text
    }

    /// An integer: small, at an edge of a width or one beyond it, or any of a few octets.
    fn integer(&mut self) -> i128 {
        let half = 1i128 << self.pick(&[7, 15, 15, 31, 63]);
        match self.below(8) {
            0 => self.pick(&[-half, half - 1]),
            1 => self.pick(&[-half - 1, half]),
            2..=4 => self.below(20000) as i128 - 10000,
            _ => i128::from(self.next() as i64 >> self.pick(&[0, 32, 47, 48, 48, 48, 56])),
        }
    }

    /// A list of integers of about so many octets, most of them of few octets; now and then one letter of it is wrong or too many.
    pub fn integers(&mut self, length: usize) -> Vec<u8> {
        let small = self.percent(70);
        let mut text = Vec::new();
        while text.is_empty() || text.len() + 4 < length {
            let z = if small { i128::from(self.next() as i16) } else { self.integer() };
            text.extend_from_slice(format!("{}{z}", if text.is_empty() { "" } else { " " }).as_bytes());
        }
        if self.percent(12) {
            let (i, letter) = (self.below(text.len() + 1), self.pick(b"00-+  .:1e"));
            text.insert(i, letter);
        }
        text
    }

    /// A text, and a form in which it can be said.
    pub fn formed(&mut self, length: usize) -> (Vec<u8>, StringForm) {
        let text = match self.below(100) {
            0..=24 => self.packable(length),
            25..=49 => self.integers(length),
            _ => self.text(length),
        };
        (text.clone(), self.form_for(&text))
    }

    pub fn form_for(&mut self, text: &[u8]) -> StringForm {
        let says = |form: &StringForm| *form == StringForm::Utf8 || std::str::from_utf8(text).map_or(false, |text| form.spelled(text).is_some());
        let forms: Vec<StringForm> = STRING_FORMS.into_iter().chain([StringForm::Utf8]).filter(says).collect();
        self.pick(&forms)
    }

    /// Octets of a form that are to say nothing: a surrogate alone, half a unit, a character that XML does not have, fill that is not at the end, a part of an integer.
    pub fn spoil(&mut self, octets: &mut Vec<u8>, form: StringForm) {
        let i = self.below(octets.len());
        match form {
            StringForm::Utf8 => self.bar(octets),
            StringForm::Utf16 if self.percent(20) => drop(octets.pop()),
            StringForm::Utf16 => octets[i & !1] = self.pick(&[0xD8, 0xDB, 0xDC, 0xDF, 0xFF, 0]),
            StringForm::Numeric | StringForm::Dates => octets[i] |= self.pick(&[0xF0, 0x0F, 0xFF]),
            StringForm::Short | StringForm::Int | StringForm::Long => octets.truncate(octets.len() - 1 - self.below(form.width().unwrap_or(2) - 1)),
        }
        if octets.is_empty() {
            octets.push(0);
        }
    }

    /// One octet, or three in a row, to be of a character that XML does not have, if they are of characters at all.
    pub fn bar(&mut self, text: &mut [u8]) {
        if text.is_empty() {
            return;
        }
        let i = self.below(text.len());
        if text.len() - i >= 3 && self.percent(50) {
            text[i..i + 3].copy_from_slice(&[0xEF, 0xBF, self.pick(&[0xBE, 0xBF])]);
        } else {
            text[i] = self.pick(&[0, 1, 8, 0xB, 0xC, 0xE, 0x1F]);
        }
    }

    /// A length of a string: short ones, and both sides of each bound between the forms.
    pub fn length(&mut self) -> usize {
        match self.below(40) {
            0..=23 => 1 + self.below(3),
            24..=36 => 1 + self.below(12),
            37..=38 => self.pick(&[2, 3, 5, 6, 8, 9, 16, 17, 24, 25, 33, 63, 64, 65, 66, 97, 128, 129]),
            _ => self.pick(&[64, 65, 258, 259, 260, 264, 265, 266, 319, 320, 321, 322]),
        }
    }
}
