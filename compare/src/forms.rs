//! Numbers and lengths of annex C: C.21 to C.28 as rows of a table, read and written bit by bit.

/// One way to spell a number: the code bits, zero bits behind them, then a field that holds the number less `low`.
pub struct Form {
    pub code: &'static str,
    pub zeros: usize,
    pub bits: usize,
    pub low: u64,
}

const fn form(code: &'static str, zeros: usize, bits: usize, low: u64) -> Form {
    Form { code, zeros, bits, low }
}

/// The highest number of a table entry (one-meg in 7.2.1).
pub const TOP: u64 = 1 << 20;

pub const C21: &[Form] = &[form("0", 0, 7, 1), form("1", 3, 20, 129)];
pub const C22: &[Form] = &[form("0", 0, 6, 1), form("10", 5, 8, 65), form("11", 5, 32, 321)];
pub const C23: &[Form] = &[form("0", 0, 3, 1), form("10", 2, 8, 9), form("11", 2, 32, 265)];
pub const C24: &[Form] = &[form("0", 0, 1, 1), form("10", 0, 8, 3), form("11", 0, 32, 259)];
pub const C25: &[Form] = &[form("0", 0, 6, 1), form("10", 0, 13, 65), form("110", 0, 20, 8257)];
pub const C27: &[Form] = &[form("0", 0, 5, 1), form("100", 0, 11, 33), form("101", 0, 19, 2081), form("110", 7, 20, 526369)];
pub const C28: &[Form] = &[form("0", 0, 4, 1), form("100", 0, 10, 17), form("101", 0, 18, 1041), form("110", 6, 20, 263185)];

impl Form {
    /// The highest number that this form spells.
    pub fn high(&self) -> u64 {
        self.low + (1u64 << self.bits) - 1
    }

    /// The octets that the form takes from a starting bit (1 to 8).
    pub fn octets(&self, start: usize) -> usize {
        (start - 1 + self.code.len() + self.zeros + self.bits + 7) / 8
    }

    fn fits(&self, octets: &[u8], from: usize) -> bool {
        self.code.bytes().enumerate().all(|(i, b)| bit(octets, from + i) == u64::from(b - b'0'))
    }
}

/// Bit `i` of the octets, counted from 0 at the highest bit of the first.
pub fn bit(octets: &[u8], i: usize) -> u64 {
    u64::from(octets[i / 8] >> (7 - i % 8) & 1)
}

/// `n` bits from bit `from` as a number.
pub fn bits(octets: &[u8], from: usize, n: usize) -> u64 {
    (from..from + n).fold(0, |value, i| value * 2 + bit(octets, i))
}

/// The form whose code stands at this bit of an octet that is there; codes never pass that octet.
pub fn form_at(octets: &[u8], from: usize, forms: &'static [Form]) -> Option<&'static Form> {
    forms.iter().find(|f| f.fits(octets, from))
}

/// Octets made bit by bit.
#[derive(Clone, Default)]
pub struct BitRow {
    pub octets: Vec<u8>,
    free: usize,
}

impl BitRow {
    pub fn put(&mut self, value: u64, n: usize) {
        for i in (0..n).rev() {
            self.put_bit((value >> i & 1) as u8);
        }
    }

    fn put_bit(&mut self, b: u8) {
        if self.free == 0 {
            self.octets.push(0);
            self.free = 8;
        }
        self.free -= 1;
        *self.octets.last_mut().unwrap() |= b << self.free;
    }

    pub fn code(&mut self, code: &str) {
        code.bytes().for_each(|b| self.put_bit(b - b'0'));
    }

    /// Fills the octet with zero bits: every item but an end starts on the first bit of an octet.
    pub fn align(&mut self) {
        self.free = 0;
    }

    pub fn aligned(&self) -> bool {
        self.free == 0
    }

    pub fn text(&mut self, text: &[u8]) {
        assert!(self.aligned(), "text starts on the first bit of an octet");
        self.octets.extend_from_slice(text);
    }

    /// A number in the only form that has it.
    pub fn number(&mut self, value: u64, forms: &[Form]) {
        let f = forms.iter().find(|f| f.low <= value && value <= f.high()).expect("a number within the forms");
        self.by_form(value, f);
    }

    pub fn by_form(&mut self, value: u64, f: &Form) {
        self.code(f.code);
        self.put(0, f.zeros);
        self.put(value - f.low, f.bits);
    }
}
