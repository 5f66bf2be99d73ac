//! The ten tables: entries by number, and the lowest number of each entry.
use crate::words::{Text, ROWS, TABLES, XML, XML_NAMESPACE};
use std::collections::HashMap;

/// A table of strings: entries in order, and the lowest number of each string, which is what it says in UTF-8.
#[derive(Default)]
pub struct Strings {
    pub rows: Vec<Text>,
    held: HashMap<Vec<u8>, usize>,
}

impl Strings {
    pub fn number_of(&self, said: &[u8]) -> Option<usize> {
        self.held.get(said).copied()
    }

    pub fn full(&self) -> bool {
        self.rows.len() >= ROWS
    }

    /// Adds an entry and gives its number.
    pub fn add(&mut self, text: Text, said: &[u8]) -> usize {
        self.rows.push(text);
        let number = self.rows.len();
        self.held.entry(said.to_vec()).or_insert(number);
        number
    }

    /// Entry `number`, from 1.
    pub fn get(&self, number: usize) -> Option<Text> {
        self.rows.get(number.checked_sub(1)?).copied()
    }
}

#[derive(Default)]
pub struct Names {
    pub rows: Vec<[usize; 3]>,
    held: HashMap<[usize; 3], usize>,
}

impl Names {
    pub fn number_of(&self, triple: [usize; 3]) -> Option<usize> {
        self.held.get(&triple).copied()
    }

    pub fn full(&self) -> bool {
        self.rows.len() >= ROWS
    }

    pub fn add(&mut self, triple: [usize; 3]) -> usize {
        self.rows.push(triple);
        let number = self.rows.len();
        self.held.entry(triple).or_insert(number);
        number
    }
}

pub const PREFIX: usize = 0;
pub const NAMESPACE: usize = 1;
pub const LOCAL: usize = 2;
pub const TARGET: usize = 3;
pub const URI: usize = 4;
pub const VALUE: usize = 5;
pub const CHUNK: usize = 6;
pub const OTHER: usize = 7;
pub const ELEMENTS: usize = 0;
pub const ATTRIBUTES: usize = 1;

/// The eight tables of strings and the two of names.
pub struct Tables {
    pub strings: [Strings; 8],
    pub names: [Names; 2],
}

impl Tables {
    /// 7.2.21 and 7.2.22: the two built-in entries.
    pub fn start() -> Tables {
        let mut t = Tables { strings: Default::default(), names: Default::default() };
        t.strings[PREFIX].add(Text::XmlPrefix, XML);
        t.strings[NAMESPACE].add(Text::XmlNamespace, XML_NAMESPACE);
        t
    }

    /// Whether this is a table (0 to 7) of identifying strings, which never holds one twice.
    pub fn identifies(table: usize) -> bool {
        table <= URI
    }

    pub fn counts(&self) -> Vec<u32> {
        let strings = self.strings.iter().map(|t| t.rows.len() as u32);
        strings.chain(self.names.iter().map(|t| t.rows.len() as u32)).collect()
    }

    pub fn words(&self) -> Vec<u32> {
        let mut w = vec![0; TABLES];
        for (t, table) in self.strings.iter().enumerate() {
            for (i, row) in table.rows.iter().enumerate() {
                if let Text::Stretch(place, length, form) = *row {
                    w[(t * ROWS + i) * 3..][..3].copy_from_slice(&[place as u32, length as u32, form as u32]);
                }
            }
        }
        for (t, table) in self.names.iter().enumerate() {
            for (i, row) in table.rows.iter().enumerate() {
                for (j, number) in row.iter().enumerate() {
                    w[((8 + t) * ROWS + i) * 3 + j] = *number as u32;
                }
            }
        }
        w
    }
}
