//! Event lists from a small pool of strings, so that they come again.
use super::List;
use crate::dice::Dice;
use crate::words::*;

/// Strings in the pool of a list that fills a table.
const MANY: usize = 1200;

struct Pool<'d> {
    dice: &'d mut Dice,
    text: Vec<u8>,
    stretches: Vec<Text>,
    /// The same strings and others, some in two forms.
    values: Vec<Text>,
    events: Vec<Event>,
    items: usize,
    /// How often the root goes on with another child, and how often a child is an element, in percent.
    on: usize,
    down: usize,
    /// One more than is allowed, or less where a table is to fill first.
    deepest: usize,
    /// Which table a long list fills: 0 any, 1 prefixes and namespaces, 2 names, 3 values.
    slant: usize,
}

pub fn from_pool(dice: &mut Dice) -> List {
    let (items, strings, on, down) = match dice.below(100) {
        0..=3 => (2200, MANY, 100, dice.pick(&[3, 60, 95])),
        4..=6 => (60, 8, 100, 99),
        _ => (2 + dice.below(25), 2 + dice.below(12), 92, 40),
    };
    let mut p = Pool { text: Vec::new(), stretches: Vec::new(), values: Vec::new(), events: Vec::new(), items, on, down, deepest: DEEPEST + 1, slant: 0, dice };
    if strings == MANY {
        p.deepest = 8;
        p.slant = p.dice.below(4);
    }
    p.fill(strings, strings == MANY);
    p.beside_root();
    p.element(1);
    p.beside_root();
    List::of(p.events.iter().map(|e| e.record(0)).collect(), p.text)
}

impl<'d> Pool<'d> {
    fn fill(&mut self, strings: usize, short: bool) {
        for built_in in [XML, XML_NAMESPACE] {
            let s = self.put(built_in, StringForm::Utf8);
            self.stretches.extend(s);
            self.values.extend(s);
        }
        for _ in 0..strings {
            let length = if short { 1 + self.dice.below(5) } else { self.dice.length() };
            let (s, form) = self.dice.formed(length);
            let (one, other) = (self.put(&s, StringForm::Utf8), if short { None } else { self.put(&s, form) });
            self.stretches.extend(one);
            self.values.extend(one.filter(|_| short || self.dice.percent(50)));
            self.values.extend(other);
        }
    }

    /// A string in the text area, in a form; None where there is no room.
    fn put(&mut self, s: &[u8], form: StringForm) -> Option<Text> {
        let octets = form.spelled(std::str::from_utf8(s).ok()?)?;
        if self.text.len() + octets.len() > MOST {
            return None;
        }
        let place = self.text.len();
        self.text.extend_from_slice(&octets);
        Some(Text::Stretch(place, octets.len(), form))
    }

    fn stretch(&mut self) -> Text {
        self.dice.pick(&self.stretches)
    }

    /// One of a few strings where the list is slanted, else any.
    fn part(&mut self, few: bool) -> Text {
        let n = if few { self.stretches.len().min(12) } else { self.stretches.len() };
        self.stretches[self.dice.below(n)]
    }

    fn value(&mut self) -> Text {
        if self.dice.percent(20) {
            Text::Empty
        } else {
            self.dice.pick(&self.values)
        }
    }

    fn pair(&mut self, named: bool) -> (Text, Text) {
        let few = named && self.slant > 0;
        let namespace = match self.dice.below(6) {
            0 => Text::XmlNamespace,
            1..=2 => Text::Absent,
            _ => self.part(few),
        };
        let prefix = match self.dice.below(6) {
            _ if named && namespace == Text::Absent => Text::Absent,
            0 => Text::XmlPrefix,
            1..=2 => Text::Absent,
            _ => self.part(few),
        };
        if few && self.slant != 2 {
            (Text::Absent, Text::Absent)
        } else {
            (prefix, namespace)
        }
    }

    fn push(&mut self, kind: Kind, strings: [Text; 4]) {
        self.events.push(Event { kind, strings });
    }

    fn another(&mut self, percent: usize) -> bool {
        let go = self.items > 0 && self.dice.percent(percent);
        self.items -= usize::from(go);
        go
    }

    fn beside_root(&mut self) {
        while self.another(15) {
            self.leaf(false);
        }
    }

    fn leaf(&mut self, inside: bool) {
        let (none, v, s, chunk) = (Text::Absent, self.value(), self.stretch(), self.dice.pick(&self.values));
        match self.dice.below(if inside { 4 } else { 2 }) {
            0 => self.push(Kind::Comment, [none, none, none, v]),
            1 => self.push(Kind::Instruction, [none, none, s, v]),
            _ => self.push(Kind::Chunk, [none, none, none, chunk]),
        }
    }

    fn named(&mut self, kind: Kind, value: Text) {
        let (p, n) = self.pair(true);
        let local = self.part(self.slant > 0);
        self.push(kind, [p, n, local, value]);
    }

    fn element(&mut self, depth: usize) {
        while self.another(if self.slant == 1 { 80 } else { 20 }) {
            let (p, n) = self.pair(false);
            self.push(Kind::Namespace, [p, n, Text::Absent, Text::Absent]);
        }
        self.named(Kind::Start, Text::Absent);
        while self.another(if self.slant == 3 { 90 } else { 30 }) {
            let v = self.value();
            self.named(Kind::Attribute, v);
        }
        // Where a table is to fill, few children each: else the leaves at the deepest level would be most of the list.
        let inner = if self.deepest < DEEPEST { 40 } else { 92 };
        while self.another(if depth == 1 || self.down == 99 { self.on } else { inner }) {
            if depth < self.deepest && self.dice.percent(self.down) {
                self.element(depth + 1);
            } else {
                self.leaf(true);
            }
        }
        self.push(Kind::End, [Text::Absent; 4]);
    }
}
