//! What the writer judges of an event before it writes: whether it may come, its strings, its text.
use super::{Mode, Writer};
use crate::words::*;

impl<'a, R> Writer<'a, R> {
    pub(super) fn may_come(&self, kind: Kind) -> bool {
        match kind {
            Kind::Start if self.mode == Mode::Declaring => true,
            Kind::Namespace | Kind::Start => self.open > 0 || !self.rooted,
            Kind::Attribute => self.mode == Mode::Attributes,
            Kind::Comment | Kind::Instruction => self.mode != Mode::Declaring,
            Kind::Chunk | Kind::End => self.open > 0 && self.mode != Mode::Declaring,
        }
    }

    pub(super) fn starts_element(&self, kind: Kind) -> bool {
        matches!(kind, Kind::Namespace | Kind::Start) && self.mode != Mode::Declaring
    }

    /// Whether this is a stretch of the text area, of an octet at least.
    pub(super) fn stretch(&self, s: Text) -> bool {
        match s {
            Text::Stretch(place, length, _) => length > 0 && place as u64 + length as u64 <= self.text.len() as u64,
            _ => false,
        }
    }

    /// The same of a string that identifies, which has one form alone.
    pub(super) fn identifying(&self, s: Text) -> bool {
        self.stretch(s) && s.form() == StringForm::Utf8
    }

    pub(super) fn strings_right(&self, e: &Event) -> bool {
        let [p, n, l, v] = e.strings;
        let none = |s: Text| s == Text::Absent;
        let identifying = |s: Text| self.identifying(s);
        let prefix = none(p) || p == Text::XmlPrefix || identifying(p);
        let namespace = none(n) || n == Text::XmlNamespace || identifying(n);
        let pair = prefix && namespace;
        let named = pair && (none(p) || !none(n)) && identifying(l);
        let value = v == Text::Empty || self.stretch(v);
        match e.kind {
            Kind::Namespace => pair && none(l) && none(v),
            Kind::Start => named && none(v),
            Kind::Attribute => named && value,
            Kind::Chunk => none(p) && none(n) && none(l) && self.stretch(v),
            Kind::Comment => none(p) && none(n) && none(l) && value,
            Kind::Instruction => none(p) && none(n) && identifying(l) && value,
            Kind::End => none(p) && none(n) && none(l) && none(v),
        }
    }

    pub(super) fn has_text(&self, e: &Event) -> bool {
        e.strings.iter().all(|s| *s == Text::Absent || s.said(self.text).is_some())
    }
}
