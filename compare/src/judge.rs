//! One field under judgement: it collects its faults, and the one that the requirements name first is answered.
use crate::words::Refusal;

/// The faults of one field, in the required order of judgement.
#[derive(Clone, Copy, PartialEq, Eq, PartialOrd, Ord, Debug)]
pub enum Fault {
    Code,
    Padding,
    Format,
    Optional,
    Structure,
    Missing,
    Header,
    LateFormat,
    LatePadding,
    Range,
    Index,
    Text,
    Repeat,
    Full,
    Depth,
}

impl Fault {
    fn number(self) -> u32 {
        match self {
            Fault::Missing => 2,
            Fault::Header => 3,
            Fault::Optional => 4,
            Fault::Code => 5,
            Fault::Padding | Fault::LatePadding => 6,
            Fault::Range => 7,
            Fault::Format | Fault::LateFormat => 8,
            Fault::Text => 9,
            Fault::Index => 10,
            Fault::Repeat => 11,
            Fault::Full => 12,
            Fault::Depth => 13,
            Fault::Structure => 15,
        }
    }
}

/// A field under judgement.
pub struct Field {
    pub place: usize,
    pub kind: &'static str,
    pub first: Option<Fault>,
}

impl Field {
    pub fn fault_if(&mut self, wrong: bool, fault: Fault) {
        if wrong {
            self.first = Some(self.first.map_or(fault, |f| f.min(fault)));
        }
    }

    pub fn judge(&self) -> Result<(), Refusal> {
        match self.first {
            None => Ok(()),
            Some(f) => Err(Refusal { number: f.number(), place: self.place, field: self.kind }),
        }
    }
}
