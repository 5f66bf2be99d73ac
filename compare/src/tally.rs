//! The counts that are printed: inputs by kind, answers by kind of field and refusal. compare/run adds up those of all its processes.
use crate::words::Refusal;
use std::collections::BTreeMap;

#[derive(Default)]
pub struct Tally(BTreeMap<(&'static str, &'static str, u32), u64>);

impl Tally {
    /// Counts an input of a kind, and the answer to the call that it was for.
    pub fn count(&mut self, kind: &'static str, call: &'static str, refusal: Option<Refusal>) {
        self.add(("inputs", kind, 0));
        self.answer(call, refusal);
    }

    /// Counts the answer to a further call for the same input.
    pub fn answer(&mut self, call: &'static str, refusal: Option<Refusal>) {
        self.add(refusal.map_or((call, "accepted", 0), |r| (call, r.field, r.number)));
    }

    fn add(&mut self, key: (&'static str, &'static str, u32)) {
        *self.0.entry(key).or_insert(0) += 1;
    }

    pub fn print(&self) {
        for ((what, kind, number), n) in &self.0 {
            println!("count\t{what}\t{kind}\t{number}\t{n}");
        }
    }
}
