//! What was compared, counted.
use std::collections::BTreeMap;

#[derive(Clone, Debug, Default)]
pub struct Tally(BTreeMap<String, u64>);

impl Tally {
    pub fn count(&mut self, what: &str) {
        match self.0.get_mut(what) {
            Some(n) => *n += 1,
            None => {
                self.0.insert(what.to_string(), 1);
            }
        }
    }
    /// A call and what it was answered with.
    pub fn answered(&mut self, call: &str, number: u32) {
        match number {
            0 => self.count(&format!("{call}, done")),
            n => self.count(&format!("{call}, refused {n:>2}")),
        }
    }
    pub fn add(&mut self, other: &Tally) {
        for (what, n) in &other.0 {
            *self.0.entry(what.clone()).or_default() += n;
        }
    }
    pub fn print(&self) {
        for (what, n) in &self.0 {
            println!("  {n:>12}  {what}");
        }
    }
    pub fn total(&self) -> u64 {
        self.0.values().sum()
    }
}
