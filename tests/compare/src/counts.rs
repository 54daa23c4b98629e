//! How often each of the things that must be met was met.

use std::collections::{BTreeMap, BTreeSet};
use std::fmt;

/// Of each thing that must be met, and of any other that was.
pub struct Counts<Met> {
    counts: BTreeMap<Met, usize>,
    needed: BTreeSet<Met>,
}

impl<Met: Ord + Clone + fmt::Display> Counts<Met> {
    /// None of these was met yet.
    pub fn of(needed: Vec<Met>) -> Counts<Met> {
        let counts = needed.iter().map(|met| (met.clone(), 0)).collect();
        Counts { counts, needed: needed.into_iter().collect() }
    }

    pub fn add(&mut self, met: Met) {
        *self.counts.entry(met).or_default() += 1;
    }

    /// The counts of which none may be 0.
    pub fn all(&mut self) -> impl Iterator<Item = &mut usize> {
        self.counts.values_mut()
    }

    /// What was met, in words.
    pub fn met(&self) -> Vec<String> {
        let met = self.counts.iter().filter(|(_, count)| **count > 0);
        met.map(|(met, _)| met.to_string()).collect()
    }

    pub fn print(&self) {
        for (met, count) in &self.counts {
            println!("{count:>8} {met}");
        }
    }

    /// What never happened.
    pub fn never(&self) -> Vec<String> {
        let never = self.counts.iter().filter(|(_, count)| **count == 0);
        never.map(|(met, _)| format!("never: {met}")).collect()
    }

    /// What can't have happened.
    pub fn others(&self) -> Vec<String> {
        let others = self.counts.keys().filter(|met| !self.needed.contains(met));
        others.map(|met| format!("met, and cannot be: {met}")).collect()
    }

    /// What never happened, and what can't have.
    pub fn missing(&self) -> Vec<String> {
        [self.never(), self.others()].concat()
    }
}
