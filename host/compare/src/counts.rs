//! How often each number occurred, of however many there are.

use std::collections::BTreeMap;

#[derive(Default)]
pub struct Counts(BTreeMap<u32, u64>);

impl Counts {
    pub fn count(&mut self, number: u32) {
        *self.0.entry(number).or_default() += 1;
    }

    pub fn of(&self, number: u32) -> u64 {
        self.0.get(&number).copied().unwrap_or(0)
    }

    /// The numbers that occurred.
    pub fn numbers(&self) -> impl Iterator<Item = u32> + '_ {
        self.0.keys().copied()
    }
}
