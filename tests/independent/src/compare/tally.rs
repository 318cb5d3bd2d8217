//! Counts of what a log showed.

use crate::ruling::Ruling;
use std::collections::BTreeMap;
use std::fmt;

/// How often each number was seen with each value.
#[derive(Default)]
pub struct Tally(BTreeMap<(u32, Option<u32>), usize>);

impl Tally {
    pub fn count(&mut self, ruling: Ruling) {
        *self.0.entry((ruling.number(), ruling.value())).or_default() += 1;
    }

    pub fn total(&self) -> usize {
        self.0.values().sum()
    }

    pub fn times(&self, number: u32) -> usize {
        self.by_number().get(&number).copied().unwrap_or(0)
    }

    pub fn has(&self, number: u32, value: u32) -> bool {
        self.0.contains_key(&(number, Some(value)))
    }

    fn by_number(&self) -> BTreeMap<u32, usize> {
        let mut seen = BTreeMap::new();
        for ((number, _), times) in &self.0 {
            *seen.entry(*number).or_default() += times;
        }
        seen
    }
}

/// The numbers with how often each was seen.
impl fmt::Display for Tally {
    fn fmt(&self, f: &mut fmt::Formatter) -> fmt::Result {
        for (number, times) in self.by_number() {
            write!(f, "  {number}: {times}")?;
        }
        Ok(())
    }
}
