//! How often each call came to what.

use std::collections::BTreeMap;
use std::fmt;

use super::call::{Call, Outcome};

/// For each call, by its name and what it is told, how often it gave each
/// number from 0 to 15, and for the laws how often each was put to the test.
#[derive(Default)]
pub struct Tally {
    numbers: BTreeMap<String, [u64; 16]>,
    laws: BTreeMap<&'static str, u64>,
}

impl Tally {
    /// Counts a call by the number it gave.
    pub fn count(&mut self, call: &Call, outcome: &Outcome) {
        let row = self.numbers.entry(call.label()).or_default();
        row[outcome.reply[0] as usize] += 1;
    }

    /// Counts a test of a law.
    pub fn law(&mut self, name: &'static str) {
        *self.laws.entry(name).or_default() += 1;
    }

    /// How often a number was given by the calls whose labels begin so.
    pub fn of(&self, label: &str, number: usize) -> u64 {
        let rows = self.numbers.iter().filter(|row| row.0.starts_with(label));
        rows.map(|row| row.1[number]).sum()
    }

    /// How often a number was given, all calls together.
    pub fn given(&self, number: usize) -> u64 {
        self.numbers.values().map(|row| row[number]).sum()
    }
}

impl fmt::Display for Tally {
    fn fmt(&self, f: &mut fmt::Formatter) -> fmt::Result {
        write!(f, "{:25}{:>8}", "call", "0")?;
        for number in 1..16 {
            write!(f, "{number:>8}")?;
        }
        for (name, row) in &self.numbers {
            write!(f, "\n{name:25}")?;
            row.iter().try_for_each(|times| write!(f, "{times:>8}"))?;
        }
        write!(f, "\nplaces found: {}", self.of("place", 0))?;
        for (name, times) in &self.laws {
            write!(f, "\n{name}: {times}")?;
        }
        Ok(())
    }
}
