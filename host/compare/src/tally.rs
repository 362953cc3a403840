//! Counts of what a test reached: by name and answer number, and outcomes by what they were reached with.

use std::collections::BTreeMap;
use std::fmt;

#[derive(Default)]
pub struct Tally(BTreeMap<&'static str, BTreeMap<u32, u64>>);

impl Tally {
    pub fn count(&mut self, name: &'static str, number: u32) {
        *self.0.entry(name).or_default().entry(number).or_default() += 1;
    }

    /// Adds what another one counted.
    pub fn merge(&mut self, other: &Self) {
        for (name, answers) in &other.0 {
            let counts = self.0.entry(name).or_default();
            answers.iter().for_each(|(&number, count)| *counts.entry(number).or_default() += count);
        }
    }

    /// Writes a row for each name.
    pub fn write_rows(&self, out: &mut fmt::Formatter) -> fmt::Result {
        for (name, answers) in &self.0 {
            write!(out, "{name:>28}")?;
            for (number, count) in answers {
                write!(out, "  {count:>8} answered {number}")?;
            }
            writeln!(out)?;
        }
        Ok(())
    }

    /// Asserts that each name got these answers, and none besides.
    pub fn assert_just(&self, answers: &[(&str, &[u32])]) {
        for (name, reached) in answers {
            for number in 0..=9 {
                self.assert_reached(name, number, reached.contains(&number));
            }
        }
    }

    /// Asserts that the name got this answer at least once, or, if that is expected, never.
    pub fn assert_reached(&self, name: &str, number: u32, expected: bool) {
        let reached = self.0.get(name).is_some_and(|answers| answers.contains_key(&number));
        assert_eq!(reached, expected, "whether {name} was answered with {number}\n{self}");
    }
}

impl fmt::Display for Tally {
    fn fmt(&self, out: &mut fmt::Formatter) -> fmt::Result {
        self.write_rows(out)?;
        let calls: u64 = self.0.values().flat_map(BTreeMap::values).sum();
        write!(out, "{calls:>38} calls")
    }
}

/// An outcome, and what it must have been reached with, in groups.
pub type Outcomes = (&'static str, &'static [&'static [&'static str]]);

/// How often each outcome was reached, with what.
#[derive(Default)]
pub struct Found(BTreeMap<&'static str, BTreeMap<&'static str, u64>>);

impl Found {
    pub fn add(&mut self, outcome: &'static str, with: &'static str) {
        *self.0.entry(outcome).or_default().entry(with).or_default() += 1;
    }

    /// Asserts that each of these outcomes was reached with all that it names.
    pub fn assert_reached(&self, outcomes: &[Outcomes]) {
        for (outcome, groups) in outcomes {
            for with in groups.iter().copied().flatten() {
                let reached = self.0.get(outcome).is_some_and(|found| found.contains_key(with));
                assert!(reached, "{outcome}: {with} was not reached\n{self}");
            }
        }
    }
}

impl fmt::Display for Found {
    fn fmt(&self, out: &mut fmt::Formatter) -> fmt::Result {
        for (outcome, found) in &self.0 {
            write!(out, "{outcome:>29}")?;
            for (with, count) in found {
                write!(out, "  {count} {with},")?;
            }
            writeln!(out)?;
        }
        Ok(())
    }
}
