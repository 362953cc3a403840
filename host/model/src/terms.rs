//! How long leases last: "600 seconds unless the host names another term, from 600 to 86,400, when it makes a fresh relay".

use std::ops::RangeInclusive;

/// The terms, in seconds.
pub const TERMS: RangeInclusive<u64> = USUAL_TERM..=86_400;
/// The term where the host names none.
pub const USUAL_TERM: u64 = 600;
/// The term of tables from before there was one to name.
pub const OLD_TERM: u64 = 3_600;

/// The number that the tables keep the term as: any, if they are from anywhere.
#[derive(Clone, Copy, Debug, PartialEq, Eq)]
pub struct StoredTerm(pub u64);

impl Default for StoredTerm {
    fn default() -> Self {
        Self(USUAL_TERM)
    }
}

impl StoredTerm {
    /// What is stored of a term that the host names: "naming 0 means 600, and other terms are answered with 6".
    pub fn named(term: u64) -> Option<Self> {
        match term {
            0 => Some(Self::default()),
            _ => TERMS.contains(&term).then_some(Self(term)),
        }
    }

    /// "A board where it holds 0 is an old one and keeps 3,600; any other number out of range reads as 600."
    pub fn seconds(self) -> u64 {
        match self.0 {
            0 => OLD_TERM,
            term if TERMS.contains(&term) => term,
            _ => USUAL_TERM,
        }
    }
}
