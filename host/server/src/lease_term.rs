//! How long leases last. A fresh relay is given a term, and its tables keep it.

use std::error::Error;
use std::fmt;
use std::str::FromStr;

/// A term that a fresh relay can be given: 600 to 86,400 seconds.
#[derive(Clone, Copy, Debug, PartialEq, Eq)]
pub struct LeaseTerm(u64);

/// Any other number of seconds.
#[derive(Clone, Copy, Debug, PartialEq, Eq)]
pub struct NoTerm;

impl LeaseTerm {
    /// Unless another is named. There is no shorter one.
    pub const USUAL: Self = Self(600);
    pub const LONGEST: Self = Self(86_400);

    pub fn new(seconds: u64) -> Result<Self, NoTerm> {
        let range = Self::USUAL.0..=Self::LONGEST.0;
        range.contains(&seconds).then_some(Self(seconds)).ok_or(NoTerm)
    }

    pub const fn seconds(self) -> u64 {
        self.0
    }
}

impl FromStr for LeaseTerm {
    type Err = NoTerm;

    fn from_str(text: &str) -> Result<Self, NoTerm> {
        text.parse().map_err(|_| NoTerm).and_then(Self::new)
    }
}

impl fmt::Display for NoTerm {
    fn fmt(&self, to: &mut fmt::Formatter) -> fmt::Result {
        let [least, most] = [LeaseTerm::USUAL, LeaseTerm::LONGEST].map(LeaseTerm::seconds);
        write!(to, "a lease's term is {least} to {most} seconds")
    }
}

impl Error for NoTerm {}

/// What tables keep as the term.
#[derive(Clone, Copy, Debug, PartialEq, Eq)]
pub enum KeptTerm {
    /// That of the fresh relay.
    Given(LeaseTerm),
    /// 0, as in the tables of relays from before there was a term.
    Older,
    /// This number, which is no term.
    OutOfRange(u64),
}

impl KeptTerm {
    /// How long leases of relays from before there was a term last, in seconds.
    const OLDER: u64 = 3_600;

    pub fn from_number(number: u64) -> Self {
        match LeaseTerm::new(number) {
            Ok(term) => Self::Given(term),
            Err(NoTerm) if number == 0 => Self::Older,
            Err(NoTerm) => Self::OutOfRange(number),
        }
    }

    /// How long leases last.
    pub fn seconds(self) -> u64 {
        match self {
            Self::Given(term) => term.seconds(),
            Self::Older => Self::OLDER,
            Self::OutOfRange(_) => LeaseTerm::USUAL.seconds(),
        }
    }
}

/// How long a relay's leases last, and why if that isn't the term that was named, in words.
pub struct TermNote {
    pub kept: KeptTerm,
    pub named: Option<LeaseTerm>,
}

impl fmt::Display for TermNote {
    fn fmt(&self, to: &mut fmt::Formatter) -> fmt::Result {
        let seconds = self.kept.seconds();
        write!(to, "leases last {seconds} seconds")?;
        match self.kept {
            KeptTerm::Given(_) => {}
            KeptTerm::Older => write!(to, ", since an older relay made the state file")?,
            KeptTerm::OutOfRange(number) => write!(to, ", since the state file's term of {number} is out of range")?,
        }
        match self.named.map(LeaseTerm::seconds) {
            Some(named) if named != seconds => write!(
                to,
                "; the {named} named now aren't used: the state file keeps its term, and only a fresh relay is given one"
            ),
            _ => Ok(()),
        }
    }
}

#[cfg(test)]
mod tests {
    use super::{KeptTerm, LeaseTerm, NoTerm, TermNote};

    #[test]
    fn terms_are_from_600_to_86400_seconds() {
        for seconds in [600, 601, 3_600, 86_399, 86_400] {
            assert_eq!(seconds.to_string().parse().map(LeaseTerm::seconds), Ok(seconds));
        }
        // The last two are 600 beyond what 32 and 64 bits hold.
        for text in
            ["", "0", "599", "86401", "-600", " 600", "600.5", "ten", "600s", "4294967896", "18446744073709552216"]
        {
            assert_eq!(text.parse::<LeaseTerm>(), Err(NoTerm), "{text}");
        }
        assert_eq!(NoTerm.to_string(), "a lease's term is 600 to 86400 seconds");
    }

    fn note(number: u64, named: Option<u64>) -> String {
        let named = named.map(|seconds| LeaseTerm::new(seconds).expect("a term"));
        TermNote { kept: KeptTerm::from_number(number), named }.to_string()
    }

    #[test]
    fn a_note_tells_the_term_and_why_it_is_not_the_one_named() {
        let older = "leases last 3600 seconds, since an older relay made the state file";
        let out_of_range = "leases last 600 seconds, since the state file's term of 599 is out of range";
        let unused =
            "; the 1200 named now aren't used: the state file keeps its term, and only a fresh relay is given one";
        for named in [None, Some(700)] {
            assert_eq!(note(700, named), "leases last 700 seconds");
        }
        assert_eq!(note(700, Some(1_200)), format!("leases last 700 seconds{unused}"));
        for named in [None, Some(3_600)] {
            assert_eq!(note(0, named), older);
        }
        assert_eq!(note(0, Some(1_200)), format!("{older}{unused}"));
        for named in [None, Some(600)] {
            assert_eq!(note(599, named), out_of_range);
        }
        assert_eq!(note(599, Some(1_200)), format!("{out_of_range}{unused}"));
    }
}
