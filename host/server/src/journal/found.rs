//! The journal that a relay with a saved state finds.

use std::fs;
use std::path::Path;

use engine::relay::RECORD;

use super::file::{exists, refusal};
use super::Start;
use crate::lease_term::KeptTerm;
use crate::relay::Tables;
use crate::PARTNERS;

pub struct Found {
    pub start: Start,
    /// Bytes of its whole records.
    pub whole: usize,
    /// Bytes of the file.
    length: usize,
    /// The state's tables, with the allowances after the journal's last call.
    pub replayed: Tables,
}

impl Found {
    /// Reads and replays it. Else gives why the state's relay can't go on with it, and what can be done.
    pub fn read(path: &Path, state: &Tables) -> Result<Self, String> {
        let there = exists(path).map_err(|error| error.to_string())?;
        if !there {
            return Err(refusal("it isn't there, though the state file is, and only a fresh relay begins one"));
        }
        let start = Start::read(path).map_err(refusal)?;
        if state.lease_term() != KeptTerm::Given(start.term) {
            return Err(refusal("leases of the state last for another time, so it is another relay's"));
        }
        let bytes = fs::read(path).map_err(|error| error.to_string())?;
        let whole = whole_length(&bytes, start);
        let replayed = state.with_allowances_of(&bytes[..whole], start);
        let replayed = replayed.map_err(|place| refusal(format_args!("it contradicts the rules at byte {place}")))?;
        Ok(Self { start, whole, length: bytes.len(), replayed })
    }

    pub fn records(&self) -> usize {
        self.whole / RECORD
    }

    /// Bytes at its end that are no whole record.
    pub fn torn(&self) -> usize {
        self.length - self.whole
    }

    /// Whether it has all calls that the state has: then nobody has more by it than by the state.
    pub fn follows(&self, state: &Tables) -> bool {
        let time = self.replayed.clock();
        let has_no_more = |partner| self.replayed.level(partner, time) <= state.level(partner, time);
        state.clock() <= time && (0..PARTNERS).all(has_no_more)
    }
}

/// Bytes up to the last whole record. A machine that has lost its power may have left zeros where there should be records;
/// their time would be before any but the first.
fn whole_length(bytes: &[u8], start: Start) -> usize {
    let (records, _) = bytes.as_chunks::<RECORD>();
    let unwritten = records.iter().rev().take_while(|record| start.time > 0 && **record == [0; RECORD]);
    (records.len() - unwritten.count()) * RECORD
}
