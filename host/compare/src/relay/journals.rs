//! The journal of a run, and what both replays say of a journal, compared.

use std::fmt;

use engine::relay::{Answer, Replayed, ALLOWANCES};
use model::{partner_of, Allowance, Entry, Record, PARTNERS};

use super::boundary::{replayed, Boundary};
use super::monitor::{Fault, Partner};
use crate::difference::{same, same_bytes, Difference};
use crate::guarded::Guarded;

/// A journal, with the time and the term of the fresh start that it begins with.
#[derive(Clone)]
pub struct Journal {
    pub start: u64,
    pub term: u64,
    pub bytes: Vec<u8>,
}

impl Journal {
    pub fn new(start: u64, term: u64) -> Self {
        Self { start, term, bytes: Vec::new() }
    }

    /// Appends the record of a call: "all zero on 1 to 3 [..] The journal is a file of the others".
    pub fn note(&mut self, answer: &Answer) {
        if !matches!(answer.number, 1..=3) {
            self.bytes.extend(answer.record);
        }
    }

    /// The records, without what is left at the end.
    pub fn entries(&self) -> impl Iterator<Item = Entry> + '_ {
        self.bytes.chunks_exact(Entry::LENGTH).map(Entry::decode)
    }

    /// Demand 3's bound, of a journal that isn't contradicted and from nothing else: from one done charge of a partner to
    /// another no more than 262,144 and 65,536 for each second between them.
    pub fn check_bound(&self) -> Result<(), Fault> {
        let mut partners: [Partner; PARTNERS] = Default::default();
        for entry in self.entries().filter(|entry| entry.answer == 0 && entry.charge > 0) {
            let number = partner_of(entry.connection.into());
            partners[number].spend(number, entry.time, entry.charge.into())?;
        }
        Ok(())
    }
}

impl fmt::Debug for Journal {
    fn fmt(&self, out: &mut fmt::Formatter) -> fmt::Result {
        writeln!(out, "a journal from {} on, term {}, of {} bytes:", self.start, self.term, self.bytes.len())?;
        self.bytes.chunks(Entry::LENGTH).try_for_each(|record| writeln!(out, "{record:02x?}"))
    }
}

/// What the replays of a journal came to.
pub struct Outcome {
    /// With all that is wrong at the place that is named.
    pub verdict: model::Replayed,
    /// What each of the two left in the allowances.
    pub allowances: Vec<u8>,
    pub plain: Vec<u8>,
}

type Replay<B> = fn(&B, &mut [u8], &[u8], u64, u64) -> Replayed;
type Expected = fn(&mut [u8], &[u8], u64, u64) -> model::Replayed;

/// Replays the journal in both ways on allowances of this length, and compares what each says and writes: with the second
/// implementation, and with the other.
pub fn replay<B: Boundary>(subject: &B, journal: &Journal, length: usize) -> Result<Outcome, Difference> {
    let (verdict, allowances) = replay_in_a_way(subject, B::replay, model::replay, journal, length)?;
    let (again, plain) = replay_in_a_way(subject, B::replay_plain, model::replay_plain, journal, length)?;
    let described = || format!("the plain replay of {journal:?}");
    same(described, &again, &verdict)?;
    if verdict == model::Replayed::Agrees {
        same(described, &plain, &at_the_clock(&allowances))?;
    }
    Ok(Outcome { verdict, allowances, plain })
}

/// Compares what is said, and every byte that is lent: the journal isn't written to, and the allowances not either where
/// nothing is to be written.
fn replay_in_a_way<B: Boundary>(
    subject: &B,
    replay: Replay<B>,
    expected: Expected,
    journal: &Journal,
    length: usize,
) -> Result<(model::Replayed, Vec<u8>), Difference> {
    let (unwritten, bytes) = (Guarded::unwritten(length), Guarded::holding(&journal.bytes));
    let (mut ours, mut theirs, lent) = (unwritten.clone(), unwritten.clone(), bytes.clone());
    let verdict = expected(theirs.lend_mut(), &journal.bytes, journal.start, journal.term);
    let said = replay(subject, ours.lend_mut(), lent.lend(), journal.start, journal.term);
    let described = || format!("allowances of {length} bytes, {journal:?}");
    same(described, &said, &replayed(&verdict))?;
    same_bytes(described, &ours, &theirs)?;
    same_bytes(|| format!("in the journal: {}", described()), &lent, &bytes)?;
    if verdict != model::Replayed::Agrees {
        same_bytes(described, &ours, &unwritten)?;
    }
    Ok((verdict, ours.lend().to_vec()))
}

/// The allowances, each level as it is at the clock's time, with that time.
fn at_the_clock(allowances: &[u8]) -> Vec<u8> {
    let (partners, common) = allowances.split_at(PARTNERS * Allowance::LENGTH);
    let clock = Allowance::decode(common).updated;
    let levels = partners.chunks_exact(Allowance::LENGTH).map(|record| Allowance::decode(record).level_at(clock));
    let mut filled = Vec::with_capacity(ALLOWANCES);
    levels.for_each(|level| Allowance { level, updated: clock }.encode(&mut filled));
    filled.extend(common);
    filled
}
