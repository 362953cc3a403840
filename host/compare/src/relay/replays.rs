//! What both replays say of damaged journals, compared, and counts of what was reached.

use std::fmt;

use engine::relay::ALLOWANCES;
use model::{Contradiction, Replayed};

use super::boundary::{Boundary, Proved};
use super::calls::Calls;
use super::damage::{DAMAGES, RECORD};
use super::journals::{self, Journal};
use super::{made_up, runs};
use crate::difference::Difference;
use crate::random::Random;
use crate::tally::Tally;
use crate::{amount, forms};

/// Runs whose journals are damaged, and the calls of each; of a journal at most so many records are taken.
const RUNS: usize = 40;
const CALLS_OF_EACH: usize = 200;
const RECORDS: usize = 100;

/// The name under which journals are counted that more than one thing happened to.
const SEVERAL: &str = "several of these";

/// What was reached.
#[derive(Default)]
pub struct Reached {
    /// What happened to journals, and whether they were contradicted.
    damages: Tally,
    /// How often each clause was the only one to apply.
    alone: [u64; Contradiction::ALL.len()],
    /// Damaged journals.
    pub journals: u64,
}

/// Compares what is said of so many damaged journals until something differs.
pub fn compare(subject: &impl Boundary, sources: &Sources, number: u64) -> Result<Reached, Difference> {
    let mut random = amount::random();
    let mut reached = Reached::default();
    for turn in 0..amount::rounds(number) {
        reached.damaged(subject, &mut random, sources, turn as usize)?;
    }
    Ok(reached)
}

/// Journals to damage.
pub struct Sources {
    of_runs: Vec<Journal>,
}

impl Sources {
    /// Those of runs of the proved relay.
    pub fn from_runs() -> Self {
        let mut random = amount::random();
        let pool = forms::pool(&mut random);
        let mut calls = Calls { random: &mut random, pool: &pool };
        let run = |_| runs::follow_journals(&Proved, &mut calls, CALLS_OF_EACH).expect("a run of the proved relay");
        Self { of_runs: (0..RUNS).map(run).collect() }
    }

    /// Begins as that of a run, or is made up.
    pub fn any(&self, random: &mut Random) -> Journal {
        if random.one_in(2) {
            return made_up::journal(random);
        }
        let mut journal = self.of_runs[random.below(self.of_runs.len())].clone();
        journal.bytes.truncate(RECORD * random.below(RECORDS));
        journal
    }
}

impl Reached {
    /// A journal to which one thing has happened, or several.
    fn damaged(
        &mut self,
        subject: &impl Boundary,
        random: &mut Random,
        sources: &Sources,
        turn: usize,
    ) -> Result<(), Difference> {
        let (name, _, damage) = DAMAGES[turn % DAMAGES.len()];
        let (undamaged, another) = (sources.any(random), sources.any(random));
        // Joined with its own copy it may pass.
        let other = if random.one_in(2) { &undamaged } else { &another };
        let mut journal = undamaged.clone();
        damage(random, &mut journal, other);
        self.count(subject, name, &undamaged, &journal)?;
        while random.one_in(3) {
            let (_, _, damage) = DAMAGES[random.below(DAMAGES.len())];
            damage(random, &mut journal, other);
            self.count(subject, SEVERAL, &undamaged, &journal)?;
        }
        Ok(())
    }

    fn count(
        &mut self,
        subject: &impl Boundary,
        name: &'static str,
        undamaged: &Journal,
        journal: &Journal,
    ) -> Result<(), Difference> {
        self.journals += u64::from(journal.bytes != undamaged.bytes);
        match journals::replay(subject, journal, ALLOWANCES)?.verdict {
            Replayed::Contradicted { by, .. } => {
                self.damages.count(name, 1);
                if let [clause] = by[..] {
                    self.alone[clause as usize] += 1;
                }
            }
            _ => {
                self.damages.count(name, 0);
                journal.check_bound().expect("a journal that isn't contradicted is bounded");
            }
        }
        Ok(())
    }

    /// Asserts that everything was reached, each clause alone at least so often.
    pub fn assert_all(&self, least: u64) {
        println!("{self}");
        self.damages.assert_just(&DAMAGES.map(|(name, verdicts, _)| (name, verdicts)));
        self.damages.assert_just(&[(SEVERAL, &[0, 1])]);
        for clause in Contradiction::ALL {
            let alone = self.alone[clause as usize];
            assert!(alone >= least, "'{}' alone {alone} times\n{self}", clause.words());
        }
    }
}

impl fmt::Display for Reached {
    fn fmt(&self, out: &mut fmt::Formatter) -> fmt::Result {
        writeln!(out, "contradicted (1) or not (0):")?;
        self.damages.write_rows(out)?;
        for clause in Contradiction::ALL {
            writeln!(out, "{:>8} alone: {}", self.alone[clause as usize], clause.words())?;
        }
        write!(out, "{:>38} damaged journals", self.journals)
    }
}
