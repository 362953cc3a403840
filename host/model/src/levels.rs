//! Two ways to keep the partners' levels while a journal is replayed.

use crate::records::Allowance;
use crate::relay::PARTNERS;
use crate::{LEVEL_LIMIT, REFILL};

/// The levels of all partners from a time on.
pub trait Levels: Clone {
    fn full(time: u64) -> Self;

    /// What a partner has at a time that isn't below that of the last charge. Looking changes nothing: "a done one with a
    /// lower reading may follow".
    fn at(&self, partner: usize, time: u64) -> u64;

    /// Charges what the partner has at that time, or nothing.
    fn charge(&mut self, partner: usize, time: u64, charge: u64);

    /// What is written of them.
    fn allowances(&self) -> Vec<Allowance>;
}

/// As the relay keeps them: the level that a charge left, and when that was.
#[derive(Clone, Debug)]
pub struct RefilledWhenRead(Vec<Allowance>);

impl Levels for RefilledWhenRead {
    fn full(time: u64) -> Self {
        Self(vec![Allowance { level: LEVEL_LIMIT, updated: time }; PARTNERS])
    }

    fn at(&self, partner: usize, time: u64) -> u64 {
        self.0[partner].level_at(time)
    }

    /// "A done record of charge 0 moves only the clock."
    fn charge(&mut self, partner: usize, time: u64, charge: u64) {
        if charge > 0 {
            self.0[partner] = Allowance { level: self.at(partner, time) - charge, updated: time };
        }
    }

    fn allowances(&self) -> Vec<Allowance> {
        self.0.clone()
    }
}

/// What each partner has at one time, which is that of the latest done record.
#[derive(Clone, Debug)]
pub struct FilledEachSecond {
    levels: [u64; PARTNERS],
    time: u64,
}

impl FilledEachSecond {
    /// A second later.
    fn fill(&mut self) {
        self.time += 1;
        for level in &mut self.levels {
            *level = LEVEL_LIMIT.min(*level + REFILL);
        }
    }

    fn are_full(&self) -> bool {
        self.levels == [LEVEL_LIMIT; PARTNERS]
    }

    /// Filled once for each second up to this time. Once all are full a further second changes nothing.
    fn filled(&self, time: u64) -> Self {
        let mut later = self.clone();
        while later.time < time && !later.are_full() {
            later.fill();
        }
        later.time = time;
        later
    }
}

impl Levels for FilledEachSecond {
    fn full(time: u64) -> Self {
        Self { levels: [LEVEL_LIMIT; PARTNERS], time }
    }

    fn at(&self, partner: usize, time: u64) -> u64 {
        self.filled(time).levels[partner]
    }

    fn charge(&mut self, partner: usize, time: u64, charge: u64) {
        *self = self.filled(time);
        self.levels[partner] -= charge;
    }

    fn allowances(&self) -> Vec<Allowance> {
        self.levels.iter().map(|&level| Allowance { level, updated: self.time }).collect()
    }
}
