//! Which starts of a journal both replays refuse, compared, and counts of what was reached.

use engine::relay::ALLOWANCES;
use model::TIME_LIMIT;

use super::boundary::Boundary;
use super::damage::RECORD;
use super::journals::{self, Journal};
use super::replays::Sources;
use super::terms;
use crate::amount;
use crate::difference::{same, Difference};
use crate::tally::Tally;

/// Lengths of allowances: these, and all near the right one.
const LENGTHS: [usize; 5] = [0, 1, 16, 2 * ALLOWANCES, 5_120];
const NEAR: usize = 17;
const TIMES: [u64; 8] = [0, 100, TIME_LIMIT - 1, TIME_LIMIT, TIME_LIMIT + 1, 1 << 41, 1 << 63, u64::MAX];

/// The journals that starts are tried with.
const JOURNALS: [&str; 3] = ["no journal", "a wrong journal", "any journal"];

/// How starts were answered, by what the journal was.
#[derive(Default)]
pub struct Reached(Tally);

/// Every length with every time and every edge of the terms, before journals of each kind, until something differs.
pub fn compare(subject: &impl Boundary, sources: &Sources) -> Result<Reached, Difference> {
    let mut random = amount::random();
    let mut reached = Reached::default();
    let lengths = LENGTHS.into_iter().chain(ALLOWANCES - NEAR..=ALLOWANCES + NEAR);
    let times = lengths.flat_map(|length| TIMES.map(|time| (length, time)));
    for ((length, start), term) in times.flat_map(|time| terms::edges().map(move |term| (time, term))) {
        let bytes = [vec![], vec![255; RECORD], sources.any(&mut random).bytes];
        reached.start(subject, length, bytes.map(|bytes| Journal { start, term, bytes }))?;
    }
    Ok(reached)
}

/// The order in which starts are refused is put down here.
fn expected(length: usize, start: u64, term: u64) -> u32 {
    match term {
        _ if length != ALLOWANCES => 1,
        _ if start >= TIME_LIMIT => 2,
        0 | 600..=86_400 => 0,
        _ => 6,
    }
}

impl Reached {
    fn start(
        &mut self,
        subject: &impl Boundary,
        length: usize,
        journals: [Journal; JOURNALS.len()],
    ) -> Result<(), Difference> {
        for (name, journal) in JOURNALS.into_iter().zip(journals) {
            let ([number, _], _) = journals::replay(subject, &journal, length)?.verdict.numbers();
            let described = || format!("allowances of {length} bytes, {journal:?}");
            same(described, &number, &expected(length, journal.start, journal.term))?;
            self.0.count(name, number);
        }
        Ok(())
    }

    pub fn assert_all(&self) {
        println!("{}", self.0);
        let answers: &[u32] = &[0, 1, 2, 6];
        self.0.assert_just(&JOURNALS.map(|name| (name, answers)));
    }
}
