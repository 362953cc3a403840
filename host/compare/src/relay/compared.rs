//! As many calls of a relay as are made of the compiled one, each compared, until one differs.

use super::boundary::Boundary;
use super::calls::Calls;
use super::monitor::Fault;
use super::runs::{decoded, Pending, Run};
use super::{agree, maps, single};
use crate::difference::Difference;
use crate::{amount, forms};

/// Single calls, runs, and calls of each run.
pub const CALLS: u64 = 150_000;
pub const RUNS: u64 = 300;
pub const CALLS_OF_EACH: usize = 500;

pub fn calls(subject: &impl Boundary) -> Result<(), Difference> {
    some_calls(subject, CALLS)
}

/// Fewer of them, for a relay that differs from the second implementation in little.
pub fn some_calls(subject: &impl Boundary, number: u64) -> Result<(), Difference> {
    let mut random = amount::random();
    let pool = forms::pool(&mut random);
    let mut calls = Calls { random: &mut random, pool: &pool };
    single::calls(&mut calls, amount::rounds(number), |calls, tables, mut call| {
        calls.start_instead(&mut call);
        let map = maps::any(calls.random, tables);
        agree::call(subject, tables, map, &call).map(drop)
    })
}

pub fn runs(subject: &impl Boundary) -> Result<(), Difference> {
    some_runs(subject, RUNS)
}

pub fn some_runs(subject: &impl Boundary, number: u64) -> Result<(), Difference> {
    let mut random = amount::random();
    let pool = forms::pool(&mut random);
    let mut calls = Calls { random: &mut random, pool: &pool };
    (0..amount::rounds(number)).try_for_each(|_| run(subject, &mut calls))
}

fn run(subject: &impl Boundary, calls: &mut Calls) -> Result<(), Difference> {
    let run = Run::any(calls);
    let (start, anything, found) = run.start(calls);
    let started = agree::call(subject, &anything, found, &start)?;
    let (mut tables, mut map) = (run.first_tables(calls, started.lent.tables()), started.answer.map);
    let (mut pending, mut journal) = (Pending::default(), run.journal());
    for _ in 0..CALLS_OF_EACH {
        let call = run.next(calls, &decoded(&tables), &mut pending);
        let outcome = agree::call(subject, &tables, run.handed(calls, map), &call)?;
        journal.note(&outcome.answer);
        (tables, map) = (outcome.lent.tables(), outcome.answer.map);
        pending.note(calls, call, &outcome.answer);
    }
    run.compare_end(subject, &tables, map, &journal)
}

/// As many runs of the relay by itself, each followed by a monitor, until that finds a fault.
pub fn followed<B: Boundary>(
    subject: &B,
    mut follow: impl FnMut(&B, &mut Calls, usize) -> Result<(), Fault>,
) -> Result<(), Fault> {
    let mut random = amount::random();
    let pool = forms::pool(&mut random);
    let mut calls = Calls { random: &mut random, pool: &pool };
    (0..amount::rounds(RUNS)).try_for_each(|_| follow(subject, &mut calls, CALLS_OF_EACH))
}
