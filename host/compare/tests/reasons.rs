//! The functions that explain a call, compared with the second implementation and with what the compiled relay
//! then does.

use compare::difference::Difference;
use compare::reasons::reached::Reached;
use compare::reasons::{agree, truth};
use compare::relay::boundary::{Call, Proved};
use compare::relay::calls::Calls;
use compare::relay::runs::{decoded, Pending, Run};
use compare::relay::{self, single};
use compare::{amount, forms};
use model::Tables;

const CALLS: u64 = 72_000;
const RUNS: u64 = 120;
const CALLS_OF_EACH: usize = 500;

#[test]
fn calls_on_tables_from_anywhere() -> Result<(), Difference> {
    let mut random = amount::random();
    let mut reached = Reached::default();
    let pool = forms::pool(&mut random);
    let mut calls = Calls { random: &mut random, pool: &pool };
    single::calls(&mut calls, amount::rounds(CALLS), |calls, tables, mut call| {
        calls.lengthen(&mut call);
        explain_and_make(&mut reached, tables, &call)
    })?;
    reached.assert_all();
    Ok(())
}

#[test]
fn calls_of_runs() -> Result<(), Difference> {
    let mut random = amount::random();
    let mut reached = Reached::default();
    let pool = forms::pool(&mut random);
    let mut calls = Calls { random: &mut random, pool: &pool };
    for _ in 0..amount::rounds(RUNS) {
        explain_run(&mut calls, &mut reached)?;
    }
    reached.assert_all();
    Ok(())
}

/// Explains each call of a run before it is made, at times with another level, size or length than the run has.
fn explain_run(calls: &mut Calls, reached: &mut Reached) -> Result<(), Difference> {
    let run = Run::any(calls);
    let (start, anything, found) = run.start(calls);
    let started = relay::agree::call(&Proved, &anything, found, &start)?;
    let (mut tables, mut map) = (run.first_tables(calls, started.lent.tables()), started.answer.map);
    let mut pending = Pending::default();
    for _ in 0..CALLS_OF_EACH {
        let relay = decoded(&tables);
        let call = run.next(calls, &relay, &mut pending);
        let (varied, mut explained) = (calls.varied(&tables, &relay, &call), call.clone());
        calls.lengthen(&mut explained);
        explain_and_make(reached, &varied, &explained)?;
        let outcome = relay::agree::call(&Proved, &tables, run.handed(calls, map), &call)?;
        (tables, map) = (outcome.lent.tables(), outcome.answer.map);
    }
    Ok(())
}

/// The reason must be that of the second implementation, and tell what the relay then does.
fn explain_and_make(reached: &mut Reached, tables: &Tables, call: &Call) -> Result<(), Difference> {
    let reason = agree::explain(&Proved, tables, call)?;
    reached.count(tables, call, &reason);
    truth::check(&Proved, tables, call, &reason)
}
