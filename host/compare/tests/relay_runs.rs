//! Runs of hundreds of calls from a fresh start, compared call by call and followed by the monitors of the allowances, of dead
//! connections, of the term and of the map.

use compare::difference::Difference;
use compare::relay::boundary::Proved;
use compare::relay::calls::Calls;
use compare::relay::compared::{CALLS_OF_EACH, RUNS};
use compare::relay::connection_monitor::ConnectionMonitor;
use compare::relay::leases::LastHolders;
use compare::relay::map_monitor::MapMonitor;
use compare::relay::maps::disagreeing;
use compare::relay::monitor::{Entry, Fault, Monitor};
use compare::relay::reached::Reached;
use compare::relay::runs::{decoded, doubled_id, unused_bytes, Pending, Run};
use compare::relay::{agree, keepalives, leases};
use compare::{amount, forms};

/// What ends a run before its time.
#[derive(Debug)]
#[allow(dead_code, reason = "shown where a test fails")]
enum Failure {
    Differs(Difference),
    Demand(Fault),
}

impl From<Difference> for Failure {
    fn from(difference: Difference) -> Self {
        Self::Differs(difference)
    }
}

impl From<Fault> for Failure {
    fn from(fault: Fault) -> Self {
        Self::Demand(fault)
    }
}

#[test]
fn runs_of_both_relays() -> Result<(), Failure> {
    let mut random = amount::random();
    let mut reached = Reached::default();
    let pool = forms::pool(&mut random);
    let mut calls = Calls { random: &mut random, pool: &pool };
    for _ in 0..amount::rounds(RUNS) {
        compare_run(&mut calls, &mut reached)?;
    }
    let answers: [(_, &[u32]); 5] = [
        ("fresh", &[0]),
        ("open", &[0, 2, 3, 4, 5, 9]),
        ("message", &[0, 2, 3, 4, 5, 6, 7, 8, 9]),
        ("close", &[0, 2, 3, 4, 5]),
        ("keepalive", &[0, 2, 3, 4, 5]),
    ];
    reached.assert_all(&answers, &leases::IN_RUNS, &keepalives::IN_RUNS);
    reached.terms.assert_done();
    Ok(())
}

fn compare_run(calls: &mut Calls, reached: &mut Reached) -> Result<(), Failure> {
    let run = Run::any(calls);
    let (start, anything, found) = run.start(calls);
    let started = agree::call(&Proved, &anything, found, &start)?;
    reached.count(&anything, &start, &started);
    let mut monitor = Monitor::new(start.now);
    let mut connection_monitor = ConnectionMonitor::default();
    let mut term_monitor = run.term_monitor();
    let mut map_monitor = MapMonitor::default();
    let mut last_holders = LastHolders::default();
    let (mut tables, mut map) = (run.first_tables(calls, started.lent.tables()), started.answer.map);
    let (mut pending, mut journal) = (Pending::default(), run.journal());
    for _ in 0..CALLS_OF_EACH {
        let relay = decoded(&tables);
        let call = run.next(calls, &relay, &mut pending);
        map = run.handed(calls, map);
        let disagreed = disagreeing(&relay, map);
        let outcome = agree::call(&Proved, &tables, map, &call)?;
        reached.count(&tables, &call, &outcome);
        reached.count_return(&relay, &call, &outcome, &last_holders);
        monitor.record(&Entry::new(&relay, &call, outcome.answer))?;
        connection_monitor.record(&call, &outcome.answer)?;
        term_monitor.record(&call, &outcome)?;
        map_monitor.record(&call, &outcome)?;
        journal.note(&outcome.answer);
        (tables, map) = (outcome.lent.tables(), outcome.answer.map);
        let relay = decoded(&tables);
        last_holders.note(&relay);
        assert_eq!(doubled_id(&relay), None, "the id of two live rows, after {call:?}");
        assert_eq!(unused_bytes(&tables), None, "a connection's unused bytes, after {call:?}");
        assert_eq!(disagreeing(&relay, map) & !disagreed, 0, "bits that disagree only since {call:?}");
        monitor.check_levels(&relay)?;
        pending.note(calls, call, &outcome.answer);
    }
    run.compare_end(&Proved, &tables, map, &journal)?;
    journal.check_bound()?;
    map_monitor.check_end(&Proved, &tables.connections)?;
    Ok(())
}
