//! The journal: the request's examples; journals of runs, which must replay to the relay's allowances; and damaged ones, of which
//! both replays must say the same as the second implementation.

use compare::difference::Difference;
use compare::relay::boundary::{Boundary, Call, Kind, Proved};
use compare::relay::calls::Calls;
use compare::relay::journals::{self, Journal};
use compare::relay::monitor::Fault;
use compare::relay::replays::{self, Sources};
use compare::relay::runs::follow_journals;
use compare::relay::{agree, replay_starts};
use compare::{amount, forms};
use engine::relay::{Answer, Record, Replayed, ALLOWANCES, BUFFER, RANDOM};
use model::{Entry, Relay, StoredTerm, Tables, LEVEL_LIMIT, TIME_LIMIT};

/// Runs, and the calls of each.
const RUNS: u64 = 420;
const CALLS_OF_EACH: usize = 500;
/// Journals to damage, once or more often, and how often each clause must at least be the only one to apply.
const JOURNALS: u64 = 90_000;
const EACH_CLAUSE: u64 = 700;

#[test]
fn journals_of_runs_replay_to_the_relay_s_allowances() -> Result<(), Fault> {
    let mut random = amount::random();
    let pool = forms::pool(&mut random);
    let mut calls = Calls { random: &mut random, pool: &pool };
    let (mut made, mut records) = (0, 0);
    for _ in 0..amount::rounds(RUNS) {
        let journal = follow_journals(&Proved, &mut calls, CALLS_OF_EACH)?;
        made += CALLS_OF_EACH;
        records += journal.entries().count();
    }
    println!("{made} calls, {records} records");
    assert!(made >= 200_000 && records < made, "calls answered with 1 to 3 among them");
    Ok(())
}

#[test]
fn damaged_journals() -> Result<(), Difference> {
    let reached = replays::compare(&Proved, &Sources::from_runs(), JOURNALS)?;
    reached.assert_all(EACH_CLAUSE);
    assert!(reached.journals >= 100_000);
    Ok(())
}

#[test]
fn starts_refused_before_the_journal_is_looked_at() -> Result<(), Difference> {
    replay_starts::compare(&Proved, &Sources::from_runs())?.assert_all();
    Ok(())
}

/// What both replays of a journal say, which the second implementation says too, from a start at this time of the usual term.
fn replayed(start: u64, bytes: &[u8]) -> Result<Replayed, Difference> {
    let journal = Journal { start, term: 0, bytes: bytes.to_vec() };
    journals::replay(&Proved, &journal, ALLOWANCES)?;
    let mut allowances = [0; ALLOWANCES];
    let said = Proved.replay(&mut allowances, bytes, start, 0);
    assert_eq!(Proved.replay_plain(&mut allowances, bytes, start, 0), said);
    Ok(said)
}

const AGREES: Replayed = Replayed { number: 0, contradicted: 0, place: 0 };

fn contradicted_at(place: u64) -> Replayed {
    Replayed { number: 0, contradicted: 1, place }
}

fn make(tables: &mut Tables, kind: Kind) -> Result<Answer, Difference> {
    let outcome = agree::call(&Proved, tables, 0, &Call { now: 100, kind })?;
    *tables = outcome.lent.tables();
    Ok(outcome.answer)
}

/// The done open of connection 5 at 100.
const OPENED: Record = [0, 0, 0, 0, 0, 0, 0, 100, 5, 0, 0, 0, 0, 0, 0, 45];

#[test]
fn the_request_s_records() -> Result<(), Difference> {
    let mut tables = Relay::fresh(100, StoredTerm::default()).encode();
    let opened = make(&mut tables, Kind::Open { connection: 5, reply: BUFFER })?;
    assert_eq!((opened.number, opened.record), (0, OPENED));
    let (message, random) = (vec![], vec![0; RANDOM]);
    let empty = Kind::Message { connection: 5, message, random, reply: BUFFER, relay: BUFFER };
    let refused = make(&mut tables, empty)?;
    assert_eq!((refused.number, refused.record), (6, [0, 0, 0, 0, 0, 0, 0, 100, 5, 1, 0, 6, 0, 0, 0, 0]));
    for kind in [Kind::Open { connection: 64, reply: BUFFER }, Kind::Fresh { term: 0 }, Kind::Fresh { term: 1 }] {
        assert_eq!(make(&mut tables, kind)?.record, [0; 16]);
    }
    Ok(())
}

#[test]
fn the_request_s_short_journals() -> Result<(), Difference> {
    let mut allowances = [7; ALLOWANCES];
    assert_eq!(Proved.replay(&mut allowances, &[], 100, 0), AGREES);
    assert_eq!(allowances.as_slice(), Relay::fresh(100, StoredTerm(600)).encode().allowances);
    assert_eq!(replayed(100, &[])?, AGREES);
    assert_eq!(replayed(100, &[0; 16])?, contradicted_at(0));
    assert_eq!(replayed(0, &[0; 16])?, AGREES);
    assert_eq!(replayed(100, &OPENED)?, AGREES);
    assert_eq!(replayed(100, &[&OPENED[..], &[0]].concat())?, contradicted_at(16));
    assert_eq!(replayed(100, &[0; 19])?, contradicted_at(0));
    let close = Entry { time: 100, connection: 0, call: 2, kind: 0, answer: 9, charge: 0 };
    assert_eq!(replayed(100, &close.bytes())?, contradicted_at(0));
    Ok(())
}

/// Sends of connection 0, the first of all that its partner has, at 10.
fn sends(then: &[(u64, u8, u32)]) -> Vec<u8> {
    let all = [(10, 0, LEVEL_LIMIT as u32)];
    let entries = all
        .iter()
        .chain(then)
        .map(|&(time, answer, charge)| Entry { time, connection: 0, call: 1, kind: 11, answer, charge }.bytes());
    entries.flatten().collect()
}

#[test]
fn the_request_s_levels() -> Result<(), Difference> {
    let journals = [
        (sends(&[(13, 0, 196_608)]), AGREES),
        (sends(&[(13, 0, 196_609)]), contradicted_at(16)),
        (sends(&[(13, 9, 196_609)]), AGREES),
        (sends(&[(13, 9, 196_608)]), contradicted_at(16)),
        (sends(&[(13, 4, 0), (11, 0, 65_536)]), AGREES),
        (sends(&[(13, 4, 0), (11, 0, 65_537)]), contradicted_at(32)),
    ];
    for (journal, expected) in journals {
        assert_eq!(replayed(10, &journal)?, expected, "{journal:02x?}");
    }
    Ok(())
}

#[test]
fn who_spends_all_twice_is_over_the_bound() {
    let twice = |time| {
        let mut journal = Journal::new(10, 0);
        journal.bytes = sends(&[(time, 0, LEVEL_LIMIT as u32)]);
        journal
    };
    assert!(twice(13).check_bound().is_err());
    assert!(twice(14).check_bound().is_ok());
}

/// All is spent again and again, with as much time between as there is.
#[test]
fn times_far_apart() -> Result<(), Difference> {
    const RECORDS: u64 = 1_000;
    let spend = |time| Entry { time, connection: 63, call: 0, kind: 0, answer: 0, charge: LEVEL_LIMIT as u32 }.bytes();
    let apart = (TIME_LIMIT - 1) / RECORDS;
    let mut journal: Vec<u8> = (0..RECORDS).flat_map(|place| spend(apart * place)).collect();
    assert_eq!(replayed(0, &journal)?, AGREES);
    journal.extend(spend(TIME_LIMIT - 1));
    assert_eq!(replayed(0, &journal)?, AGREES);
    journal.extend(spend(TIME_LIMIT));
    assert_eq!(replayed(0, &journal)?, contradicted_at(16 * (RECORDS + 1)));
    Ok(())
}
