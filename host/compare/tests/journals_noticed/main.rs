//! The comparison notices relays that make records, or replay journals, in another way than the papers say, and accepts one that does
//! as they say; wrong records show in the journals of runs alone too, where a replay can know.

mod overlooked;
mod recording;
mod records;
mod replaying;
mod spoiled;

use compare::difference::Difference;
use compare::relay::boundary::Boundary;
use compare::relay::monitor::Fault;
use compare::relay::noticed::{self, Overlooked};
use compare::relay::replays::{self, Sources};
use compare::relay::runs::follow_journals;
use compare::relay::{compared, replay_starts};
use overlooked::{Wrong, WRONG_FREE, WRONG_FREE_TAKEN, WRONG_LEVELS, WRONG_ORDER, WRONG_PLACES, WRONG_RANGES};
use overlooked::{WRONG_STARTS, WRONG_TAKEN, WRONG_TIMES, WRONG_WRITTEN};
use recording::{Recorded, Recording};
use records::{WRONG_ANSWERS, WRONG_CHARGES, WRONG_FIELDS, WRONG_TYPES};
use replaying::Replaying;

/// Journals, damaged in all ways, in which a wrong replay must show.
const JOURNALS: u64 = 15_000;

/// Follows runs of the relay by itself until a journal doesn't replay to its allowances.
fn follow_runs(subject: &impl Boundary) -> Result<(), Fault> {
    compared::followed(subject, |subject, calls, length| follow_journals(subject, calls, length).map(drop))
}

fn assert_recorded_otherwise(overlooked: &[Overlooked<Recorded>]) {
    noticed::assert_noticed(overlooked, Recording, follow_runs);
}

#[test]
fn calls_as_the_papers_say() -> Result<(), Difference> {
    compared::some_calls(&recording::RIGHT, compared::CALLS / 5)
}

#[test]
fn runs_as_the_papers_say() -> Result<(), Difference> {
    compared::some_runs(&recording::RIGHT, compared::RUNS / 5)
}

#[test]
fn which_field_stands_where() {
    assert_recorded_otherwise(&WRONG_FIELDS);
}

#[test]
fn which_type_byte() {
    assert_recorded_otherwise(&WRONG_TYPES);
}

#[test]
fn which_calls_have_a_record() {
    assert_recorded_otherwise(&WRONG_ANSWERS);
}

#[test]
fn which_charge() {
    assert_recorded_otherwise(&WRONG_CHARGES);
}

/// The replays of damaged journals.
fn compare_damaged(rules: &Replaying, sources: &Sources) -> Result<(), Difference> {
    replays::compare(rules, sources, JOURNALS).map(drop)
}

/// Each replay with one of these changes must differ, be it the one or the plain one.
fn assert_differ<T: Copy>(
    overlooked: &[Wrong<T>],
    change: fn(&mut Replaying, T),
    compare: fn(&Replaying, &Sources) -> Result<(), Difference>,
) {
    let sources = Sources::from_runs();
    for &(what, instead) in overlooked {
        for plain in [false, true] {
            let mut rules = Replaying { plain, ..replaying::RIGHT };
            change(&mut rules, instead);
            compare(&rules, &sources).expect_err(what);
        }
    }
}

fn assert_replayed_otherwise<T: Copy>(overlooked: &[Wrong<T>], change: fn(&mut Replaying, T)) {
    assert_differ(overlooked, change, compare_damaged);
}

fn assert_started_otherwise<T: Copy>(overlooked: &[Wrong<T>], change: fn(&mut Replaying, T)) {
    assert_differ(overlooked, change, |rules, sources| replay_starts::compare(rules, sources).map(drop));
}

#[test]
fn replays_as_the_papers_say() -> Result<(), Difference> {
    let sources = Sources::from_runs();
    for plain in [false, true] {
        compare_damaged(&Replaying { plain, ..replaying::RIGHT }, &sources)?;
        replay_starts::compare(&Replaying { plain, ..replaying::RIGHT }, &sources)?;
    }
    Ok(())
}

#[test]
fn what_contradicts() {
    for overlooked in [&WRONG_RANGES[..], &WRONG_TIMES, &WRONG_FREE, &WRONG_LEVELS] {
        assert_replayed_otherwise(overlooked, |rules, (clause, instead)| rules.clauses[clause as usize] = instead);
    }
}

#[test]
fn what_a_record_leaves() {
    assert_replayed_otherwise(&WRONG_TAKEN, |rules, take| rules.take = take);
    let (what, take) = WRONG_FREE_TAKEN;
    compare_damaged(&Replaying { take, ..replaying::RIGHT }, &Sources::from_runs()).expect_err(what);
}

#[test]
fn which_place_is_named() {
    assert_replayed_otherwise(&WRONG_PLACES, |rules, change| change(rules));
}

#[test]
fn which_starts_are_refused() {
    assert_started_otherwise(&WRONG_STARTS, |rules, start| rules.start = start);
    assert_started_otherwise(&WRONG_ORDER, |rules, comes_first| rules.comes_first = comes_first);
}

#[test]
fn what_is_written() {
    assert_replayed_otherwise(&WRONG_WRITTEN, |rules, change| change(rules));
}
