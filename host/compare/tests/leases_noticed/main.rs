//! The comparison notices relays that lease in another way than the papers say, on tables from anywhere and in runs
//! from a fresh relay; and it accepts one that does as they say.

mod leasing;
mod overlooked;

use compare::difference::Difference;
use compare::relay::calls::Calls;
use compare::relay::compared::{self, CALLS_OF_EACH, RUNS};
use compare::relay::runs::{decoded, doubled_id, make, Pending, Run};
use compare::{amount, forms};
use leasing::{Leasing, RIGHT};
use model::Part;
use overlooked::{Overlooked, SPOILED_RENEWALS, WRONG_ACCEPTED, WRONG_NEW, WRONG_RENEWABLE, WRONG_RENEWED};

/// Whether one of as many runs of this relay by itself comes to two live rows with one id.
fn doubles_an_id(subject: &Leasing) -> bool {
    let mut random = amount::random();
    let pool = forms::pool(&mut random);
    let mut calls = Calls { random: &mut random, pool: &pool };
    (0..amount::rounds(RUNS)).any(|_| run_doubles_an_id(subject, &mut calls))
}

fn run_doubles_an_id(subject: &Leasing, calls: &mut Calls) -> bool {
    let run = Run::any(calls);
    let (start, anything, found) = run.start(calls);
    let started = make(subject, &anything, found, &start);
    let (mut tables, mut map) = (run.first_tables(calls, started.lent.tables()), started.answer.map);
    let mut pending = Pending::default();
    (0..CALLS_OF_EACH).any(|_| {
        let call = run.next(calls, &decoded(&tables), &mut pending);
        let outcome = make(subject, &tables, run.handed(calls, map), &call);
        (tables, map) = (outcome.lent.tables(), outcome.answer.map);
        doubled_id(&decoded(&tables)).is_some()
    })
}

/// Each relay that overlooks one of these must differ from the right one in single calls, and in runs where it can.
fn assert_noticed<T: Copy>(overlooked: &[Overlooked<T>], leasing: fn(T) -> Leasing) {
    for &(what, in_runs, instead) in overlooked {
        compared::calls(&leasing(instead)).expect_err(what);
        if in_runs {
            compared::runs(&leasing(instead)).expect_err(what);
        }
    }
}

#[test]
fn as_the_papers_say() -> Result<(), Difference> {
    compared::calls(&RIGHT)?;
    compared::runs(&RIGHT)
}

#[test]
fn live_rows_with_one_id() {
    assert!(!doubles_an_id(&RIGHT));
    assert!(doubles_an_id(&Leasing { renewable: |asked, row| asked.lacks_at_most(row, Part::Id), ..RIGHT }));
}

#[test]
fn rows_that_can_be_renewed() {
    assert_noticed(&WRONG_RENEWABLE, |renewable| Leasing { renewable, ..RIGHT });
}

#[test]
fn the_row_that_is_renewed() {
    assert_noticed(&WRONG_RENEWED, |renewed| Leasing { renewed, ..RIGHT });
}

#[test]
fn whether_the_lease_is_accepted() {
    assert_noticed(&WRONG_ACCEPTED, |accepted| Leasing { accepted, ..RIGHT });
}

#[test]
fn the_row_of_a_new_lease() {
    assert_noticed(&WRONG_NEW, |new| Leasing { new, ..RIGHT });
}

#[test]
fn what_a_renewal_writes() {
    assert_noticed(&SPOILED_RENEWALS, |spoil| Leasing { spoil, ..RIGHT });
}
