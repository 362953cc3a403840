//! The comparison notices relays that keep the term in another way than the papers say, on tables from anywhere and in runs,
//! and so does the monitor of the term, which knows calls and answers only; and both accept one that does as they say.

mod keeping;
mod overlooked;

use compare::difference::Difference;
use compare::relay::boundary::{Boundary, Proved};
use compare::relay::compared;
use compare::relay::monitor::Fault;
use compare::relay::noticed::{self, Overlooked};
use compare::relay::runs::follow_terms;
use keeping::{Keeping, RIGHT};
use overlooked::{WRONG_ENDS, WRONG_KEPT, WRONG_NAMED, WRONG_ORDER, WRONG_READINGS, WRONG_REFUSED};

/// Follows runs of the relay by itself until the monitor of the term finds a fault.
fn follow_runs(subject: &impl Boundary) -> Result<(), Fault> {
    compared::followed(subject, follow_terms)
}

fn assert_noticed<T: Copy>(overlooked: &[Overlooked<T>], keeping: fn(T) -> Keeping) {
    noticed::assert_noticed(overlooked, keeping, follow_runs);
}

#[test]
fn calls_as_the_papers_say() -> Result<(), Difference> {
    compared::calls(&RIGHT)
}

#[test]
fn runs_as_the_papers_say() -> Result<(), Difference> {
    compared::runs(&RIGHT)
}

#[test]
fn the_monitor_accepts_what_is_right() -> Result<(), Fault> {
    follow_runs(&Proved)?;
    follow_runs(&RIGHT)
}

#[test]
fn terms_that_are_named() {
    assert_noticed(&WRONG_NAMED, |named| Keeping { named, ..RIGHT });
}

#[test]
fn what_is_checked_before_the_term() {
    assert_noticed(&WRONG_ORDER, |comes_first| Keeping { comes_first, ..RIGHT });
}

#[test]
fn what_a_refused_start_leaves() {
    assert_noticed(&WRONG_REFUSED, |refused| Keeping { refused, ..RIGHT });
}

#[test]
fn how_the_number_in_the_tables_is_read() {
    assert_noticed(&WRONG_READINGS, |ends| Keeping { ends, ..RIGHT });
}

#[test]
fn when_a_lease_ends() {
    assert_noticed(&WRONG_ENDS, |ends| Keeping { ends, ..RIGHT });
}

#[test]
fn what_other_calls_leave() {
    assert_noticed(&WRONG_KEPT, |kept| Keeping { kept, ..RIGHT });
}
