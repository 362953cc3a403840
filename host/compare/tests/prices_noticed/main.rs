//! The comparison notices relays that charge in another way than the papers say, on tables from anywhere and in runs from
//! a fresh relay, and so does the monitor of the allowances, which knows calls and answers only; and both accept one that
//! charges as they say.

mod overlooked;
mod pricing;

use compare::difference::Difference;
use compare::relay::compared;
use compare::relay::monitor::Fault;
use compare::relay::noticed::{self, Overlooked};
use compare::relay::runs::{follow, Followed};
use overlooked::{
    ANOTHER_OUTCOME, FORGOTTEN, NOT_FREE, WRONG_LEVELS, WRONG_ORDER, WRONG_REFUSALS, WRONG_STORED, WRONG_SUMS,
};
use pricing::{Pricing, RIGHT};

/// Follows runs of the relay by itself until the monitor of the allowances finds a fault.
fn follow_runs(subject: &Pricing) -> Result<(), Fault> {
    let mut followed = Followed::default();
    compared::followed(subject, |subject, calls, length| follow(subject, calls, length, &mut followed))
}

fn assert_noticed<T: Copy>(overlooked: &[Overlooked<T>], pricing: fn(T) -> Pricing) {
    noticed::assert_noticed(overlooked, pricing, follow_runs);
}

#[test]
fn as_the_papers_say() -> Result<(), Difference> {
    compared::calls(&RIGHT)?;
    compared::runs(&RIGHT)
}

#[test]
fn the_monitor_accepts_what_is_right() -> Result<(), Fault> {
    follow_runs(&RIGHT)
}

#[test]
fn bytes_that_count() {
    assert_noticed(&FORGOTTEN, |price| Pricing { price, ..RIGHT });
}

#[test]
fn bytes_that_do_not_count() {
    assert_noticed(&WRONG_SUMS, |price| Pricing { price, ..RIGHT });
}

#[test]
fn the_actual_outcome() {
    assert_noticed(&ANOTHER_OUTCOME, |price| Pricing { price, ..RIGHT });
}

#[test]
fn what_is_free() {
    assert_noticed(&NOT_FREE, |price| Pricing { price, ..RIGHT });
}

#[test]
fn what_the_price_is_compared_with() {
    assert_noticed(&WRONG_LEVELS, |refuses| Pricing { refuses, ..RIGHT });
}

#[test]
fn what_is_stored() {
    assert_noticed(&WRONG_STORED, |store| Pricing { store, ..RIGHT });
}

#[test]
fn what_a_refused_call_leaves() {
    assert_noticed(&WRONG_REFUSALS, |refused| Pricing { refused, ..RIGHT });
}

#[test]
fn what_comes_before() {
    assert_noticed(&WRONG_ORDER, |comes_first| Pricing { comes_first, ..RIGHT });
}
