//! The comparison notices relays that keep or read the map in another way than the papers say, and so does the monitor of the
//! map, which knows calls and answers only; and both accept one that does as they say.

mod kept;
mod mapping;
mod read;

use compare::difference::Difference;
use compare::relay::boundary::Boundary;
use compare::relay::monitor::Fault;
use compare::relay::noticed::{self, Overlooked, Shows};
use compare::relay::runs::follow_maps;
use compare::relay::{compared, read_maps};
use kept::{WRONG_BITS, WRONG_CLEARED, WRONG_KEPT, WRONG_REFUSED, WRONG_SET, WRONG_STARTS};
use mapping::{After, Mapping, RIGHT};
use read::{WRONG_COUNTS, WRONG_LOWEST, WRONG_PARTNERS, WRONG_STATES, WRONG_TABLES};

/// Follows runs of the relay by itself until the monitor of the map finds a fault.
fn follow_runs(subject: &impl Boundary) -> Result<(), Fault> {
    compared::followed(subject, follow_maps)
}

fn assert_kept_otherwise(overlooked: &[Overlooked<After>]) {
    noticed::assert_noticed(overlooked, |after| Mapping { after, ..RIGHT }, follow_runs);
}

/// No call reads a map or a table so: it must show where these are read by themselves, and at the end of runs where it can.
fn assert_read_otherwise<T: Copy>(overlooked: &[Overlooked<T>], mapping: fn(T) -> Mapping) {
    for &(what, shows, instead) in overlooked {
        read_maps::compare(&mapping(instead)).map(drop).expect_err(what);
        if shows != Shows::OnTables {
            compared::runs(&mapping(instead)).expect_err(what);
        }
        if shows == Shows::InHistory {
            follow_runs(&mapping(instead)).expect_err(what);
        }
    }
}

#[test]
fn calls_as_the_papers_say() -> Result<(), Difference> {
    compared::some_calls(&RIGHT, compared::CALLS / 5)
}

#[test]
fn runs_as_the_papers_say() -> Result<(), Difference> {
    compared::some_runs(&RIGHT, compared::RUNS / 5)
}

#[test]
fn read_as_the_papers_say() -> Result<(), Difference> {
    read_maps::compare(&RIGHT).map(drop)
}

#[test]
fn the_monitor_accepts_what_is_right() -> Result<(), Fault> {
    follow_runs(&RIGHT)
}

#[test]
fn which_bit_is_a_connection_s() {
    assert_kept_otherwise(&WRONG_BITS);
}

#[test]
fn when_a_bit_is_set() {
    assert_kept_otherwise(&WRONG_SET);
}

#[test]
fn when_a_bit_is_cleared() {
    assert_kept_otherwise(&WRONG_CLEARED);
}

#[test]
fn what_else_stays() {
    assert_kept_otherwise(&WRONG_KEPT);
}

#[test]
fn what_a_refused_call_gives_back() {
    assert_kept_otherwise(&WRONG_REFUSED);
}

#[test]
fn what_a_start_gives_back() {
    assert_kept_otherwise(&WRONG_STARTS);
}

#[test]
fn how_many_connections_a_partner_has() {
    assert_read_otherwise(&WRONG_COUNTS, |find| Mapping { find, ..RIGHT });
}

#[test]
fn which_number_is_left() {
    assert_read_otherwise(&WRONG_LOWEST, |find| Mapping { find, ..RIGHT });
}

#[test]
fn which_partners_there_are() {
    assert_read_otherwise(&WRONG_PARTNERS, |find| Mapping { find, ..RIGHT });
}

#[test]
fn which_states_are_closed() {
    assert_read_otherwise(&WRONG_STATES, |rebuild| Mapping { rebuild, ..RIGHT });
}

#[test]
fn which_table_is_read_and_how() {
    assert_read_otherwise(&WRONG_TABLES, |rebuild| Mapping { rebuild, ..RIGHT });
}
