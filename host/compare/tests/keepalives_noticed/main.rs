//! The comparison notices relays that find dead connections in another way than the papers say, on tables from anywhere and
//! in runs from a fresh relay; and it accepts one that does as they say.

mod done;
mod finding;
mod judged;
mod noted;

use compare::difference::Difference;
use compare::relay::boundary::{Boundary, Proved, Second};
use compare::relay::compared;
use compare::relay::monitor::Fault;
use compare::relay::runs::follow_connections;
use done::{AFTER_A_REFUSAL, WRONG_ASKED, WRONG_CLOSED, WRONG_COSTS, WRONG_ELSEWHERE};
use finding::{Finding, RIGHT};
use judged::{WRONG_BYTES, WRONG_LIMITS, WRONG_STATES, WRONG_TIMES};
use noted::{FORGOTTEN, MISTAKEN, WRONG_ANSWERS};

/// Something that a relay overlooks, whether runs from a fresh relay often come to where that shows, and what it does
/// instead.
type Overlooked<T> = (&'static str, bool, T);

/// Each relay that overlooks one of these must differ from the right one in single calls, and in runs where it can.
fn assert_noticed<T: Copy>(overlooked: &[Overlooked<T>], finding: fn(T) -> Finding) {
    for &(what, in_runs, instead) in overlooked {
        compared::calls(&finding(instead)).expect_err(what);
        if in_runs {
            compared::runs(&finding(instead)).expect_err(what);
        }
    }
}

/// Follows runs of the relay by itself until the monitor of dead connections, which knows calls and answers only, finds a
/// fault.
fn follow_runs(subject: &impl Boundary) -> Result<(), Fault> {
    compared::followed(subject, follow_connections)
}

/// The monitor alone must notice those that runs come to.
fn assert_found<T: Copy>(overlooked: &[Overlooked<T>], finding: fn(T) -> Finding) {
    for &(what, _, instead) in overlooked.iter().filter(|(_, in_runs, _)| *in_runs) {
        follow_runs(&finding(instead)).expect_err(what);
    }
}

#[test]
fn the_monitor_accepts_what_is_right() -> Result<(), Fault> {
    follow_runs(&Proved)?;
    follow_runs(&Second)?;
    follow_runs(&RIGHT)
}

#[test]
fn the_monitor_alone_notices_wrong_answers() {
    assert_found(&WRONG_LIMITS, |judge| Finding { judge, ..RIGHT });
    assert_found(&WRONG_BYTES, |judge| Finding { judge, ..RIGHT });
    assert_found(&WRONG_STATES, |judge| Finding { judge, ..RIGHT });
    assert_found(&FORGOTTEN, |stamp| Finding { stamp, ..RIGHT });
    assert_found(&WRONG_ANSWERS, |clear| Finding { clear, ..RIGHT });
}

#[test]
fn as_the_papers_say() -> Result<(), Difference> {
    compared::calls(&RIGHT)?;
    compared::runs(&RIGHT)
}

#[test]
fn when_something_is_due() {
    assert_noticed(&WRONG_LIMITS, |judge| Finding { judge, ..RIGHT });
}

#[test]
fn whether_a_keepalive_is_unanswered() {
    assert_noticed(&WRONG_BYTES, |judge| Finding { judge, ..RIGHT });
}

#[test]
fn how_times_are_read() {
    assert_noticed(&WRONG_TIMES, |judge| Finding { judge, ..RIGHT });
}

#[test]
fn for_whom_something_is_due() {
    assert_noticed(&WRONG_STATES, |judge| Finding { judge, ..RIGHT });
}

#[test]
fn what_is_sent_to_a_connection() {
    assert_noticed(&FORGOTTEN, |stamp| Finding { stamp, ..RIGHT });
}

#[test]
fn what_is_not_sent_to_a_connection() {
    assert_noticed(&MISTAKEN, |stamp| Finding { stamp, ..RIGHT });
}

#[test]
fn what_answers_a_keepalive() {
    assert_noticed(&WRONG_ANSWERS, |clear| Finding { clear, ..RIGHT });
}

#[test]
fn what_a_refused_call_leaves() {
    assert_noticed(&AFTER_A_REFUSAL, |spoil| Finding { spoil, ..RIGHT });
}

#[test]
fn how_a_dead_connection_is_closed() {
    assert_noticed(&WRONG_CLOSED, |spoil| Finding { spoil, ..RIGHT });
}

#[test]
fn how_a_connection_is_asked() {
    assert_noticed(&WRONG_ASKED, |spoil| Finding { spoil, ..RIGHT });
}

#[test]
fn what_the_call_costs_and_leaves() {
    assert_noticed(&WRONG_COSTS, |spoil| Finding { spoil, ..RIGHT });
}

#[test]
fn what_other_calls_leave() {
    assert_noticed(&WRONG_ELSEWHERE, |spoil| Finding { spoil, ..RIGHT });
}
