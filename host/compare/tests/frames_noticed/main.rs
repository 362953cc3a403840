//! The comparison notices readers and writers of frames that do otherwise than the papers say, and accepts those that do as
//! they say.

mod overlooked;
mod reading;
mod writing;

use compare::difference::Difference;
use compare::frames::boundary::Boundary;
use compare::frames::{cuts, states, streams, writes};
use overlooked::{Wrong, WRONG_HEADERS, WRONG_MESSAGES, WRONG_NUMBERS, WRONG_REFUSALS};
use overlooked::{WRONG_ROOMS, WRONG_STATES, WRONG_WRITES};
use reading::Reading;

/// So many streams, single steps and writes are compared, fewer than of the compiled ones.
const STREAMS: u64 = 20_000;
const STEPS: u64 = 20_000;
const WRITES: u64 = 2_000;

fn compare_streams(subject: &impl Boundary) -> Result<(), Difference> {
    streams::compare(subject, STREAMS).map(drop)
}

fn compare_steps(subject: &impl Boundary) -> Result<(), Difference> {
    states::compare(subject, STEPS)?;
    states::compare_headers(subject).map(drop)
}

/// Each subject with one of these changes must differ.
fn assert_differ<T: Boundary + Copy>(
    overlooked: &[Wrong<T>],
    right: T,
    compare: impl Fn(&T) -> Result<(), Difference>,
) {
    for (what, change) in overlooked {
        let mut rules = right;
        change(&mut rules);
        compare(&rules).expect_err(what);
    }
}

/// In streams, and in single steps.
fn assert_read_otherwise(overlooked: &[Wrong<Reading>]) {
    assert_differ(overlooked, reading::RIGHT, compare_streams);
    assert_differ(overlooked, reading::RIGHT, compare_steps);
}

#[test]
fn as_the_papers_say() -> Result<(), Difference> {
    compare_streams(&reading::RIGHT)?;
    compare_steps(&reading::RIGHT)?;
    cuts::compare_all(&reading::RIGHT)?;
    writes::compare(&writing::RIGHT, WRITES).map(drop)
}

#[test]
fn which_numbers_and_bytes() {
    assert_read_otherwise(&WRONG_NUMBERS);
}

#[test]
fn which_headers_start_a_frame() {
    assert_read_otherwise(&WRONG_HEADERS);
}

#[test]
fn what_a_refusal_leaves() {
    assert_read_otherwise(&WRONG_REFUSALS);
}

#[test]
fn what_is_taken_and_given() {
    assert_read_otherwise(&WRONG_MESSAGES);
}

#[test]
fn which_buffers_are_too_short() {
    assert_differ(&WRONG_ROOMS, reading::RIGHT, compare_steps);
}

#[test]
fn which_states_bytes_lead_to() {
    assert_differ(&WRONG_STATES, reading::RIGHT, compare_steps);
}

#[test]
fn how_frames_are_written() {
    assert_differ(&WRONG_WRITES, writing::RIGHT, |rules| writes::compare(rules, WRITES).map(drop));
}
