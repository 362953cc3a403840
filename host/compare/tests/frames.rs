//! Messages on a TCP stream, svsc_frame_read and svsc_frame_write: streams cut in several ways, all cuts of short ones, single
//! steps from any state, and frames written.

use compare::difference::Difference;
use compare::frames::boundary::Proved;
use compare::frames::{cuts, kinds, states, streams, writes};
use engine::frames::{DONE, REFUSED, SHORT};

const STREAMS: u64 = 100_000;
const STEPS: u64 = 100_000;
const WRITES: u64 = 20_000;

#[test]
fn streams_cut_in_several_ways() -> Result<(), Difference> {
    let reached = streams::compare(&Proved, STREAMS)?;
    reached.assert_all();
    assert!(reached.streams >= 100_000);
    Ok(())
}

#[test]
fn all_cuts_of_short_streams() -> Result<(), Difference> {
    let (steps, ends) = cuts::compare_all(&Proved)?;
    println!("{ends}{} steps", steps.number);
    let all: &[&[&str]] = &[&[kinds::BETWEEN, kinds::WITHIN, kinds::LENGTH_0, kinds::ANOTHER_TYPE]];
    ends.assert_reached(&[("cuts of streams that end", all)]);
    Ok(())
}

#[test]
fn single_steps_from_any_state() -> Result<(), Difference> {
    let reached = states::compare(&Proved, STEPS)?;
    reached.assert_all();
    assert!(reached.steps >= 100_000);
    Ok(())
}

#[test]
fn every_length_and_every_type() -> Result<(), Difference> {
    let reached = states::compare_headers(&Proved)?;
    println!("{reached}");
    assert!(reached.steps > 4 * 65_536);
    Ok(())
}

#[test]
fn frames_written_and_read_back() -> Result<(), Difference> {
    let tally = writes::compare(&Proved, WRITES)?;
    println!("{tally}");
    let [written @ .., too_long] = writes::NAMES;
    written.iter().for_each(|name| tally.assert_just(&[(name, &[DONE, SHORT])]));
    tally.assert_just(&[(too_long, &[REFUSED])]);
    Ok(())
}
