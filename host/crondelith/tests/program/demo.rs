//! The demonstration.

use std::time::Duration;

use crate::support::{program, Running};

/// Twice 256 KiB less the allowance of 262,144, at 65,536 a second, in seconds as the demonstration rounds them.
const ALLOWED: f64 = 3.9;
/// What the flood may add.
const HARM: f64 = 1.5;

#[test]
fn the_demonstration_shows_that_the_flood_does_no_harm() {
    let ended = Running::start(&mut program(&["demo"])).end_within(Duration::from_secs(30));
    assert_eq!(ended.status, Some(0), "{}", ended.stderr);
    let printed = ended.stdout;
    let times = printed.split("The file arrived unchanged both times: in ").nth(1).expect("the times");
    let times: Vec<f64> = times.split(' ').filter_map(|word| word.parse().ok()).collect();
    let [alone, flooded] = times[..] else { panic!("two times: {printed}") };
    assert!(alone >= ALLOWED && flooded >= ALLOWED, "faster than the allowance permits: {printed}");
    assert!(flooded <= alone + HARM, "the flood does harm: {printed}");
    // The flood has done all that its allowance pays for, and has been made to wait.
    let flood = printed.lines().find_map(|line| line.strip_prefix("with the flood: the flood")).expect("its row");
    let numbers: Vec<u32> = flood.split_whitespace().filter_map(|word| word.replace(',', "").parse().ok()).collect();
    assert!(numbers[0] > 10_000 && numbers[1] >= 3, "{printed}");
}
