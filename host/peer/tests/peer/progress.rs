//! The progress line.

use std::time::Duration;

use peer::{text, Meter, Progress};

#[test]
fn bytes_percent_rate_and_time_left() {
    assert_eq!(text(0, 10, None), "0 of 10 bytes, 0 %");
    assert_eq!(text(999, 1_000, Some(0.0)), "999 of 1,000 bytes, 99 %");
    assert_eq!(text(1_000, 4_000, Some(100.0)), "1,000 of 4,000 bytes, 25 %, 100 B/s, 0:30 left");
    assert_eq!(text(0, 6_553_600, Some(65_536.0)), "0 of 6,553,600 bytes, 0 %, 65.5 kB/s, 1:40 left");
    assert_eq!(text(1, 7_200_000_001, Some(2e6)), "1 of 7,200,000,001 bytes, 0 %, 2.0 MB/s, 1:00:00 left");
    assert_eq!(text(10, 10, Some(5.0)), "10 of 10 bytes, 100 %, 5 B/s");
    assert_eq!(text(1, 3, Some(0.3)), "1 of 3 bytes, 33 %, 0 B/s, 0:07 left");
}

#[test]
fn the_edges() {
    assert_eq!(text(0, 0, None), "0 of 0 bytes, 100 %");
    let most = "18,446,744,073,709,551,615";
    assert_eq!(text(u64::MAX, u64::MAX, None), format!("{most} of {most} bytes, 100 %"));
    assert!(text(0, u64::MAX, Some(1e-9)).ends_with(" left"));
}

/// What a meter shows of these moments (milliseconds, bytes of 1,000,000) and the end.
fn shown(columns: fn() -> Option<usize>, moments: &[(u64, u64)], end: u64) -> String {
    shown_of(columns, moments.iter().map(|&(moment, done)| (moment, Progress::Moved { done, total: 1_000_000 })), end)
}

fn shown_of(columns: fn() -> Option<usize>, moments: impl Iterator<Item = (u64, Progress)>, end: u64) -> String {
    let mut shown = Vec::new();
    let mut meter = Meter::new(&mut shown, columns);
    for (moment, progress) in moments {
        meter.update_at(Duration::from_millis(moment), progress);
    }
    meter.end_at(Duration::from_millis(end));
    meter.end_at(Duration::from_millis(end));
    drop(meter);
    String::from_utf8(shown).expect("a text")
}

const NO_TERMINAL: fn() -> Option<usize> = || None;
const WIDE: fn() -> Option<usize> = || Some(70);
const NARROW: fn() -> Option<usize> = || Some(20);

#[test]
fn a_terminal_line_is_redrawn_in_place_a_few_times_per_second() {
    let first = "100,000 of 1,000,000 bytes, 10 %, 200.0 kB/s, 0:05 left";
    let last = "1,000,000 of 1,000,000 bytes, 100 %, 1.0 MB/s";
    let moments = [(0, 0), (500, 100_000), (600, 200_000), (700, 1_000_000)];
    assert_eq!(shown(WIDE, &moments, 1_000), format!("\r{first:69}\r{last:69}\n"));
}

#[test]
fn a_terminal_line_is_never_wider_than_the_terminal() {
    let moments = [(500, 100_000), (1_000, 200_000)];
    assert_eq!(shown(NARROW, &moments, 1_000), "\r100,000 of 1,000,00\r200,000 of 1,000,00\r200,000 of 1,000,00\n");
    assert_eq!(shown(|| Some(1), &[(500, 1)], 500), "\r\r\n");
    let stalled = [(500, Progress::Stalled(Duration::from_secs(60)))];
    assert_eq!(shown_of(NARROW, stalled.into_iter(), 1_000), "\rnothing has moved f\n");
}

#[test]
fn elsewhere_a_line_comes_every_few_seconds_and_at_the_end() {
    let moments = [(0, 0), (1_000, 10_000), (5_000, 50_000), (6_000, 60_000), (10_000, 100_000)];
    let expected = "50,000 of 1,000,000 bytes, 5 %, 10.0 kB/s, 1:35 left\n\
                    100,000 of 1,000,000 bytes, 10 %, 10.0 kB/s, 1:30 left\n\
                    100,000 of 1,000,000 bytes, 10 %, 10.0 kB/s\n";
    assert_eq!(shown(NO_TERMINAL, &moments, 10_000), expected);
}

#[test]
fn a_stall_is_shown_at_once() {
    let stalled = Progress::Stalled(Duration::from_millis(60_900));
    let moments = [(0, stalled), (1, Progress::Moved { done: 500, total: 1_000 }), (2, stalled)];
    let expected = "nothing has moved for 60 s\n\
                    nothing has moved for 60 s; 500 of 1,000 bytes, 50 %\n\
                    500 of 1,000 bytes, 50 %, 500 B/s\n";
    assert_eq!(shown_of(NO_TERMINAL, moments.into_iter(), 1_000), expected);
}

#[test]
fn the_rate_is_that_of_the_last_seconds() {
    let burst_then_slow = [(1_000, 500_000), (5_000, 504_000), (10_000, 509_000)];
    let last = "509,000 of 1,000,000 bytes, 50 %, 1.0 kB/s, 8:11 left\n";
    assert!(shown(NO_TERMINAL, &burst_then_slow, 10_000).contains(last));
}

#[test]
fn nothing_is_shown_of_a_transfer_that_never_began() {
    assert_eq!(shown(WIDE, &[], 1_000), "");
}
