//! What a relay could overlook that judges what is due for a connection.

use model::{Due, TIME_LIMIT};

use crate::finding::{due, Judge, Made, RIGHT};
use crate::Overlooked;

pub const WRONG_LIMITS: [Overlooked<Judge>; 12] = [
    ("that 59 seconds are too few", true, |made| due(made.is_unanswered(), made.since_asked() + 1, made.since_sent())),
    ("that 60 seconds are enough", true, |made| {
        due(made.is_unanswered(), made.since_asked().saturating_sub(1), made.since_sent())
    }),
    ("that 29 seconds are too few", true, |made| due(made.is_unanswered(), made.since_asked(), made.since_sent() + 1)),
    ("that 30 seconds are enough", true, |made| {
        due(made.is_unanswered(), made.since_asked(), made.since_sent().saturating_sub(1))
    }),
    ("that 60 seconds are meant and not 30", true, |made| {
        due(made.is_unanswered(), 2 * made.since_asked(), made.since_sent())
    }),
    ("that 30 seconds are meant and not 60", true, |made| {
        due(made.is_unanswered(), made.since_asked(), made.since_sent() / 2)
    }),
    ("when it was asked", true, |made| due(made.is_unanswered(), made.since_sent(), made.since_sent())),
    ("when it was sent something", true, |made| due(made.is_unanswered(), made.since_asked(), made.since_asked())),
    ("that a later message doesn't prolong its time", true, |made| {
        due(made.is_unanswered(), made.since_asked().min(made.since_sent()), made.since_sent())
    }),
    ("that an earlier keepalive doesn't shorten its time", true, |made| {
        due(made.is_unanswered(), made.since_asked(), made.since_sent().max(made.since_asked()))
    }),
    ("that never is long ago, if it was sent nothing", false, |made| match made.record().sent {
        0 => due(made.is_unanswered(), made.since_asked(), 0),
        _ => (RIGHT.judge)(made),
    }),
    ("that never is long ago, if it was not asked", false, |made| match made.record().asked {
        0 => due(made.is_unanswered(), 0, made.since_sent()),
        _ => (RIGHT.judge)(made),
    }),
];

pub const WRONG_BYTES: [Overlooked<Judge>; 8] = [
    ("that byte 2 may be 2", false, |made| with_byte_2(made, [1, 2].contains(&made.record().unanswered))),
    ("that byte 2 may be 255", false, |made| with_byte_2(made, [1, 255].contains(&made.record().unanswered))),
    ("that byte 2 is 1 or says nothing", false, |made| with_byte_2(made, made.record().unanswered != 0)),
    ("the high bits of byte 2", false, |made| with_byte_2(made, made.record().unanswered & 1 == 1)),
    ("that none may be unanswered", true, |made| with_byte_2(made, true)),
    ("that one may be unanswered", true, |made| with_byte_2(made, false)),
    ("that a keepalive isn't repeated", true, |made| match (RIGHT.judge)(made) {
        Due::Nothing if made.since_sent() >= 30 => Due::Ask,
        due => due,
    }),
    ("that a keepalive may be answered", true, |made| match made.since_asked() {
        60.. if made.record().asked > 0 => Due::Close,
        _ => (RIGHT.judge)(made),
    }),
];

fn with_byte_2(made: &Made, unanswered: bool) -> Due {
    due(unanswered, made.since_asked(), made.since_sent())
}

pub const WRONG_TIMES: [Overlooked<Judge>; 10] = [
    ("that it may be asked later", false, |made| with_times(made, wraps, right)),
    ("that it may be sent something later", false, |made| with_times(made, right, wraps)),
    ("that it may be asked later, in five bytes", false, |made| with_times(made, wraps_in_five_bytes, right)),
    ("that it may be sent something later, in five bytes", false, |made| with_times(made, right, wraps_in_five_bytes)),
    ("whether it was asked before or later", false, |made| with_times(made, u64::abs_diff, right)),
    ("whether it was sent something before or later", false, |made| with_times(made, right, u64::abs_diff)),
    ("byte 9", true, |made| with_times(made, without_first_byte, right)),
    ("byte 4", true, |made| with_times(made, right, without_first_byte)),
    ("the order of bytes 9 to 13", true, |made| with_times(made, from_the_last_byte, right)),
    ("the order of bytes 4 to 8", true, |made| with_times(made, right, from_the_last_byte)),
];

/// Seconds from the stored time to the present one.
type Passed = fn(u64, u64) -> u64;

fn with_times(made: &Made, since_asked: Passed, since_sent: Passed) -> Due {
    let record = made.record();
    due(made.is_unanswered(), since_asked(made.now(), record.asked), since_sent(made.now(), record.sent))
}

fn right(now: u64, time: u64) -> u64 {
    now.saturating_sub(time)
}

fn wraps(now: u64, time: u64) -> u64 {
    now.wrapping_sub(time)
}

fn wraps_in_five_bytes(now: u64, time: u64) -> u64 {
    now.wrapping_sub(time) % TIME_LIMIT
}

fn without_first_byte(now: u64, time: u64) -> u64 {
    right(now, time % (1 << 32))
}

fn from_the_last_byte(now: u64, time: u64) -> u64 {
    right(now, time.swap_bytes() >> 24)
}

/// Whose connections are not found, or the only ones that are.
pub const WRONG_STATES: [Overlooked<Judge>; 10] = [
    ("to close any", true, |made| unless(made, Due::Close, true)),
    ("to ask any", true, |made| unless(made, Due::Ask, true)),
    ("to close awaiting ones", true, |made| unless(made, Due::Close, made.is_awaiting())),
    ("to close open ones", true, |made| unless(made, Due::Close, !made.is_awaiting())),
    ("to close those in a session", true, |made| unless(made, Due::Close, made.in_session())),
    ("to close those in none", true, |made| unless(made, Due::Close, !made.in_session())),
    ("to ask awaiting ones", true, |made| unless(made, Due::Ask, made.is_awaiting())),
    ("to ask open ones", true, |made| unless(made, Due::Ask, !made.is_awaiting())),
    ("to ask those in a session", true, |made| unless(made, Due::Ask, made.in_session())),
    ("to ask those in none", true, |made| unless(made, Due::Ask, !made.in_session())),
];

/// As the papers say, but nothing instead of this where that applies.
fn unless(made: &Made, not: Due, applies: bool) -> Due {
    match (RIGHT.judge)(made) {
        due if due == not && applies => Due::Nothing,
        due => due,
    }
}
