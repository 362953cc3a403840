//! Counts of what concerns keepalives: outcomes of the keepalive call with each kind of record, messages that answer one or
//! are refused, and messages sent.

use model::{Connection, Due, Relay, Request, ANSWER_TIMEOUT, KEEPALIVE_TIMEOUT};

use super::agree::Outcome;
use super::boundary::{Call, Kind};
use crate::forms::{type_name, TYPES};
use crate::tally::{Found, Outcomes};

/// The names of [`unanswered`].
const NONE_UNANSWERED: [&str; 4] = ["byte 2 is 0", "byte 2 is 2", "byte 2 is 255", "byte 2 is another"];
const UNANSWERED: &str = "byte 2 is 1";

/// The names of [`sent`]: those with which a connection is not asked, and with which it is.
const NOT_LONG_SENT: [&str; 4] = ["sent later", "sent now", "sent 1-28 ago", "sent 29 ago"];
const LONG_SENT: [&str; 3] = ["sent 30 ago", "sent 31 ago", "sent longer ago"];

/// The names of [`asked`]: those with which a connection is not closed, and with which it is.
const NOT_LONG_ASKED: [&str; 4] = ["asked later", "asked now", "asked 1-58 ago", "asked 59 ago"];
const LONG_ASKED: [&str; 3] = ["asked 60 ago", "asked 61 ago", "asked longer ago"];

/// What decides an outcome of the call, and beside it each kind of what doesn't.
const CLOSED: &[&[&str]] = &[&[UNANSWERED], &LONG_ASKED, &NOT_LONG_SENT, &LONG_SENT];
const NOT_YET_CLOSED: &[&[&str]] = &[&[UNANSWERED], &NOT_LONG_ASKED, &NOT_LONG_SENT, &LONG_SENT];
const ASKED: &[&[&str]] = &[&NONE_UNANSWERED, &LONG_SENT, &NOT_LONG_ASKED, &LONG_ASKED];
const NOT_YET_ASKED: &[&[&str]] = &[&NONE_UNANSWERED, &NOT_LONG_SENT, &NOT_LONG_ASKED, &LONG_ASKED];

/// The types of messages that peers send, and those that are sent to them.
const FROM_PEERS: [&str; 7] = [TYPES[1], TYPES[2], TYPES[4], TYPES[6], TYPES[9], TYPES[11], TYPES[13]];
const WITHOUT_REPLY: [&str; 4] = [TYPES[1], TYPES[9], TYPES[11], TYPES[13]];
const REPLIES: [&str; 5] = [TYPES[0], TYPES[3], TYPES[5], TYPES[7], TYPES[13]];
const RELAYED: [&str; 3] = [TYPES[8], TYPES[10], TYPES[12]];

/// The checks that may refuse a message, by their numbers.
const CHECKS: [&str; 10] = ["", "1", "2", "3", "4", "5", "6", "7", "8", "9"];

/// What calls on tables from anywhere must have reached.
pub const CALLS_ON_ANY_TABLES: [Outcomes; 8] = [
    ("closed in session", CLOSED),
    ("closed, no session", CLOSED),
    ("closed, awaiting", CLOSED),
    ("asked in session", ASKED),
    ("asked, no session", ASKED),
    ("asked, awaiting", ASKED),
    ("not yet closed", NOT_YET_CLOSED),
    ("not yet asked", NOT_YET_ASKED),
];

/// What messages there must have reached, and what is sent.
pub const SENT_ON_ANY_TABLES: [Outcomes; 7] = [
    ("answered by", &[&FROM_PEERS]),
    ("another byte 2 cleared by", &[&FROM_PEERS]),
    ("unanswered, refused with", &[&["2", "5", "6", "7", "8", "9"]]),
    ("replied", &[&REPLIES]),
    ("relayed", &[&RELAYED]),
    ("session ended by", &[&["message", "close", "keepalive"]]),
    ("nothing sent to the sender of", &[&WITHOUT_REPLY]),
];

/// What runs must have reached: no times to come, no byte 2 but 0 and 1, and of times that don't decide only some.
pub const IN_RUNS: [Outcomes; 14] = [
    ("closed in session", &[&LONG_ASKED, &[NOT_LONG_SENT[2], LONG_SENT[2]]]),
    ("closed, no session", &[&LONG_ASKED, &[LONG_SENT[2]]]),
    ("closed, awaiting", &[&LONG_ASKED, &[LONG_SENT[2]]]),
    ("asked in session", &[&LONG_SENT, &[NOT_LONG_ASKED[2], LONG_ASKED[2]]]),
    ("asked, no session", &[&LONG_SENT, &[NOT_LONG_ASKED[2], LONG_ASKED[2]]]),
    ("asked, awaiting", &[&LONG_SENT]),
    ("not yet closed", &[NOT_LONG_ASKED.split_at(1).1, &[NOT_LONG_SENT[2], LONG_SENT[2]]]),
    ("not yet asked", &[NOT_LONG_SENT.split_at(1).1, &[NOT_LONG_ASKED[2], LONG_ASKED[2]]]),
    ("answered by", &[&FROM_PEERS]),
    ("unanswered, refused with", &[&["2", "5", "6", "7", "8", "9"]]),
    ("replied", &[&REPLIES]),
    ("relayed", &[&RELAYED]),
    ("session ended by", &[&["message", "close", "keepalive"]]),
    ("nothing sent to the sender of", &[&WITHOUT_REPLY]),
];

/// Counts a call for this connection, on the relay as it was before.
pub fn count(found: &mut Found, relay: &Relay, call: &Call, caller: usize, outcome: &Outcome) {
    match &call.kind {
        Kind::Keepalive { .. } if outcome.answer.number == 0 => count_call(found, relay, caller, call.now),
        Kind::Message { message, .. } => count_message(found, &relay.connections[caller], message, call.now, outcome),
        _ => {}
    }
    count_sent(found, relay, call, caller, outcome);
}

fn count_call(found: &mut Found, relay: &Relay, caller: usize, now: u64) {
    let record = &relay.connections[caller];
    let states = match record.due(now) {
        Due::Close => ["closed in session", "closed, no session", "closed, awaiting"],
        Due::Ask => ["asked in session", "asked, no session", "asked, awaiting"],
        Due::Nothing if record.is_unanswered() => ["not yet closed"; 3],
        Due::Nothing => ["not yet asked"; 3],
    };
    let state = match relay.in_session_with(caller) {
        Some(_) => 0,
        None if relay.is_open(caller) => 1,
        None => 2,
    };
    for kind in [unanswered(record), sent(record, now), asked(record, now)] {
        found.add(states[state], kind);
    }
}

/// A message that answers a keepalive, or would if it weren't refused; and one whose sender is sent nothing, though that
/// would show.
fn count_message(found: &mut Found, record: &Connection, message: &[u8], now: u64, outcome: &Outcome) {
    match (outcome.answer.number, record.unanswered) {
        (0, 0) => {}
        (0, 1) => found.add("answered by", type_name(message)),
        (0, _) => found.add("another byte 2 cleared by", type_name(message)),
        (number, 1) => found.add("unanswered, refused with", CHECKS[number as usize]),
        _ => {}
    }
    let refuses_version = matches!(Request::decode(message), Some(Request::VersionAnswer { ok: false }));
    if outcome.answer.number == 0 && outcome.reply().is_empty() && record.sent != now && !refuses_version {
        found.add("nothing sent to the sender of", type_name(message));
    }
}

/// What is sent where the time of the last message was another one.
fn count_sent(found: &mut Found, relay: &Relay, call: &Call, caller: usize, outcome: &Outcome) {
    let is_new = |connection: usize| relay.connections[connection].sent != call.now;
    if !outcome.reply().is_empty() && is_new(caller) {
        found.add("replied", type_name(outcome.reply()));
    }
    if !outcome.relay().is_empty() && is_new(outcome.answer.destination as usize) {
        found.add("relayed", type_name(outcome.relay()));
        if outcome.relay() == [10] {
            found.add("session ended by", call.name());
        }
    }
}

fn unanswered(record: &Connection) -> &'static str {
    match record.unanswered {
        0 => NONE_UNANSWERED[0],
        1 => UNANSWERED,
        2 => NONE_UNANSWERED[1],
        255 => NONE_UNANSWERED[2],
        _ => NONE_UNANSWERED[3],
    }
}

fn sent(record: &Connection, now: u64) -> &'static str {
    kind_of_time(record.sent, now, KEEPALIVE_TIMEOUT, NOT_LONG_SENT, LONG_SENT)
}

fn asked(record: &Connection, now: u64) -> &'static str {
    kind_of_time(record.asked, now, ANSWER_TIMEOUT, NOT_LONG_ASKED, LONG_ASKED)
}

/// How long ago a time is, compared with the limit.
fn kind_of_time(time: u64, now: u64, limit: u64, not_long: [&'static str; 4], long: [&'static str; 3]) -> &'static str {
    match now.checked_sub(time) {
        None => not_long[0],
        Some(0) => not_long[1],
        Some(ago) if ago < limit - 1 => not_long[2],
        Some(ago) if ago < limit => not_long[3],
        Some(ago) if ago == limit => long[0],
        Some(ago) if ago == limit + 1 => long[1],
        Some(_) => long[2],
    }
}
