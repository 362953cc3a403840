//! What is told of a call, in words.

use engine::relay::{BUFFER, RANDOM};
use peer::grouped;
use server::{calls, CLOCK_LIMIT};

use super::call::{Action, Due, CONNECTIONS};
use super::explanation::{Decision, Explanation};

/// Types of messages that peers send, with the form of each.
const KINDS: [(u8, &str, &str); 7] = [
    (1, "version answer", "2 bytes, 1 and then 0 or 1"),
    (2, "lease request", "2 bytes, 2 and 0, or 26: 2, 1 and a cookie"),
    (4, "lease extension request", "25 bytes, 4 and a cookie"),
    (6, "establish request", "5 bytes, 6 and an id"),
    (9, "session end", "1 byte"),
    (11, "data", "at most 65,534 bytes"),
    (13, "keepalive", "1 byte"),
];

/// The name of a message's type, if peers send it.
pub fn type_name(kind: u8) -> Option<&'static str> {
    KINDS.iter().find(|(of, ..)| *of == kind).map(|(_, name, _)| *name)
}

/// What the check that stops the call means for it, beyond the refusal's own words.
pub fn meaning(Explanation { call, clock, reason, .. }: &Explanation) -> Option<String> {
    match (reason.check, &call.action) {
        (2, _) if call.time >= CLOCK_LIMIT => Some(format!("times are below {}", grouped(CLOCK_LIMIT))),
        (2, _) => Some(format!("the relay's clock is at {clock} already, and doesn't go back")),
        (3, _) => Some(format!("connections have the numbers 0 to {}", CONNECTIONS - 1)),
        (4, Action::Open { .. }) => Some("the connection isn't closed, and only a closed one can be opened".into()),
        (4, _) => Some("the connection is closed, as all are when a relay has ended or starts".into()),
        (5, action) => Some(buffers(action)),
        (6, _) => call.message().map(malformed),
        (7, _) => call.message().map(not_permitted),
        (8, _) => Some("data and the end of a session are for a connection in session, and this one is in none".into()),
        (9, _) => Some("the call costs more than the partner has at that time".into()),
        _ => None,
    }
}

/// What a call has to be lent, and what it is lent.
fn buffers(action: &Action) -> String {
    let buffer = |name: &str, least: usize, length: u64| {
        format!("the {name} buffer needs {} bytes or more and has {}", grouped(least as u64), grouped(length))
    };
    match action {
        Action::Open { reply_length } => buffer("reply", BUFFER, *reply_length),
        Action::Close { relay_length } => buffer("relay", BUFFER, *relay_length),
        Action::Keepalive { reply_length, relay_length } => {
            [buffer("reply", BUFFER, *reply_length), buffer("relay", BUFFER, *relay_length)].join("; ")
        }
        Action::Message { message, random, reply_length, relay_length } => format!(
            "there must be {RANDOM} random bytes and there are {}; {}; {}",
            grouped(random.len() as u64),
            buffer("reply", BUFFER, *reply_length),
            buffer("relay", calls::relay_length(message.len()), *relay_length),
        ),
    }
}

fn malformed(message: &[u8]) -> String {
    let Some(kind) = message.first() else { return "it is empty, and a message begins with its type".into() };
    match KINDS.iter().find(|(of, ..)| of == kind) {
        Some((_, name, form)) => format!("a message of type {kind} ({name}) has {form}"),
        None => {
            let types = KINDS.map(|(of, ..)| of.to_string()).join(", ");
            format!("it has type {kind}, and peers send types {types}")
        }
    }
}

/// Which state the connection is in follows from the type: each state permits what the other doesn't.
fn not_permitted(message: &[u8]) -> String {
    match message.first() {
        Some(1) => "the connection has answered the relay's version already".into(),
        _ => "the connection hasn't answered the relay's version yet, and nothing else may come before".into(),
    }
}

/// What a keepalive check does.
pub fn due(due: Due) -> &'static str {
    match due {
        Due::Nothing => "nothing, there is no need to ask the peer yet, or time left for its answer",
        Due::Keepalive => "a Keepalive is sent to the peer",
        Due::Close => "the connection is closed, since its peer hasn't answered a Keepalive in time",
    }
}

/// What is decided of a call that is done.
pub fn decision(decision: Decision) -> String {
    match decision {
        Decision::Lease(0) => "accepted, all four conditions hold".into(),
        Decision::Lease(condition) => format!("not accepted (condition {condition}): {}", failed(condition)),
        Decision::Establish { id, status: 0 } => format!("established (status 0) with the holder of id {id}"),
        Decision::Establish { id, status } => {
            // In the words of the peer that is told so.
            let told = peer::Error::EstablishRefused { id, status: status as u8 };
            format!("not established (status {status}); {told}")
        }
    }
}

/// A lease's condition that doesn't hold.
fn failed(condition: u32) -> &'static str {
    match condition {
        1 => "the connection holds a live lease already",
        2 => "the partner has no row left, each has a live lease; one runs on even if its holder has gone",
        3 => "the random bytes give the cookie of a live lease of the partner",
        4 => "every id that the random bytes give is that of a live lease",
        _ => "for a reason that has no number here",
    }
}
