//! What a relay could overlook that makes the records.

use compare::relay::noticed::Overlooked;
use compare::relay::noticed::Shows::{InHistory, InRuns, OnTables};
use engine::relay::{Record, NOBODY};
use model::{partner_of, CONNECTIONS, PARTNERS};

use crate::recording::{Made, Recorded};

pub const WRONG_FIELDS: [Overlooked<Recorded>; 14] = [
    ("that a time's highest byte comes first", InHistory, |made| {
        made.with(|entry| entry.time = entry.time.swap_bytes())
    }),
    ("that a charge's highest byte comes first", InHistory, |made| {
        made.with(|entry| entry.charge = entry.charge.swap_bytes())
    }),
    ("that a time has more than 32 bits", InHistory, |made| made.with(|entry| entry.time &= u64::from(u32::MAX))),
    ("that a charge has more than 16 bits", InHistory, |made| made.with(|entry| entry.charge &= u32::from(u16::MAX))),
    ("that the time comes first", InHistory, |made| {
        let mut record = made.right();
        record.rotate_left(8);
        record
    }),
    ("that the time is the call's", InHistory, |made| {
        let clock = made.relay().map_or(0, |relay| relay.clock());
        made.with(|entry| entry.time = clock)
    }),
    ("that the connection is named", InHistory, |made| {
        made.with(|entry| entry.connection = partner_of(entry.connection.into()) as u8)
    }),
    ("whose the connection is", InHistory, |made| {
        made.with(|entry| entry.connection %= (CONNECTIONS / PARTNERS) as u8)
    }),
    ("that connections are counted from 0", InHistory, |made| made.with(|entry| entry.connection += 1)),
    ("that the caller is named", InRuns, |made| {
        let destination = made.answer.destination;
        made.with_if(destination != NOBODY, |entry| entry.connection = destination as u8)
    }),
    ("that calls are counted from 0", InHistory, |made| made.with(|entry| entry.call += 1)),
    ("that an open is call 0", InRuns, |made| made.with(|entry| entry.call = [1, 0, 2, 3][usize::from(entry.call)])),
    ("that a close is call 2", InRuns, |made| made.with(|entry| entry.call = [0, 1, 3, 2][usize::from(entry.call)])),
    ("that a message is no open", InRuns, |made| made.with(|entry| entry.call = [0, 0, 2, 3][usize::from(entry.call)])),
];

/// The record, with this type byte where it applies.
fn typed_if(made: &Made, applies: bool, kind: u8) -> Record {
    made.with_if(applies, |entry| entry.kind = kind)
}

/// The type byte of a message that this check refuses is left out.
fn untyped<const CHECK: u32>(made: &Made) -> Record {
    typed_if(made, made.number() == CHECK, 0)
}

pub const WRONG_TYPES: [Overlooked<Recorded>; 15] = [
    ("the type byte", InRuns, |made| typed_if(made, true, 0)),
    ("the type byte of refused messages", InRuns, |made| typed_if(made, !made.is_done(), 0)),
    ("the type byte with 4", InRuns, untyped::<4>),
    ("the type byte with 5", InRuns, untyped::<5>),
    ("the type byte with 6", InRuns, untyped::<6>),
    ("the type byte with 7", InRuns, untyped::<7>),
    ("the type byte with 8", InRuns, untyped::<8>),
    ("the type byte with 9", InRuns, untyped::<9>),
    ("the type byte as it came", InRuns, |made| {
        made.with_if(made.is_message(), |entry| entry.kind = entry.kind.min(14))
    }),
    ("that an empty message has none", InRuns, |made| {
        typed_if(made, made.is_message() && made.received() == 0, u8::MAX)
    }),
    ("that the type is that received", InRuns, |made| {
        made.with_if(made.is_message(), |entry| entry.kind = made.relayed.unwrap_or(entry.kind))
    }),
    ("that an open has no type", InRuns, |made| typed_if(made, made.call.name() == "open" && made.is_done(), 1)),
    ("that a refused open has no type", InRuns, |made| {
        typed_if(made, made.call.name() == "open" && !made.is_done(), 1)
    }),
    ("that a close has no type", InRuns, |made| typed_if(made, made.call.name() == "close", 9)),
    ("that a keepalive check has no type", InRuns, |made| {
        typed_if(made, made.call.name() == "keepalive" && made.answer.reply > 0, 13)
    }),
];

/// A refusal by this check has no record.
fn missing<const CHECK: u32>(made: &Made) -> Record {
    if made.number() == CHECK {
        [0; 16]
    } else {
        made.right()
    }
}

/// A call of this answer has one although it shouldn't.
fn recorded<const CHECK: u32>(made: &Made) -> Record {
    recorded_if(made, made.number() == CHECK && !made.is_start())
}

fn recorded_if(made: &Made, applies: bool) -> Record {
    if !applies {
        return made.right();
    }
    let mut record = [0; 16];
    record[..8].copy_from_slice(&made.call.now.to_be_bytes());
    record[11] = made.number() as u8;
    record
}

pub const WRONG_ANSWERS: [Overlooked<Recorded>; 15] = [
    ("the answer", InHistory, |made| made.with(|entry| entry.answer = 0)),
    ("which check refused", InRuns, |made| made.with_if(matches!(made.number(), 5..=8), |entry| entry.answer = 4)),
    ("that 9 is another one", InHistory, |made| made.with_if(made.number() == 9, |entry| entry.answer = 8)),
    ("that 1 has no record", OnTables, recorded::<1>),
    ("that 2 has no record", InRuns, recorded::<2>),
    ("that 3 has no record", InRuns, recorded::<3>),
    ("that a done start has no record", InRuns, |made| recorded_if(made, made.is_start() && made.is_done())),
    ("that a refused start has no record", OnTables, |made| recorded_if(made, made.is_start() && made.number() == 6)),
    ("the record of what is done", InHistory, missing::<0>),
    ("the record with 4", InHistory, missing::<4>),
    ("the record with 5", InHistory, missing::<5>),
    ("the record with 6", InHistory, missing::<6>),
    ("the record with 7", InHistory, missing::<7>),
    ("the record with 8", InHistory, missing::<8>),
    ("the record with 9", InHistory, missing::<9>),
];

pub const WRONG_CHARGES: [Overlooked<Recorded>; 18] = [
    ("the charge", InHistory, |made| made.charged_if(made.is_done(), 0)),
    ("that every charged call has 32", InHistory, |made| {
        made.with_if(made.is_done(), |entry| entry.charge = entry.charge.saturating_sub(32))
    }),
    ("the bytes received", InHistory, |made| {
        made.charged_if(made.is_done(), made.charge().saturating_sub(made.received()))
    }),
    ("the bytes of the reply", InHistory, |made| {
        made.charged_if(made.is_done(), made.charge().saturating_sub(made.answer.reply.into()))
    }),
    ("the bytes relayed", InHistory, |made| {
        made.charged_if(made.is_done(), made.charge().saturating_sub(made.answer.relay.into()))
    }),
    ("that what is left is no charge", InHistory, |made| {
        made.charged_if(made.is_done(), made.level().saturating_sub(made.charge()))
    }),
    ("that a session's end is free", InHistory, |made| {
        made.charged_if(made.is_done() && made.is_message() && !made.call.is_charged(), 33)
    }),
    ("that a close is free", InHistory, |made| made.charged_if(made.is_done() && made.call.name() == "close", 32)),
    ("that a keepalive check is free", InHistory, |made| {
        made.charged_if(made.is_done() && made.call.name() == "keepalive", 32)
    }),
    ("that a refused open isn't charged", InHistory, |made| {
        made.charged_if(matches!(made.number(), 4..=8) && made.call.name() == "open", 45)
    }),
    ("that a refused message isn't charged", InHistory, |made| {
        made.charged_if(matches!(made.number(), 4..=8) && made.is_message(), 32 + made.received())
    }),
    ("that one that needs a session isn't charged", InHistory, |made| {
        made.charged_if(made.number() == 8, 32 + made.received())
    }),
    ("the price with 9", InHistory, |made| made.charged_if(made.number() == 9, 0)),
    ("that the price with 9 is all of it", InHistory, |made| {
        made.charged_if(made.number() == 9, made.charge().saturating_sub(made.level()))
    }),
    ("that the price with 9 is the call's", InRuns, |made| made.charged_if(made.number() == 9, made.level() + 1)),
    ("that the level with 9 is no price", InHistory, |made| made.charged_if(made.number() == 9, made.level())),
    ("what would be sent with 9", InHistory, |made| made.charged_if(made.number() == 9, 32 + made.received())),
    ("that a charge is exact", InHistory, |made| {
        made.with_if(made.is_done() && made.call.is_charged(), |entry| entry.charge += 1)
    }),
];
