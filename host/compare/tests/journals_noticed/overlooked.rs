//! What a replay could overlook.

use engine::relay::{ALLOWANCES, RECORD};
use model::{Contradiction, LEVEL_LIMIT, PARTNERS, REFILL, TIME_LIMIT};

use crate::replaying::{levels_written, written, Clause, ComesFirst, Level, Replaying, Seen, Start, State};

/// Something that a replay overlooks.
pub type Wrong<T> = (&'static str, T);

/// Instead of the clause.
pub type Otherwise = (Contradiction, Clause);

pub const WRONG_RANGES: [Wrong<Otherwise>; 19] = [
    ("that there is no connection 64", (Contradiction::Connection, |seen| seen.entry.connection > 64)),
    ("that there is a connection 63", (Contradiction::Connection, |seen| seen.entry.connection >= 63)),
    ("that connections are out of range", (Contradiction::Connection, |_| false)),
    (
        "that connections are out of range if refused",
        (Contradiction::Connection, |seen| seen.entry.connection >= 64 && seen.is_done()),
    ),
    ("that there is no call 4", (Contradiction::Call, |seen| seen.entry.call > 4)),
    ("that there is a call 3", (Contradiction::Call, |seen| seen.entry.call > 2)),
    ("that calls are out of range", (Contradiction::Call, |_| false)),
    ("that 1 has no record", (Contradiction::Answer, |seen| matches!(seen.entry.answer, 2 | 3 | 10..))),
    ("that 3 has no record", (Contradiction::Answer, |seen| matches!(seen.entry.answer, 1 | 2 | 10..))),
    ("that 4 has a record", (Contradiction::Answer, |seen| matches!(seen.entry.answer, 1..=4 | 10..))),
    ("that 9 has a record", (Contradiction::Answer, |seen| matches!(seen.entry.answer, 1..=3 | 9..))),
    ("that there is no answer 10", (Contradiction::Answer, |seen| matches!(seen.entry.answer, 1..=3 | 11..))),
    ("that answers are out of range", (Contradiction::Answer, |seen| matches!(seen.entry.answer, 1..=3))),
    ("that 2^40 is too late", (Contradiction::TooLate, |seen| seen.entry.time > TIME_LIMIT)),
    ("that 2^40 - 1 isn't too late", (Contradiction::TooLate, |seen| seen.entry.time >= TIME_LIMIT - 1)),
    ("that times are too late", (Contradiction::TooLate, |_| false)),
    (
        "that refused calls are too late",
        (Contradiction::TooLate, |seen| seen.entry.time >= TIME_LIMIT && seen.is_done()),
    ),
    (
        "that an open answered with 7 passes",
        (Contradiction::Answer, |seen| {
            matches!(seen.entry.answer, 1..=3 | 10..) || seen.entry.call == 0 && seen.entry.answer == 7
        }),
    ),
    (
        "that an open with a type byte passes",
        (Contradiction::Call, |seen| seen.entry.call > 3 || seen.entry.call == 0 && seen.entry.kind != 0),
    ),
];

pub const WRONG_TIMES: [Wrong<Otherwise>; 6] = [
    ("that an equal time passes", (Contradiction::BelowLatest, |seen| seen.entry.time <= seen.state.clock)),
    ("that times don't go back", (Contradiction::BelowLatest, |_| false)),
    (
        "that refused calls' times don't go back",
        (Contradiction::BelowLatest, |seen| seen.is_done() && seen.entry.time < seen.state.clock),
    ),
    (
        "that free calls' times don't go back",
        (Contradiction::BelowLatest, |seen| seen.is_charged() && seen.entry.time < seen.state.clock),
    ),
    ("that the latest is a done one", (Contradiction::BelowLatest, |seen| seen.entry.time < seen.state.seen)),
    ("that there is one later than the start", (Contradiction::BelowLatest, |seen| seen.entry.time < seen.state.start)),
];

pub const WRONG_FREE: [Wrong<Otherwise>; 11] = [
    ("that free calls have no charge", (Contradiction::ChargeForFree, |_| false)),
    (
        "that a session's end is free",
        (Contradiction::ChargeForFree, |seen| seen.is_charged() && matches!(seen.entry.call, 2 | 3)),
    ),
    (
        "that a close is free",
        (Contradiction::ChargeForFree, |seen| seen.is_charged() && seen.is_free() && seen.entry.call != 2),
    ),
    (
        "that a keepalive check is free",
        (Contradiction::ChargeForFree, |seen| seen.is_charged() && seen.is_free() && seen.entry.call != 3),
    ),
    (
        "that an open's type byte isn't looked at",
        (Contradiction::ChargeForFree, |seen| seen.is_charged() && (seen.is_free() || seen.entry.kind == 9)),
    ),
    (
        "that a close's type byte isn't looked at",
        (Contradiction::ChargeForFree, |seen| {
            seen.is_charged() && seen.is_free() && (seen.entry.call == 1 || seen.entry.kind == 0)
        }),
    ),
    (
        "that a free call refused with 9 has none",
        (Contradiction::ChargeForFree, |seen| seen.is_charged() && seen.is_free() && seen.is_done()),
    ),
    (
        "that a Keepalive isn't free",
        (Contradiction::ChargeForFree, |seen| {
            seen.is_charged() && (seen.is_free() || seen.entry.call == 1 && seen.entry.kind == 11)
        }),
    ),
    ("that a refused call has none", (Contradiction::ChargeWithAnswer, |_| false)),
    (
        "that one refused with 8 has none",
        (Contradiction::ChargeWithAnswer, |seen| seen.is_charged() && matches!(seen.entry.answer, 4..=7)),
    ),
    ("that one refused with 9 has one", (Contradiction::ChargeWithAnswer, |seen| seen.is_charged() && !seen.is_done())),
];

pub const WRONG_LEVELS: [Wrong<Otherwise>; 14] = [
    (
        "that equal charge and level pass",
        (Contradiction::AboveLevel, |seen| seen.is_done() && seen.is_charged() && seen.charge() >= seen.level()),
    ),
    ("that charges are above the level", (Contradiction::AboveLevel, |_| false)),
    ("that one more is above", (Contradiction::AboveLevel, |seen| seen.is_done() && seen.charge() > seen.level() + 1)),
    (
        "that levels are refilled",
        (Contradiction::AboveLevel, |seen| seen.is_done() && seen.charge() > seen.stored().level),
    ),
    (
        "that levels have a limit",
        (Contradiction::AboveLevel, |seen| seen.is_done() && seen.charge() > seen.stored().uncut(seen.entry.time)),
    ),
    (
        "that a level is that at the record's time",
        (Contradiction::AboveLevel, |seen| seen.is_done() && seen.charge() > seen.stored().at(seen.state.clock)),
    ),
    (
        "whose level it is",
        (Contradiction::AboveLevel, |seen| {
            let others = seen.state.partners[(seen.partner() + 1) % PARTNERS];
            seen.is_done() && seen.charge() > others.at(seen.entry.time)
        }),
    ),
    (
        "that a second gives 65,536",
        (Contradiction::AboveLevel, |seen| {
            let seconds = seen.entry.time.saturating_sub(seen.stored().updated).min(8);
            seen.is_done() && seen.charge() > LEVEL_LIMIT.min(seen.stored().level + (REFILL - 1) * seconds)
        }),
    ),
    ("that 9 is for what is above", (Contradiction::NotAboveLevel, |_| false)),
    (
        "that 9 isn't for what is equal",
        (Contradiction::NotAboveLevel, |seen| seen.entry.answer == 9 && seen.charge() < seen.level()),
    ),
    (
        "that 9 is for one more",
        (Contradiction::NotAboveLevel, |seen| seen.entry.answer == 9 && seen.charge() <= seen.level() + 1),
    ),
    (
        "that a charge of 0 is above no level",
        (Contradiction::NotAboveLevel, |seen| {
            seen.entry.answer == 9 && seen.is_charged() && seen.charge() <= seen.level()
        }),
    ),
    (
        "that levels are refilled before 9",
        (Contradiction::NotAboveLevel, |seen| seen.entry.answer == 9 && seen.charge() <= seen.stored().level),
    ),
    (
        "that the level with 9 is that at its time",
        (Contradiction::NotAboveLevel, |seen| {
            seen.entry.answer == 9 && seen.charge() <= seen.stored().at(seen.state.clock)
        }),
    ),
];

/// What a record leaves.
pub type Taken = fn(&Seen) -> State;

/// The partner's level as it is at the record's time.
fn refilled(seen: &Seen) -> Level {
    Level { level: seen.level(), updated: seen.entry.time }
}

pub const WRONG_TAKEN: [Wrong<Taken>; 11] = [
    ("that a refused one keeps no refill", |seen| seen.taken_with(!seen.is_done(), refilled(seen))),
    ("that one refused with 9 keeps no refill", |seen| seen.taken_with(seen.entry.answer == 9, refilled(seen))),
    ("that a refused one doesn't move the clock", |seen| State { clock: seen.entry.time, ..seen.taken() }),
    ("that one refused with 9 doesn't move the clock", |seen| match seen.entry.answer {
        9 => State { clock: seen.entry.time, ..seen.taken() },
        _ => seen.taken(),
    }),
    ("that a done one of charge 0 moves the clock", |seen| match seen.is_charged() {
        true => seen.taken(),
        false => seen.state.clone(),
    }),
    ("that one refused with 9 pays nothing", |seen| seen.taken_with(seen.entry.answer == 9, seen.left())),
    ("the charge", |seen| seen.taken_with(seen.is_done() && seen.is_charged(), refilled(seen))),
    ("the refill", |seen| {
        let level = seen.stored().level.saturating_sub(seen.charge());
        seen.taken_with(seen.is_done() && seen.is_charged(), Level { level, updated: seen.entry.time })
    }),
    ("the time of the refill", |seen| {
        let updated = seen.stored().updated;
        seen.taken_with(seen.is_done() && seen.is_charged(), Level { updated, ..seen.left() })
    }),
    ("that the refill has a limit", |seen| {
        let level = seen.stored().uncut(seen.entry.time).saturating_sub(seen.charge());
        seen.taken_with(seen.is_done() && seen.is_charged(), Level { level, updated: seen.entry.time })
    }),
    ("that neighbours pay nothing", |seen| {
        let mut after = seen.taken();
        if seen.is_done() && seen.is_charged() {
            after.partners[(seen.partner() + 1) % PARTNERS] = seen.left();
        }
        after
    }),
];

/// In the plain one this is no mistake.
pub const WRONG_FREE_TAKEN: Wrong<Taken> =
    ("that one of charge 0 moves only the clock", |seen| seen.taken_with(seen.is_done(), seen.left()));

/// Any other change of the rules.
pub type Change = fn(&mut Replaying);

/// The records that are whole, as the rules read them.
fn without_tail(journal: &[u8]) -> &[u8] {
    &journal[..journal.len() / RECORD * RECORD]
}

pub const WRONG_PLACES: [Wrong<Change>; 10] = [
    ("what is left at the end", |rules| {
        rules.read = |rules, journal, state| read(rules, without_tail(journal), state);
    }),
    ("that records are judged before what is left", |rules| {
        rules.read = |rules, journal, state| match without_tail(journal).len() {
            whole if whole < journal.len() => (state, Some(whole)),
            _ => read(rules, journal, state),
        };
    }),
    ("that what is left is no record", |rules| {
        rules.read = |rules, journal, state| {
            let mut padded = journal.to_vec();
            padded.resize(journal.len().next_multiple_of(RECORD), 0);
            read(rules, &padded, state)
        };
    }),
    ("that one byte is left", |rules| {
        rules.read = |rules, journal, state| match journal.len() % RECORD {
            1 => read(rules, without_tail(journal), state),
            _ => read(rules, journal, state),
        };
    }),
    ("the last record", |rules| {
        rules.read = |rules, journal, state| {
            let tail = without_tail(journal).len() < journal.len();
            read(rules, if tail { journal } else { &journal[..journal.len().saturating_sub(RECORD)] }, state)
        };
    }),
    ("that a place is counted in bytes", |rules| rules.place = |place, _| place / RECORD),
    ("that the record's first byte is its place", |rules| rules.place = |place, _| place + RECORD),
    ("that what is left begins earlier", |rules| {
        rules.place = |place, length| if place + RECORD > length { length } else { place };
    }),
    ("that what contradicts writes nothing", |rules| {
        rules.unwritten = |allowances, state| {
            allowances.iter_mut().zip(levels_written(state, None)).for_each(|(byte, new)| *byte = new);
        };
    }),
    ("that what is refused writes nothing", |rules| rules.unwritten = |allowances, _| allowances.fill(0)),
];

fn read(rules: &Replaying, journal: &[u8], state: State) -> (State, Option<usize>) {
    (crate::replaying::RIGHT.read)(rules, journal, state)
}

pub const WRONG_STARTS: [Wrong<Start>; 11] = [
    ("the order of 1 and 2", |length, start, term| match term {
        _ if start >= TIME_LIMIT => 2,
        _ => right(length, start, term),
    }),
    ("the order of 1 and 6", |length, start, term| match right(ALLOWANCES, start, term) {
        6 => 6,
        _ => right(length, start, term),
    }),
    ("the order of 2 and 6", |length, start, term| match right(length, 0, term) {
        0 => right(length, start, term),
        number => number,
    }),
    ("that 2^40 is too late", |length, start, term| right(length, start - u64::from(start == TIME_LIMIT), term)),
    ("that 2^40 - 1 isn't too late", |length, start, term| right(length, start.saturating_add(1), term)),
    ("that 0 is a term", |length, start, term| right(length, start, if term == 0 { 1 } else { term })),
    ("that 599 is no term", |length, start, term| right(length, start, if term == 599 { 600 } else { term })),
    ("that 86,400 is a term", |length, start, term| right(length, start, if term == 86_400 { 1 } else { term })),
    ("that a term isn't cut to 32 bits", |length, start, term| right(length, start, u64::from(term as u32))),
    ("that a table may be too long", |length, start, term| right(length.min(ALLOWANCES), start, term)),
    ("that a table may be too short", |length, start, term| right(length.max(ALLOWANCES), start, term)),
];

fn right(length: usize, start: u64, term: u64) -> u32 {
    (crate::replaying::RIGHT.start)(length, start, term)
}

pub const WRONG_ORDER: [Wrong<ComesFirst>; 3] = [
    ("that 1 comes before the journal", |number| number == 1),
    ("that 2 comes before the journal", |number| number == 2),
    ("that 6 comes before the journal", |number| number == 6),
];

/// Where the allowances have the term and the clock.
const TERM: usize = ALLOWANCES - 16;
const CLOCK: usize = ALLOWANCES - 8;

pub const WRONG_WRITTEN: [Wrong<Change>; 7] = [
    ("that 0 means 600", |rules| {
        rules.write = |state, term, at| {
            let mut table = written(state, term, at);
            table[TERM..CLOCK].copy_from_slice(&term.to_be_bytes());
            table
        };
    }),
    ("the term", |rules| rules.write = |state, _, at| written(state, 0, at)),
    ("the ninth record", |rules| rules.write = |state, _, at| levels_written(state, at)),
    ("that the clock goes on", |rules| {
        rules.write = |state, term, at| {
            let mut table = written(state, term, at);
            table[CLOCK..].copy_from_slice(&state.start.to_be_bytes());
            table
        };
    }),
    ("that the highest byte comes first", |rules| {
        rules.write = |state, term, at| {
            let mut table = written(state, term, at);
            table.chunks_exact_mut(8).take(2 * PARTNERS).for_each(<[u8]>::reverse);
            table
        };
    }),
    ("which of the two it is", |rules| {
        rules.write = |state, term, at| written(state, term, if at.is_some() { None } else { Some(state.clock) });
    }),
    ("that the time is that of the latest done one", |rules| {
        rules.write = |state, term, at| written(state, term, Some(at.map_or(state.seen, |_| state.seen)));
    }),
];
