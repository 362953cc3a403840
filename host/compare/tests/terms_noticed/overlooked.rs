//! What a relay could overlook that keeps a term.

use compare::relay::boundary::{Boundary, Call, Kind, Second};
use compare::relay::noticed::Shows::{InHistory, OnTables};
use compare::relay::noticed::{edit, Overlooked};
use compare::relay::prices::cost;
use compare::relay::terms::Leased;
use model::{Allowance, StoredTerm, LEVEL_LIMIT};

use crate::keeping::{lasting, ComesFirst, Ends, Given, Kept, Made, Named, Refused, RIGHT};

/// As the papers say, but this for these terms.
fn named(term: u64, otherwise: bool, instead: Option<u64>) -> Option<u64> {
    if otherwise {
        instead
    } else {
        (RIGHT.named)(term)
    }
}

fn is_too_short(term: u64) -> bool {
    (1..600).contains(&term)
}

fn is_too_long(term: u64) -> bool {
    term > 86_400
}

pub const WRONG_NAMED: [Overlooked<Named>; 18] = [
    ("that 0 means a number", InHistory, |term| named(term, term == 0, Some(0))),
    ("that 0 doesn't mean 3,600", InHistory, |term| named(term, term == 0, Some(3_600))),
    ("that 0 may be named", InHistory, |term| named(term, term == 0, None)),
    ("that 600 may be named", InHistory, |term| named(term, term == 600, None)),
    ("that 86,400 may be named", InHistory, |term| named(term, term == 86_400, None)),
    ("that 599 is too short", OnTables, |term| named(term, term == 599, Some(term))),
    ("that 1 is too short", OnTables, |term| named(term, term == 1, Some(term))),
    ("that 86,401 is too long", OnTables, |term| named(term, term == 86_401, Some(term))),
    ("that a term can be too long", OnTables, |term| named(term, is_too_long(term), Some(term))),
    ("that too short a term isn't brought to 600", OnTables, |term| named(term, is_too_short(term), Some(600))),
    ("that too long a term isn't brought to 86,400", OnTables, |term| named(term, is_too_long(term), Some(86_400))),
    ("that too long a term isn't brought to 600", OnTables, |term| named(term, is_too_long(term), Some(600))),
    ("the term's high 32 bits", OnTables, |term| (RIGHT.named)(term % (1 << 32))),
    ("the term's highest bit", OnTables, |term| (RIGHT.named)(term % (1 << 63))),
    ("that 600 is kept as it is", InHistory, |term| named(term, term == 600, Some(0))),
    ("that 3,600 is kept as it is", OnTables, |term| named(term, term == 3_600, Some(0))),
    ("which term is named", InHistory, |term| (RIGHT.named)(term).map(|_| 600)),
    ("that the term is kept", InHistory, |term| (RIGHT.named)(term).map(|_| 0)),
];

pub const WRONG_ORDER: [Overlooked<ComesFirst>; 2] = [
    ("that the time is checked before the term", OnTables, |check| check == 2),
    ("that the sizes are checked before the term", OnTables, |check| check == 1),
];

pub const WRONG_REFUSED: [Overlooked<Refused>; 3] = [
    ("that a refused start makes nothing fresh", OnTables, |lent, now| {
        Second.call(&Call { now, kind: Kind::Fresh { term: 0 } }, lent);
    }),
    ("that a refused start leaves the clock", OnTables, |lent, now| edit(lent, |relay| relay.set_clock(now))),
    ("that a refused start leaves the term", OnTables, |lent, _| {
        edit(lent, |relay| relay.common.term = StoredTerm::default());
    }),
];

/// The end of a lease for so many seconds where the tables have such a number, else as the papers say.
fn reading(given: &Given, otherwise: bool, seconds: u64) -> [u64; 2] {
    if otherwise {
        lasting(given, seconds)
    } else {
        (RIGHT.ends)(given)
    }
}

fn number(given: &Given) -> u64 {
    given.common.term.0
}

pub const WRONG_READINGS: [Overlooked<Ends>; 16] = [
    ("that the tables have a term", InHistory, |given| lasting(given, 3_600)),
    ("that the tables have another term", InHistory, |given| lasting(given, 600)),
    ("that 0 stands for 3,600", InHistory, |given| reading(given, number(given) == 0, 600)),
    ("that 0 stands for something", InHistory, |given| reading(given, number(given) == 0, 0)),
    ("that 599 is too small", OnTables, |given| reading(given, number(given) == 599, 599)),
    ("that 600 doesn't stand for 3,600", InHistory, |given| reading(given, number(given) == 600, 3_600)),
    ("that 86,400 isn't too large", InHistory, |given| reading(given, number(given) == 86_400, 600)),
    ("that 86,401 is too large", OnTables, |given| reading(given, number(given) == 86_401, 86_401)),
    ("that a number can be too small", InHistory, |given| reading(given, is_too_short(number(given)), number(given))),
    ("that a number can be too large", InHistory, |given| reading(given, is_too_long(number(given)), number(given))),
    ("that too small a number isn't 0", InHistory, |given| reading(given, is_too_short(number(given)), 3_600)),
    ("that too large a number isn't 0", InHistory, |given| reading(given, is_too_long(number(given)), 3_600)),
    ("that too large a number isn't 86,400", InHistory, |given| reading(given, is_too_long(number(given)), 86_400)),
    ("the number's high 32 bits", OnTables, |given| lasting(given, StoredTerm(number(given) % (1 << 32)).seconds())),
    ("the number's order of bytes", InHistory, |given| {
        lasting(given, StoredTerm(number(given).swap_bytes()).seconds())
    }),
    ("that the number is no level that is refilled", InHistory, |given| {
        let level = Allowance { level: number(given), updated: given.common.clock }.level_at(given.now);
        lasting(given, StoredTerm(level).seconds())
    }),
];

/// The end of a lease for so many seconds if it is given so, else as the papers say.
fn given_for(given: &Given, how: Leased, seconds: u64) -> [u64; 2] {
    reading(given, given.how == how, seconds)
}

/// The end, but not before that which the lease had, if it is given so.
fn not_earlier(given: &Given, how: Leased) -> [u64; 2] {
    let [expiry, _] = (RIGHT.ends)(given);
    [if given.how == how { expiry.max(given.old_expiry) } else { expiry }; 2]
}

/// The end, and what was left of the lease beside, if it is given so.
fn added(given: &Given, how: Leased) -> [u64; 2] {
    let left = if given.how == how { given.old_expiry.saturating_sub(given.now) } else { 0 };
    (RIGHT.ends)(given).map(|expiry| expiry.wrapping_add(left))
}

pub const WRONG_ENDS: [Overlooked<Ends>; 17] = [
    ("that new leases have the term, not 600", InHistory, |given| given_for(given, Leased::New, 600)),
    ("that new leases have the term, not 3,600", InHistory, |given| given_for(given, Leased::New, 3_600)),
    ("that renewals have the term, not 600", InHistory, |given| given_for(given, Leased::Renewed, 600)),
    ("that renewals have the term, not 3,600", InHistory, |given| given_for(given, Leased::Renewed, 3_600)),
    ("that extensions have the term, not 600", InHistory, |given| given_for(given, Leased::Extended, 600)),
    ("that extensions have the term, not 3,600", InHistory, |given| given_for(given, Leased::Extended, 3_600)),
    ("that an extension can end earlier", InHistory, |given| not_earlier(given, Leased::Extended)),
    ("that a renewal can end earlier", InHistory, |given| not_earlier(given, Leased::Renewed)),
    ("that an extension isn't added", InHistory, |given| added(given, Leased::Extended)),
    ("that a renewal isn't added", InHistory, |given| added(given, Leased::Renewed)),
    ("that an extension changes the end", InHistory, |given| match given.how {
        Leased::Extended => [given.old_expiry; 2],
        _ => (RIGHT.ends)(given),
    }),
    ("from when the term counts", InHistory, |given| [given.common.clock + given.seconds(); 2]),
    ("that the last second isn't the expiry", InHistory, |given| (RIGHT.ends)(given).map(|expiry| expiry - 1)),
    ("that the expiry isn't the last second", InHistory, |given| (RIGHT.ends)(given).map(|expiry| expiry + 1)),
    ("that the row has the term", InHistory, |given| [given.now + 3_600, given.now + given.seconds()]),
    ("that the reply has the term", InHistory, |given| [given.now + given.seconds(), given.now + 600]),
    ("that the reply has the new end", InHistory, |given| [(RIGHT.ends)(given)[0], given.old_expiry]),
];

/// The number after a call: this where that applies, else what it was.
fn kept(made: &Made, otherwise: bool, number: u64) -> u64 {
    if otherwise {
        number
    } else {
        made.number
    }
}

pub const WRONG_KEPT: [Overlooked<Kept>; 14] = [
    ("that a done call repairs nothing", InHistory, |made| kept(made, made.is_done(), made.seconds())),
    ("that a done call keeps the number", InHistory, |made| kept(made, made.is_done(), 0)),
    ("that a done call keeps 0", InHistory, |made| kept(made, made.is_done() && made.number == 0, 3_600)),
    ("that a refused call repairs nothing", InHistory, |made| kept(made, !made.is_done(), made.seconds())),
    ("that a refused call keeps the number", InHistory, |made| kept(made, !made.is_done(), 600)),
    ("that a call not paid for keeps the number", InHistory, |made| kept(made, made.answer.number == 9, 0)),
    ("that a lease repairs nothing", InHistory, |made| kept(made, made.is_done_message(2), made.seconds())),
    ("that an extension repairs nothing", InHistory, |made| kept(made, made.is_done_message(4), made.seconds())),
    ("that an open keeps the number", InHistory, |made| kept(made, is(made, "open"), 600)),
    ("that a close keeps the number", InHistory, |made| kept(made, is(made, "close"), 0)),
    ("that a keepalive call keeps the number", InHistory, |made| kept(made, is(made, "keepalive"), made.seconds())),
    ("that the number isn't charged", InHistory, |made| {
        let charge = cost(made.call.message(), &made.answer);
        kept(made, made.is_done() && made.call.is_charged(), made.number.saturating_sub(charge))
    }),
    ("that the number is no level", InHistory, |made| kept(made, made.is_done(), made.number.min(LEVEL_LIMIT))),
    ("that the number isn't the clock", InHistory, |made| kept(made, made.is_done(), made.call.now)),
];

/// Whether it is a done call of this name.
fn is(made: &Made, name: &str) -> bool {
    made.is_done() && made.call.name() == name
}
