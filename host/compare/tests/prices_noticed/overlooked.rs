//! What a relay could overlook that charges.

use compare::relay::boundary::Kind;
use compare::relay::noticed::Overlooked;
use compare::relay::noticed::Shows::{InHistory, InRuns, OnTables};
use model::{partner_of, partner_of_row, Allowance, Relay, LEVEL_LIMIT, REFILL};

use crate::pricing::{ComesFirst, Made, Price, Refused, Refuses, Store, RIGHT};

/// The right price with so much less, of calls to which that applies.
fn less(made: &Made, applies: bool, missing: u64) -> Option<u64> {
    (RIGHT.price)(made).map(|price| if applies { price - missing } else { price })
}

pub const FORGOTTEN: [Overlooked<Price>; 23] = [
    ("all that is sent out", InHistory, |made| less(made, true, made.replied() + made.relayed())),
    ("the reply's bytes", InHistory, |made| less(made, true, made.replied())),
    ("the relayed bytes", InHistory, |made| less(made, true, made.relayed())),
    ("the bytes received", InHistory, |made| less(made, true, made.received())),
    ("the 32", InHistory, |made| less(made, true, 32)),
    ("the 32 of a send", InHistory, |made| less(made, made.is(&[11]), 32)),
    ("the version message", InHistory, |made| less(made, made.is_open(), 13)),
    ("the type byte of the version message", InHistory, |made| less(made, made.is_open(), 1)),
    ("the reply that refuses a lease", InHistory, |made| less(made, made.replies(&[3, 0]), 2)),
    ("the reply that grants a lease", InHistory, |made| less(made, made.replies(&[3, 1]), 38)),
    ("the cookie of a lease's reply", InHistory, |made| less(made, made.replies(&[3, 1]), 24)),
    ("the cookie of a lease's request", InHistory, |made| less(made, made.is(&[2, 1]), 24)),
    ("the reply that refuses an extension", InHistory, |made| less(made, made.replies(&[5, 0]), 2)),
    ("the reply that extends", InHistory, |made| less(made, made.replies(&[5, 1]), 10)),
    ("the reply that refuses a session", InHistory, |made| {
        less(made, made.is(&[6]) && made.relayed() == 0, made.replied())
    }),
    ("the reply that makes a session", InHistory, |made| {
        less(made, made.is(&[6]) && made.relayed() > 0, made.replied())
    }),
    ("that a holder is told of its session", InHistory, |made| less(made, made.is(&[6]), made.relayed())),
    ("that data is sent on", InHistory, |made| less(made, made.is(&[11]), made.relayed())),
    ("the type byte of data sent on", InHistory, |made| less(made, made.is(&[11]), 1)),
    ("that a keepalive's answer is charged", InHistory, |made| (RIGHT.price)(made).filter(|_| !made.is(&[13]))),
    ("that a version's answer is charged", InHistory, |made| (RIGHT.price)(made).filter(|_| !made.is(&[1]))),
    ("that a version's refusal is charged", InHistory, |made| (RIGHT.price)(made).filter(|_| !made.is(&[1, 0]))),
    ("that an open is charged", InHistory, |made| (RIGHT.price)(made).filter(|_| !made.is_open())),
];

/// The right price and so much more, of calls to which that applies.
fn more(made: &Made, applies: bool, added: u64) -> Option<u64> {
    (RIGHT.price)(made).map(|price| if applies { price + added } else { price })
}

pub const WRONG_SUMS: [Overlooked<Price>; 14] = [
    ("that the random bytes aren't received", InHistory, |made| more(made, made.received() > 0, 80)),
    ("that a lease's random bytes aren't received", InHistory, |made| more(made, made.is(&[2]), 80)),
    ("that a session's random bytes aren't received", InHistory, |made| more(made, made.is(&[6]), 80)),
    ("that the rest of the buffers isn't sent", InHistory, |made| more(made, true, 128 - made.replied().min(64))),
    ("that a keepalive's answer has no reply", InHistory, |made| more(made, made.is(&[13]), 1)),
    ("that a version's answer has no reply", InHistory, |made| more(made, made.is(&[1]), 13)),
    ("that disconnecting sends nothing", InHistory, |made| more(made, made.done.disconnect == 1, 1)),
    ("that a reply is sent once", InHistory, |made| more(made, true, made.replied())),
    ("that data is sent on once", InHistory, |made| more(made, made.is(&[11]), made.relayed())),
    ("that the 32 count once", InHistory, |made| more(made, made.replied() + made.relayed() > 0, 32)),
    ("that the frame's length isn't received", InHistory, |made| more(made, made.received() > 0, 3)),
    ("that a price has more than 16 bits", InHistory, |made| (RIGHT.price)(made).map(|price| price % (1 << 16))),
    ("that a price may be above a second's refill", InHistory, |made| {
        (RIGHT.price)(made).map(|price| price.min(REFILL))
    }),
    ("that a price may be above that of before", InHistory, |made| (RIGHT.price)(made).map(|price| price.min(65_566))),
];

/// The price on another relay.
fn on(made: &Made, change: impl FnOnce(&mut Relay)) -> Option<u64> {
    (RIGHT.price)(made).map(|_| made.row_on(change).price)
}

/// The price with another reply where this one is sent.
fn replying(made: &Made, reply: &[u8], length: u64) -> Option<u64> {
    (RIGHT.price)(made).map(|price| if made.replies(reply) { price - made.replied() + length } else { price })
}

/// What an establish costs if it is refused, and if it is done.
fn refused_session(made: &Made) -> u64 {
    made.old_cost() + 6
}

fn made_session(made: &Made) -> u64 {
    made.old_cost() + 54 + 49
}

fn renews(made: &Made) -> bool {
    made.replies(&[3, 1]) && made.row_at(made.now()).name == "lease renewed"
}

fn end_leases(relay: &mut Relay, ends: impl Fn(usize) -> bool) {
    let rows = relay.leases.iter_mut().enumerate().filter(|(row, _)| ends(*row));
    rows.for_each(|(_, lease)| lease.expiry = 0);
}

pub const ANOTHER_OUTCOME: [Overlooked<Price>; 22] = [
    ("that a refused lease is cheaper", InHistory, |made| replying(made, &[3, 0], 38)),
    ("that a granted lease is dearer", InHistory, |made| replying(made, &[3, 1], 2)),
    ("that a renewed lease is granted", InHistory, |made| less(made, renews(made), 36)),
    ("that a renewed lease has a reply", InHistory, |made| less(made, renews(made), 38)),
    ("that a renewed lease has its cookie in the request", InHistory, |made| less(made, renews(made), 24)),
    ("that a request with an unknown cookie is granted", InHistory, |made| {
        less(made, made.is(&[2, 1]) && made.replies(&[3, 1]) && !renews(made), 36)
    }),
    ("that a refused extension is cheaper", InHistory, |made| replying(made, &[5, 0], 10)),
    ("that an extension is dearer", InHistory, |made| replying(made, &[5, 1], 2)),
    ("that a refused session is cheaper", InHistory, |made| {
        (RIGHT.price)(made).map(|price| if made.is(&[6]) { made_session(made) } else { price })
    }),
    ("that a session is dearer", InHistory, |made| {
        (RIGHT.price)(made).map(|price| if made.is(&[6]) { refused_session(made) } else { price })
    }),
    ("the dearer outcomes", InHistory, |made| cheaper_or_dearer(made, false)),
    ("the cheaper outcomes", InHistory, |made| cheaper_or_dearer(made, true)),
    ("ids that are live elsewhere", InHistory, |made| {
        on(made, |relay| end_leases(relay, |row| partner_of_row(row) != partner_of(made.caller)))
    }),
    ("ids that are live here", InHistory, |made| {
        let holds = |row: usize| made.before.holder_of(row) == Some(made.caller);
        on(made, |relay| {
            end_leases(relay, |row| made.is(&[2]) && partner_of_row(row) == partner_of(made.caller) && !holds(row));
        })
    }),
    ("who holds a lease already", InHistory, |made| {
        on(made, |relay| {
            end_leases(relay, |row| made.is(&[2]) && made.before.holder_of(row) == Some(made.caller));
        })
    }),
    ("that leases end", InHistory, |made| {
        on(made, |relay| {
            let leased = relay.leases.iter_mut().filter(|lease| lease.expiry > 0);
            leased.for_each(|lease| lease.expiry = u64::MAX);
        })
    }),
    ("the time of the call", InHistory, |made| (RIGHT.price)(made).map(|_| made.row_at(made.before.clock()).price)),
    ("that a lease ends at its expiry", InHistory, |made| {
        on(made, |relay| relay.leases.iter_mut().for_each(|lease| lease.expiry = lease.expiry.saturating_add(1)))
    }),
    ("that a lease lasts up to its expiry", OnTables, |made| {
        on(made, |relay| relay.leases.iter_mut().for_each(|lease| lease.expiry = lease.expiry.saturating_sub(1)))
    }),
    ("who is in a session", InHistory, |made| {
        on(made, |relay| {
            let named = relay.connections.iter_mut();
            named.for_each(|connection| connection.peer = model::NOBODY);
        })
    }),
    ("that a holder may be gone", InHistory, |made| {
        on(made, |relay| {
            let left = relay.leases.iter_mut().filter(|lease| lease.holder == model::NOBODY);
            left.for_each(|lease| lease.holder = other_connection(made));
        })
    }),
    ("that the caller's own id has no session", InHistory, |made| {
        instead(made, made.replies(&[7]) && made.reply[5] == 5, made_session(made))
    }),
];

/// This price instead, of calls to which that applies.
fn instead(made: &Made, applies: bool, instead: u64) -> Option<u64> {
    (RIGHT.price)(made).map(|price| if applies { instead } else { price })
}

/// Of requests that may be refused always the price of this outcome.
fn cheaper_or_dearer(made: &Made, dearer: bool) -> Option<u64> {
    let lengths = match made.call.message().first() {
        Some(2) => [2, 38],
        Some(4) => [2, 10],
        Some(6) => [6, 54 + 49],
        _ => return (RIGHT.price)(made),
    };
    Some(made.old_cost() + lengths[usize::from(dearer)])
}

/// Another connection of the caller's partner.
fn other_connection(made: &Made) -> u8 {
    (made.caller ^ 1) as u8
}

/// The price of free calls to which this applies.
fn charged(made: &Made, applies: bool, price: u64) -> Option<u64> {
    (RIGHT.price)(made).or(applies.then_some(price))
}

pub const NOT_FREE: [Overlooked<Price>; 9] = [
    ("that the end of a session is free", InHistory, |made| charged(made, made.is(&[9]), made.price())),
    ("that a session's end is told for nothing", InHistory, |made| charged(made, made.is(&[9]), made.relayed())),
    ("that a close is free", InHistory, |made| charged(made, is_close(made), made.price())),
    ("that a close tells the other for nothing", InHistory, |made| {
        charged(made, is_close(made) && made.relayed() > 0, made.relayed())
    }),
    ("that finding out is free", InHistory, |made| charged(made, is_find_out(made), made.price())),
    ("that asking is free", InHistory, |made| charged(made, is_find_out(made) && made.replied() > 0, made.replied())),
    ("that closing the dead is free", InHistory, |made| {
        charged(made, is_find_out(made) && made.done.disconnect == 1, made.price())
    }),
    ("that a dead one's peer is told for nothing", InHistory, |made| {
        charged(made, is_find_out(made) && made.relayed() > 0, made.relayed())
    }),
    ("that a free call stores nothing", InRuns, |made| charged(made, true, 0)),
];

fn is_close(made: &Made) -> bool {
    matches!(made.call.kind, Kind::Close { .. })
}

fn is_find_out(made: &Made) -> bool {
    matches!(made.call.kind, Kind::Keepalive { .. })
}

pub const WRONG_LEVELS: [Overlooked<Refuses>; 9] = [
    ("that an equal price passes", InHistory, |made, price| price >= made.level()),
    ("that one too few is refused", InHistory, |made, price| price > made.level() + 1),
    ("to compare", InHistory, |_, _| false),
    ("to compare the new price", InHistory, |made, _| made.old_cost() > made.level()),
    ("to compare what is replied", InHistory, |made, price| price - made.replied() > made.level()),
    ("to compare what is relayed", InHistory, |made, price| price - made.relayed() > made.level()),
    ("the refill", InHistory, |made, price| price > made.allowance().level),
    ("that a level may be above the limit", OnTables, |made, price| {
        made.allowance().level > LEVEL_LIMIT || price > made.level()
    }),
    ("whose level it is", InHistory, |made, price| price > made.before.allowances[0].level_at(made.now())),
];

/// So much less is left at the call's time.
fn leaving(made: &Made, price: u64) -> Allowance {
    Allowance { level: made.level().saturating_sub(price), updated: made.now() }
}

pub const WRONG_STORED: [Overlooked<Store>; 11] = [
    ("to store the new price", InHistory, |made, _| leaving(made, made.old_cost())),
    ("to store what is replied", InHistory, |made, price| leaving(made, price - made.replied())),
    ("to store what is relayed", InHistory, |made, price| leaving(made, price - made.relayed())),
    ("to store anything", InHistory, |made, _| made.allowance().clone()),
    ("one unit", InHistory, |made, price| leaving(made, price - 1)),
    ("one unit more", InHistory, |made, price| leaving(made, price + 1)),
    ("that it is charged once", InHistory, |made, price| leaving(made, 2 * price)),
    ("the time", InHistory, |made, price| Allowance { updated: made.allowance().updated, ..leaving(made, price) }),
    ("the refill", InHistory, |made, price| Allowance {
        level: made.allowance().level.saturating_sub(price),
        updated: made.now(),
    }),
    ("the limit of what is left", OnTables, |made, price| {
        let level = made.allowance().level;
        if level > LEVEL_LIMIT {
            return Allowance { level: level - price, updated: made.now() };
        }
        leaving(made, price)
    }),
    ("that the time of the last charge isn't the clock's", OnTables, |made, price| Allowance {
        updated: made.now().max(made.allowance().updated),
        ..leaving(made, price)
    }),
];

/// Changes the allowance of the caller's partner.
fn edit(made: &Made, relay: &mut Relay, level: u64, updated: u64) {
    relay.allowances[partner_of(made.caller)] = Allowance { level, updated };
}

pub const WRONG_REFUSALS: [Overlooked<Refused>; 5] = [
    ("that no refill is stored", InRuns, |made, _, relay| edit(made, relay, made.level(), made.now())),
    ("that no time is stored", InHistory, |made, _, relay| edit(made, relay, made.allowance().level, made.now())),
    ("that nothing is charged", InHistory, |made, _, relay| edit(made, relay, 0, made.now())),
    ("that the clock stays", InRuns, |made, _, relay| relay.set_clock(made.now())),
    ("that nothing is sent", InRuns, |made, answer, _| answer.reply = made.done.reply),
];

pub const WRONG_ORDER: [Overlooked<ComesFirst>; 5] = [
    ("that the state comes before", InHistory, |check| check == 4),
    ("that the buffers come before", InHistory, |check| check == 5),
    ("that the form comes before", InHistory, |check| check == 6),
    ("that what is permitted comes before", InHistory, |check| check == 7),
    ("that the session comes before", InHistory, |check| check == 8),
];
