//! What a relay could do wrong beside: with a dead connection, with one that is asked, and in other calls.

use compare::relay::boundary::{Kind, Lent};
use compare::relay::noticed::edit;
use compare::relay::records;
use engine::relay::{Answer, NOBODY};
use model::{partner_of, Connection, Due, Lease, Relay};

use crate::finding::{Made, Spoil};
use crate::Overlooked;

/// Changes the caller's record.
fn edit_caller(made: &Made, lent: &mut Lent, change: impl FnOnce(&mut Connection)) {
    edit(lent, |relay| change(&mut relay.connections[made.caller]));
}

/// A message that this check refuses answers all the same.
fn answers_if_refused<const CHECK: u32>(made: &Made, answer: &mut Answer, _: &Lent, lent: &mut Lent) {
    if made.is_message() && answer.number == CHECK {
        edit_caller(made, lent, |record| record.unanswered = 0);
    }
}

/// A call that this check refuses is noted as one that sends something.
fn sends_if_refused<const CHECK: u32>(made: &Made, answer: &mut Answer, _: &Lent, lent: &mut Lent) {
    if answer.number == CHECK {
        edit_caller(made, lent, |record| record.sent = made.now());
    }
}

pub const AFTER_A_REFUSAL: [Overlooked<Spoil>; 10] = [
    ("that a message without buffers is no answer", true, answers_if_refused::<5>),
    ("that a malformed message is no answer", true, answers_if_refused::<6>),
    ("that a message not permitted is no answer", true, answers_if_refused::<7>),
    ("that a message without session is no answer", true, answers_if_refused::<8>),
    ("that a message not paid for is no answer", true, answers_if_refused::<9>),
    ("that a call of a closed one sends nothing", true, sends_if_refused::<4>),
    ("that a call without buffers sends nothing", true, sends_if_refused::<5>),
    ("that a call not paid for sends nothing", true, sends_if_refused::<9>),
    ("that a refused keepalive call sends nothing", true, |made, answer, _, lent| {
        if answer.number == 5 && matches!(made.call.kind, Kind::Keepalive { .. }) {
            edit_caller(made, lent, |record| record.sent = made.now());
        }
    }),
    ("that a refused keepalive call asks nothing", true, |made, answer, _, lent| {
        if answer.number == 5 && matches!(made.call.kind, Kind::Keepalive { .. }) {
            edit_caller(made, lent, |record| record.asked = made.now());
        }
    }),
];

/// Changes the relay, given as it was before too, where a dead connection is closed.
fn where_closed(made: &Made, lent: &mut Lent, change: impl FnOnce(&mut Relay)) {
    if made.due == Some(Due::Close) {
        edit(lent, change);
    }
}

/// The rows of the caller that become nobody's.
fn given_back<'a>(made: &'a Made, relay: &'a mut Relay) -> impl Iterator<Item = (&'a Lease, &'a mut Lease)> {
    let rows = made.before.leases.iter().zip(&mut relay.leases);
    rows.filter(|(before, after)| before.holder != after.holder)
}

pub const WRONG_CLOSED: [Overlooked<Spoil>; 13] = [
    ("to disconnect it", true, |made, answer, _, _| {
        if made.due == Some(Due::Close) {
            answer.disconnect = 0;
        }
    }),
    ("to tell the other", true, |made, answer, before, lent| {
        if made.due == Some(Due::Close) {
            (answer.relay, answer.destination, lent.relay) = (0, NOBODY, before.relay.clone());
        }
    }),
    ("that the other loses the session too", true, |made, _, _, lent| {
        where_closed(made, lent, |relay| {
            if let Some(other) = made.relayed_to() {
                let before = &made.before.connections[other];
                relay.connections[other].set_session(before.peer, before.session);
            }
        });
    }),
    ("to give its rows back", true, |made, _, _, lent| {
        where_closed(made, lent, |relay| relay.leases = made.before.leases.clone());
    }),
    ("to give rows back that aren't live", false, |made, _, _, lent| {
        where_closed(made, lent, |relay| {
            let rows = given_back(made, relay).filter(|(before, _)| !before.is_live(made.now()));
            rows.for_each(|(before, after)| after.holder = before.holder);
        });
    }),
    ("to give back more than one row", false, |made, _, _, lent| {
        where_closed(made, lent, |relay| {
            given_back(made, relay).skip(1).for_each(|(before, after)| after.holder = before.holder);
        });
    }),
    ("that its leases run on", true, |made, _, _, lent| {
        where_closed(made, lent, |relay| given_back(made, relay).for_each(|(_, after)| after.expiry = made.now()));
    }),
    ("whose rows name it", false, |made, _, _, lent| {
        where_closed(made, lent, |relay| {
            let named = relay.leases.iter_mut().filter(|lease| usize::from(lease.holder) == made.caller);
            named.for_each(|lease| lease.holder = model::NOBODY);
        });
    }),
    ("its record", true, |made, _, _, lent| {
        where_closed(made, lent, |relay| relay.connections[made.caller] = made.record().clone());
    }),
    ("the rest of its record", true, |made, _, _, lent| {
        where_closed(made, lent, |relay| {
            let state = relay.connections[made.caller].state();
            relay.connections[made.caller] = made.record().clone();
            relay.connections[made.caller].set_state(state);
        });
    }),
    ("byte 2 of its record", true, |made, _, _, lent| {
        where_closed(made, lent, |relay| relay.connections[made.caller].unanswered = 1);
    }),
    ("bytes 9 to 13 of its record", true, |made, _, _, lent| {
        where_closed(made, lent, |relay| relay.connections[made.caller].asked = made.record().asked);
    }),
    ("that it isn't asked again", true, |made, answer, _, lent| {
        if made.due == Some(Due::Close) {
            lent.reply.lend_mut()[0] = 13;
            answer.reply = 1;
        }
    }),
];

/// Changes the caller's record where it is asked.
fn where_asked(made: &Made, lent: &mut Lent, change: impl FnOnce(&mut Connection)) {
    if made.due == Some(Due::Ask) {
        edit_caller(made, lent, change);
    }
}

/// Sets bytes of the caller's record that nobody uses.
fn clear_unused(made: &Made, lent: &mut Lent, bytes: &[usize]) {
    let table = lent.connections.lend_mut();
    let record = table.len() / made.before.connections.len() * made.caller;
    bytes.iter().for_each(|byte| table[record + byte] = 0);
}

pub const WRONG_ASKED: [Overlooked<Spoil>; 11] = [
    ("byte 2", true, |made, _, _, lent| where_asked(made, lent, |record| record.unanswered = 0)),
    ("bytes 9 to 13", true, |made, _, _, lent| where_asked(made, lent, |record| record.asked = made.record().asked)),
    ("that a call that is quiet changes no byte 2", true, |made, _, _, lent| {
        if made.due == Some(Due::Nothing) {
            edit_caller(made, lent, |record| record.unanswered = 1);
        }
    }),
    ("that a call that is quiet asks nothing", true, |made, _, _, lent| {
        if made.due == Some(Due::Nothing) {
            edit_caller(made, lent, |record| record.asked = made.now());
        }
    }),
    ("which buffer is whose", true, |made, answer, before, lent| {
        if made.due == Some(Due::Ask) {
            lent.reply = before.reply.clone();
            lent.relay.lend_mut()[0] = 13;
            (answer.reply, answer.relay, answer.destination) = (0, 1, made.caller as u32);
        }
    }),
    ("that the reply has no destination", true, |made, answer, _, _| {
        if made.due == Some(Due::Ask) {
            answer.destination = made.caller as u32;
        }
    }),
    ("that it isn't disconnected", true, |made, answer, _, _| {
        if made.due == Some(Due::Ask) {
            answer.disconnect = 1;
        }
    }),
    ("that further bytes stay", true, |made, _, _, lent| {
        if made.due == Some(Due::Ask) {
            lent.reply.lend_mut()[1] = 0;
        }
    }),
    ("that no bytes are written where nothing is sent", true, |made, _, _, lent| {
        if made.due == Some(Due::Nothing) {
            lent.reply.lend_mut()[0] = 13;
        }
    }),
    ("that byte 3 stays", false, |made, _, _, lent| {
        if made.due == Some(Due::Ask) {
            clear_unused(made, lent, &[3]);
        }
    }),
    ("that bytes 14 and 15 stay", false, |made, _, _, lent| {
        if made.due == Some(Due::Ask) {
            clear_unused(made, lent, &[14, 15]);
        }
    }),
];

/// What a call would cost that sends one byte.
const KEEPALIVE_PRICE: u64 = 33;

/// Takes the price of the Keepalive from the caller's partner where this is done.
fn charge(made: &Made, due: Due, lent: &mut Lent) {
    if made.due == Some(due) {
        edit(lent, |relay| {
            let allowance = &mut relay.allowances[partner_of(made.caller)];
            (allowance.level, allowance.updated) =
                (allowance.level_at(made.now()).saturating_sub(KEEPALIVE_PRICE), made.now());
        });
    }
}

/// Leaves the clock as it was where this is done.
fn forget_clock(made: &Made, due: Due, lent: &mut Lent) {
    if made.due == Some(due) {
        edit(lent, |relay| relay.set_clock(made.before.clock()));
    }
}

pub const WRONG_COSTS: [Overlooked<Spoil>; 8] = [
    ("that asking is free", true, |made, _, _, lent| charge(made, Due::Ask, lent)),
    ("that closing is free", true, |made, _, _, lent| charge(made, Due::Close, lent)),
    ("that finding nothing is free", true, |made, _, _, lent| charge(made, Due::Nothing, lent)),
    ("that it is free for who has spent all", true, |made, answer, before, lent| {
        if made.due.is_some() && made.before.allowances[partner_of(made.caller)].level_at(made.now()) < KEEPALIVE_PRICE
        {
            let record = records::of(&made.call, 9, KEEPALIVE_PRICE);
            (*answer, *lent) = (Answer::from(([9, 0, 0, NOBODY, 0], before.map, record)), before.clone());
        }
    }),
    ("that no refill is stored", true, |made, _, _, lent| {
        if made.due.is_some() {
            edit(lent, |relay| relay.allowances[partner_of(made.caller)].updated = made.now());
        }
    }),
    ("the clock where nothing is sent", true, |made, _, _, lent| forget_clock(made, Due::Nothing, lent)),
    ("the clock where it is asked", true, |made, _, _, lent| forget_clock(made, Due::Ask, lent)),
    ("the clock where it is closed", true, |made, _, _, lent| forget_clock(made, Due::Close, lent)),
];

/// Changes the record of whom the call relays something to.
fn edit_other(made: &Made, lent: &mut Lent, change: impl FnOnce(&mut Connection)) {
    if let Some(other) = made.relayed_to() {
        edit(lent, |relay| change(&mut relay.connections[other]));
    }
}

pub const WRONG_ELSEWHERE: [Overlooked<Spoil>; 11] = [
    ("that bytes 9 to 13 stay with an answer", true, |made, _, _, lent| {
        if made.accepted() && made.is_message() {
            edit_caller(made, lent, |record| record.asked = 0);
        }
    }),
    ("that an answer isn't a message sent", true, |made, _, _, lent| {
        if made.accepted() && made.is_message() && made.is_unanswered() {
            edit_caller(made, lent, |record| record.sent = made.now());
        }
    }),
    ("that an answer isn't asked", true, |made, _, _, lent| {
        if made.is_done(13) {
            edit_caller(made, lent, |record| record.asked = made.now());
        }
    }),
    ("that who receives something doesn't answer", true, |made, _, _, lent| {
        if made.accepted() {
            edit_other(made, lent, |record| record.unanswered = 0);
        }
    }),
    ("that data doesn't ask", true, |made, _, _, lent| {
        if made.is_done(11) {
            edit_other(made, lent, |record| record.asked = made.now());
        }
    }),
    ("that an open asks nothing", true, |made, _, _, lent| {
        if made.accepted() && matches!(made.call.kind, Kind::Open { .. }) {
            edit_caller(made, lent, |record| record.asked = made.now());
        }
    }),
    ("that an open overwrites what was there", false, |made, _, _, lent| {
        if made.accepted() && matches!(made.call.kind, Kind::Open { .. }) {
            edit_caller(made, lent, |record| record.asked = made.record().asked);
        }
    }),
    ("that an open overwrites byte 2", false, |made, _, _, lent| {
        if made.accepted() && matches!(made.call.kind, Kind::Open { .. }) {
            edit_caller(made, lent, |record| record.unanswered = made.record().unanswered);
        }
    }),
    ("that a close leaves nothing", true, |made, _, _, lent| {
        if made.accepted() && matches!(made.call.kind, Kind::Close { .. }) {
            edit_caller(made, lent, |record| record.sent = made.record().sent);
        }
    }),
    ("that a refused version leaves nothing", true, |made, _, _, lent| {
        if made.is_done(1) && made.call.message()[1] == 0 {
            edit_caller(made, lent, |record| record.sent = made.record().sent);
        }
    }),
    ("that the end of a session leaves 9 to 13", true, |made, _, _, lent| {
        if made.accepted() && made.relay[0] == 10 {
            edit_other(made, lent, |record| record.asked = 0);
        }
    }),
];
