//! What a relay could overlook that keeps the map from call to call.

use compare::relay::noticed::Overlooked;
use compare::relay::noticed::Shows::{InHistory, OnTables};
use model::{State, CONNECTIONS};

use crate::mapping::{After, Effect, Made, EACH};

/// The map, but this where the call has such an effect.
fn instead(made: &Made, effect: Effect, map: u64) -> u64 {
    if made.effect() == effect {
        map
    } else {
        made.right()
    }
}

/// The map, but this where it applies.
fn instead_if(made: &Made, applies: bool, map: u64) -> u64 {
    if applies {
        map
    } else {
        made.right()
    }
}

/// The number of the caller's connection, changed so, as its bit.
fn bit_of(made: &Made, change: fn(usize) -> usize) -> u64 {
    made.with(made.call.caller().map_or(0, |caller| 1 << change(caller)))
}

pub const WRONG_BITS: [Overlooked<After>; 12] = [
    ("that the first connection's bit is the lowest", InHistory, |made| {
        bit_of(made, |caller| CONNECTIONS - 1 - caller)
    }),
    ("that connections are counted from 0", InHistory, |made| bit_of(made, |caller| (caller + 1) % CONNECTIONS)),
    ("that the first one has a bit", InHistory, |made| bit_of(made, |caller| caller.saturating_sub(1))),
    ("whose the bit is", InHistory, |made| bit_of(made, |caller| caller ^ EACH)),
    ("that partners have bits of their own", InHistory, |made| bit_of(made, |caller| caller % EACH)),
    ("that a partner has several", InHistory, |made| bit_of(made, |caller| caller / EACH)),
    ("that partners follow each other", InHistory, |made| {
        bit_of(made, |caller| caller % EACH * EACH + caller / EACH % EACH)
    }),
    ("that a byte's lowest bit comes first", InHistory, |made| bit_of(made, |caller| caller ^ (EACH - 1))),
    ("that the lowest byte is the first partner's", InHistory, |made| made.with(made.bit().swap_bytes())),
    ("that there are more than 32 bits", InHistory, |made| bit_of(made, |caller| caller % 32)),
    ("that a bit has no sign", InHistory, |made| made.with(made.bit() as u32 as i32 as u64 | made.bit())),
    ("the last connection", InHistory, |made| made.with(made.bit() & (u64::MAX >> 1))),
];

pub const WRONG_SET: [Overlooked<After>; 13] = [
    ("that an open sets a bit", InHistory, |made| instead(made, Effect::Opened, made.map)),
    ("that an open sets a bit that is set", InHistory, |made| instead(made, Effect::Opened, made.map ^ made.bit())),
    ("that an open adds no number", InHistory, |made| instead(made, Effect::Opened, made.map.wrapping_add(made.bit()))),
    ("that an open keeps the others", InHistory, |made| instead(made, Effect::Opened, made.bit())),
    ("that an open keeps the partner's others", InHistory, |made| {
        instead(made, Effect::Opened, made.map & !made.bits_of_partner() | made.bit())
    }),
    ("that an open sets one bit", InHistory, |made| instead(made, Effect::Opened, made.map | made.bits_of_partner())),
    ("that who awaits isn't closed", InHistory, |made| match made.effect() {
        Effect::Opened => made.map,
        _ if made.is_done_message(1) && !made.ends() => made.map | made.bit(),
        _ => made.right(),
    }),
    ("that ok 1 sets none", InHistory, |made| {
        instead_if(made, made.is_done_message(1) && !made.ends(), made.map | made.bit())
    }),
    ("that ok 1 changes none", InHistory, |made| {
        instead_if(made, made.is_done_message(1) && !made.ends(), made.map ^ made.bit())
    }),
    ("that ok 1 clears none", InHistory, |made| {
        instead_if(made, made.is_done_message(1) && !made.ends(), made.map & !made.bit())
    }),
    ("that other messages set none", InHistory, |made| {
        instead_if(made, made.is_done_message(13), made.map | made.bit())
    }),
    ("that a check of a live one sets none", InHistory, |made| {
        instead_if(made, made.effect() == Effect::Kept && made.call.name() == "keepalive", made.map | made.bit())
    }),
    ("that a session sets none", InHistory, |made| {
        instead_if(made, made.is_done_message(6), made.map | made.bit() | made.bit_of_destination())
    }),
];

/// The map with the caller's bit changed where it should be cleared so.
fn toggled(made: &Made, effect: Effect) -> u64 {
    instead(made, effect, made.map ^ made.bit())
}

/// The map without the bit of the other, either, where the connection ends so.
fn without_other(made: &Made, effect: Effect) -> u64 {
    instead(made, effect, made.right() & !made.bit_of_destination())
}

/// The map as it was if a connection in this state ends so.
fn not_cleared(made: &Made, effect: Effect, state: State) -> u64 {
    instead_if(made, made.effect() == effect && made.state_before() == Some(state), made.map)
}

pub const WRONG_CLEARED: [Overlooked<After>; 19] = [
    ("that a close clears a bit", InHistory, |made| instead(made, Effect::Closed, made.map)),
    ("that ok 0 clears a bit", InHistory, |made| instead(made, Effect::Rejected, made.map)),
    ("that a timeout clears a bit", InHistory, |made| instead(made, Effect::TimedOut, made.map)),
    ("that a close clears one that awaits", InHistory, |made| not_cleared(made, Effect::Closed, State::Awaiting)),
    ("that a close clears one that is open", InHistory, |made| not_cleared(made, Effect::Closed, State::Open)),
    ("that a timeout clears one that awaits", InHistory, |made| not_cleared(made, Effect::TimedOut, State::Awaiting)),
    ("that a timeout clears one that is open", InHistory, |made| not_cleared(made, Effect::TimedOut, State::Open)),
    ("that a close in a session clears a bit", InHistory, |made| {
        instead_if(made, made.effect() == Effect::Closed && made.answer.relay > 0, made.map)
    }),
    ("that a close clears a bit that is clear", InHistory, |made| toggled(made, Effect::Closed)),
    ("that ok 0 clears a bit that is clear", InHistory, |made| toggled(made, Effect::Rejected)),
    ("that a timeout clears a bit that is clear", InHistory, |made| toggled(made, Effect::TimedOut)),
    ("that the other isn't closed", InHistory, |made| without_other(made, Effect::Closed)),
    ("that the other isn't found dead", InHistory, |made| without_other(made, Effect::TimedOut)),
    ("that a session's end closes nobody", InHistory, |made| {
        instead_if(made, made.is_done_message(9), made.map & !made.bit())
    }),
    ("that a session's end doesn't close the other", InHistory, |made| {
        instead_if(made, made.is_done_message(9), made.map & !made.bit_of_destination())
    }),
    ("that who is asked isn't closed", InHistory, |made| {
        let asked = made.call.name() == "keepalive" && made.answer.reply > 0;
        instead_if(made, asked, made.map & !made.bit())
    }),
    ("that the end of one isn't that of its partner", InHistory, |made| {
        instead_if(made, made.ends(), made.map & !made.bits_of_partner())
    }),
    ("that the end of one isn't that of all", InHistory, |made| instead_if(made, made.ends(), 0)),
    ("that no number is taken off", InHistory, |made| instead_if(made, made.ends(), made.map.wrapping_sub(made.bit()))),
];

/// What else could be done to the map in each done call.
pub const WRONG_KEPT: [Overlooked<After>; 10] = [
    ("that a map isn't rebuilt in passing", InHistory, |made| instead_if(made, made.is_done(), made.map_after())),
    ("that a partner's bits aren't, either", InHistory, |made| {
        let own = made.bits_of_partner();
        instead_if(made, made.is_done(), made.right() & !own | made.map_after() & own)
    }),
    ("that bits of closed connections stay", InHistory, |made| {
        instead_if(made, made.is_done(), made.right() & made.map_after())
    }),
    ("that missing bits stay away", InHistory, |made| {
        instead_if(made, made.is_done(), made.right() | made.map_after())
    }),
    ("the neighbours' bits", InHistory, |made| instead_if(made, made.is_done(), made.right() & made.bits_of_partner())),
    ("the map's high 32 bits", InHistory, |made| made.right() & u64::from(u32::MAX)),
    ("the map's highest bit", InHistory, |made| made.right() & (u64::MAX >> 1)),
    ("that the map says what isn't closed", InHistory, |made| !made.right()),
    ("that the map is that of after the call", InHistory, |made| made.map),
    ("that it is handed a map", InHistory, |made| made.map_before()),
];

/// The map that a call has which is refused with this number, if it is changed so.
fn refused(made: &Made, number: u32, map: u64) -> u64 {
    instead_if(made, made.answer.number == number && !made.is_start(), map)
}

/// The map as a refused call of this name would leave it.
fn refused_call(made: &Made, name: &str, map: u64) -> u64 {
    instead_if(made, !made.is_done() && made.call.name() == name, map)
}

pub const WRONG_REFUSED: [Overlooked<After>; 17] = [
    ("that 1 gives back the map", OnTables, |made| refused(made, 1, 0)),
    ("that 2 gives back the map", InHistory, |made| refused(made, 2, 0)),
    ("that 3 gives back the map", InHistory, |made| refused(made, 3, 0)),
    ("that 4 gives back the map", InHistory, |made| refused(made, 4, 0)),
    ("that 5 gives back the map", InHistory, |made| refused(made, 5, 0)),
    ("that 6 gives back the map", InHistory, |made| refused(made, 6, 0)),
    ("that 7 gives back the map", InHistory, |made| refused(made, 7, 0)),
    ("that 8 gives back the map", InHistory, |made| refused(made, 8, 0)),
    ("that 9 gives back the map", InHistory, |made| refused(made, 9, 0)),
    ("that a refused open sets none", InHistory, |made| refused_call(made, "open", made.map | made.bit())),
    ("that a refused close clears none", InHistory, |made| refused_call(made, "close", made.map & !made.bit())),
    ("that a refused check clears none", InHistory, |made| refused_call(made, "keepalive", made.map & !made.bit())),
    ("that an open refused with 9 sets none", InHistory, |made| {
        instead_if(made, made.answer.number == 9 && made.call.name() == "open", made.map | made.bit())
    }),
    ("that ok 0 refused with 9 clears none", InHistory, |made| {
        instead_if(made, made.answer.number == 9 && made.call.message() == [1, 0], made.map & !made.bit())
    }),
    ("that an open refused with 4 sets none", InHistory, |made| {
        instead_if(made, made.answer.number == 4 && made.call.name() == "open", made.map | made.bit())
    }),
    ("that a close refused with 4 clears none", InHistory, |made| {
        instead_if(made, made.answer.number == 4 && made.call.name() == "close", made.map & !made.bit())
    }),
    ("that a refused call rebuilds no map", InHistory, |made| {
        instead_if(made, !made.is_done() && !made.is_start(), made.map_before())
    }),
];

/// The map after a fresh start, if it is answered so.
fn start(made: &Made, number: u32, map: u64) -> u64 {
    instead_if(made, made.is_start() && made.answer.number == number, map)
}

pub const WRONG_STARTS: [Overlooked<After>; 8] = [
    ("that a fresh relay's map is 0", InHistory, |made| start(made, 0, made.map)),
    ("that a fresh relay has no connections", InHistory, |made| start(made, 0, u64::MAX)),
    ("that a fresh relay has none of before", OnTables, |made| start(made, 0, made.map_before())),
    ("that a fresh relay's map is 0, agreeing or not", OnTables, |made| start(made, 0, made.map & !made.map_before())),
    ("that a start refused with 1 gives back the map", OnTables, |made| start(made, 1, 0)),
    ("that a start refused with 2 gives back the map", OnTables, |made| start(made, 2, 0)),
    ("that a start refused with 6 gives back the map", OnTables, |made| start(made, 6, 0)),
    ("that a refused start rebuilds no map", OnTables, |made| {
        instead_if(made, made.is_start() && !made.is_done(), made.map_before())
    }),
];
