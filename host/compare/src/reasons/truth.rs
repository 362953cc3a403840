//! "The reason named must be the true one": the call is made, and what the relay does must bear the reason out.

use engine::reasons::{Reason, ESTABLISH, LEASE};
use model::{partner_of, Tables};

use crate::difference::{same, Difference};
use crate::relay::agree::{self, describe, Outcome};
use crate::relay::boundary::{Boundary, Call};
use crate::relay::maps::agreeing;
use crate::relay::prices::cost;
use crate::relay::runs::decoded;

/// Makes the call of the relay on copies of the tables, and compares what it does with the reason.
pub fn check(relay: &impl Boundary, tables: &Tables, call: &Call, reason: &Reason) -> Result<(), Difference> {
    let outcome = agree::call(relay, tables, agreeing(tables), call)?;
    let described = || format!("{reason:?} of {}", describe(call, tables));
    same(described, &reason.check, &outcome.answer.number)?;
    check_decision(described, reason, outcome.reply())?;
    check_headroom(described, reason, tables, call, &outcome)?;
    if reason.check == 9 {
        check_shortfall(relay, tables, call, reason.headroom)?;
    }
    Ok(())
}

/// The reply to a done lease is of type 3 and says whether it is accepted, that to an establish of type 7, with the status
/// in byte 5.
fn check_decision(described: impl Fn() -> String, reason: &Reason, reply: &[u8]) -> Result<(), Difference> {
    let Reason { request, condition, .. } = *reason;
    match *reply {
        [3, accepted, ..] => same(described, &(request, condition == 0), &(LEASE, accepted == 1)),
        [7, _, _, _, _, status, ..] => same(described, &(request, condition), &(ESTABLISH, status.into())),
        _ => same(described, &(request, condition), &(0, 0)),
    }
}

/// A done charged call leaves the headroom as its partner's level, and has cost the rest; one refused with 9 is short of something; and no
/// other has a headroom.
fn check_headroom(
    described: impl Fn() -> String,
    reason: &Reason,
    tables: &Tables,
    call: &Call,
    outcome: &Outcome,
) -> Result<(), Difference> {
    let Reason { charged, headroom, .. } = *reason;
    match (outcome.answer.number, call.caller()) {
        (0, Some(caller)) if call.is_charged() => {
            let left = decoded(&outcome.lent.tables()).allowances[partner_of(caller)].level;
            same(&described, &(charged, i128::from(headroom)), &(1, left.into()))?;
            let spent = level_of_caller(tables, call) - left;
            same(described, &spent, &cost(call.message(), &outcome.answer))
        }
        (9, ..) => same(described, &(charged, headroom < 0), &(1, true)),
        _ => same(described, &(charged, headroom), &(0, 0)),
    }
}

/// What the caller's partner has before the call.
fn level_of_caller(tables: &Tables, call: &Call) -> u64 {
    let partner = partner_of(call.caller().expect("a call that passes check 3"));
    decoded(tables).allowances[partner].level_at(call.now)
}

/// "negative by exactly the shortfall": with so many units more the same call is accepted, with one fewer it isn't. What
/// it then costs is the level and what was missing.
fn check_shortfall(relay: &impl Boundary, tables: &Tables, call: &Call, headroom: i64) -> Result<(), Difference> {
    let partner = partner_of(call.caller().expect("a call that is refused with 9"));
    let missing = headroom.unsigned_abs();
    for (more, number) in [(missing, 0), (missing - 1, 9)] {
        let mut richer = decoded(tables);
        let level = &mut richer.allowances[partner].level;
        *level = level.saturating_add(more);
        let answer = agree::call(relay, &richer.encode(), richer.map(), call)?.answer;
        let described = || format!("with {more} units more {}", describe(call, tables));
        same(described, &answer.number, &number)?;
        if answer.number == 0 {
            same(described, &cost(call.message(), &answer), &(level_of_caller(tables, call) + missing))?;
        }
    }
    Ok(())
}
