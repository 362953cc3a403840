//! Counts of what the calls reached: each answer of each call, and each effect.

use std::fmt;

use model::{Relay, Request, Tables, PARTNERS};

use super::agree::Outcome;
use super::boundary::{Call, Kind};
use super::leases::{self, Asked, LastHolders};
use super::{keepalives, maps, prices, terms};
use crate::tally::{Found, Outcomes, Tally};

/// The name under which each status of an establish request is counted.
const STATUS: &str = "establish status";

/// Effects that every comparison must have reached, beside the establish statuses, the leases and the answers.
const EFFECTS: [&str; 14] = [
    "extended",
    "not extended",
    "version accepted",
    "version refused, disconnect",
    "session ended",
    "data relayed",
    "longest data relayed",
    "keepalive sent by a peer",
    "closed awaiting",
    "closed in session",
    "closed without session",
    "closed, leases run on",
    "opened",
    "charged beside a spent one",
];

/// What the calls of a test reached.
#[derive(Default)]
pub struct Reached {
    /// How often each function gave each answer.
    answers: Tally,
    /// How often accepted calls had each effect; a call may have several.
    effects: Tally,
    /// What concerns keepalives.
    keepalives: Found,
    /// What charged calls cost.
    pub prices: prices::Reached,
    /// What concerns the term.
    pub terms: terms::Reached,
    /// What concerns the map.
    maps: maps::Reached,
}

impl Reached {
    /// Counts a call that was made on these tables, by its answer and its effects.
    pub fn count(&mut self, tables: &Tables, call: &Call, outcome: &Outcome) {
        self.answers.count(call.name(), outcome.answer.number);
        self.terms.count_start(tables, call, &outcome.answer);
        self.maps.count(tables, call, outcome);
        if let (Some(relay), Some(caller)) = (Relay::decode(tables), call.caller()) {
            keepalives::count(&mut self.keepalives, &relay, call, caller, outcome);
            self.prices.count(&relay, call, &outcome.answer);
            if outcome.answer.number == 0 {
                count_effects(&mut self.effects, &relay, call, caller, outcome);
                self.terms.count(&relay, call, caller, outcome);
            }
        }
    }

    /// Counts a lease request of a run, if the call is one, by who held the row last.
    pub fn count_return(&mut self, relay: &Relay, call: &Call, outcome: &Outcome, last: &LastHolders) {
        if let Some(asked) = Asked::new(relay, call) {
            asked.count_return(&mut self.effects, last, outcome);
        }
    }

    /// Asserts that each function had just these answers, with maps that agree and that don't, and that all effects were
    /// reached, these and these outcomes of keepalives among them, every price, leases of every term, and all that concerns the
    /// map.
    pub fn assert_all(&self, answers: &[(&str, &[u32])], further: &[&str], keepalives: &[Outcomes]) {
        println!("{self}");
        self.answers.assert_just(answers);
        for status in 0..=5 {
            self.effects.assert_reached(STATUS, status, true);
        }
        for name in EFFECTS.iter().chain(&leases::EVERYWHERE).chain(further) {
            self.effects.assert_reached(name, 0, true);
        }
        self.keepalives.assert_reached(keepalives);
        self.prices.assert_rows();
        self.terms.assert_leases();
        self.maps.assert_answers(answers);
        self.maps.assert_bits();
    }
}

impl fmt::Display for Reached {
    fn fmt(&self, out: &mut fmt::Formatter) -> fmt::Result {
        self.effects.write_rows(out)?;
        writeln!(out, "\n{}\n{}\n{}", self.keepalives, self.terms, self.maps)?;
        self.answers.fmt(out)
    }
}

fn count_effects(effects: &mut Tally, relay: &Relay, call: &Call, caller: usize, outcome: &Outcome) {
    match &call.kind {
        Kind::Message { message, .. } => {
            count_request(effects, Request::decode(message).expect("an accepted message"), outcome);
            if let Some(asked) = Asked::new(relay, call) {
                asked.count(effects);
            }
        }
        Kind::Close { .. } => count_close(effects, relay, caller, outcome),
        Kind::Open { .. } | Kind::Fresh { .. } => effects.count("opened", 0),
        Kind::Keepalive { .. } => {}
    }
    let spent = |partner: usize| relay.allowances[partner].level_at(call.now) < model::BASE_COST;
    if call.is_charged() && (0..PARTNERS).any(spent) {
        effects.count("charged beside a spent one", 0);
    }
}

fn count_request(effects: &mut Tally, request: Request, outcome: &Outcome) {
    let reply = outcome.reply();
    let name = match request {
        Request::Lease { .. } => return,
        Request::Establish { .. } => return effects.count(STATUS, reply[5].into()),
        Request::VersionAnswer { .. } if outcome.answer.disconnect == 1 => "version refused, disconnect",
        Request::VersionAnswer { .. } => "version accepted",
        Request::Extension { .. } if reply[1] == 1 => "extended",
        Request::Extension { .. } => "not extended",
        Request::SessionEnd => "session ended",
        Request::Data { .. } if outcome.relay().len() == 1 + codec::DATA_LIMIT => "longest data relayed",
        Request::Data { .. } => "data relayed",
        Request::Keepalive => "keepalive sent by a peer",
    };
    effects.count(name, 0);
}

fn count_close(effects: &mut Tally, relay: &Relay, caller: usize, outcome: &Outcome) {
    let name = match outcome.relay() {
        [] if !relay.is_open(caller) => "closed awaiting",
        [] => "closed without session",
        _ => "closed in session",
    };
    effects.count(name, 0);
    if relay.leases.iter().any(|lease| usize::from(lease.holder) == caller) {
        effects.count("closed, leases run on", 0);
    }
}
