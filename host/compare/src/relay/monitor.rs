//! Demand 3, checked on a run from its history alone: the calls with their answers, and nothing from the tables. The price
//! alone by which a refusal is judged needs the relay before the call: "A lease's cost may now hang on ids live elsewhere".

use std::collections::HashMap;
use std::fmt;

use engine::relay::Answer;
use model::{partner_of, Relay, LEVEL_LIMIT, PARTNERS, REFILL};

use super::boundary::{Boundary, Call, Lent, Second};
use super::prices::{cost, row_of};
use crate::tally::Tally;

/// "the two seconds in 01 become three"
const RETRY_AFTER: u64 = 3;

/// The names under which calls are counted that were refused with 9 and are made again, by the seconds since.
const AGAIN: [&str; RETRY_AFTER as usize + 1] =
    ["again at once", "again a second later", "again two seconds later", "again three or more later"];

/// A call of the history, as far as the allowances are concerned.
#[derive(Clone, Debug)]
pub struct Entry {
    pub now: u64,
    /// Whose allowance it is, if there is such a connection.
    pub partner: Option<usize>,
    pub charged: bool,
    /// What a charged call that checks 1 to 8 let pass costs if it is done.
    pub price: Option<u64>,
    /// The message, or none for another call.
    pub message: Vec<u8>,
    pub answer: Answer,
}

impl Entry {
    pub fn new(relay: &Relay, call: &Call, answer: Answer) -> Self {
        Self {
            now: call.now,
            partner: call.caller().map(partner_of),
            charged: call.is_charged(),
            price: row_of(relay, call).filter(|_| passes(relay, call)).map(|row| row.price),
            message: call.message().to_vec(),
            answer,
        }
    }

    fn accepted(&self) -> bool {
        self.answer.number == 0
    }

    /// Of an accepted charged call what it cost, from the call and its answer alone.
    fn cost(&self) -> u64 {
        cost(&self.message, &self.answer)
    }
}

/// Whether checks 1 to 8 let the call pass: the second implementation accepts it from a partner that has spent nothing,
/// as no call costs more than the limit.
fn passes(relay: &Relay, call: &Call) -> bool {
    let mut unspent = relay.clone();
    for allowance in &mut unspent.allowances {
        allowance.level = LEVEL_LIMIT;
    }
    Second.call(call, &mut Lent::new(&unspent.encode(), unspent.map(), call)).number == 0
}

/// What is wrong with a history.
pub struct Fault(pub(super) String);

impl fmt::Debug for Fault {
    fn fmt(&self, out: &mut fmt::Formatter) -> fmt::Result {
        out.write_str(&self.0)
    }
}

/// The history of a partner.
#[derive(Default)]
pub(super) struct Partner {
    /// Time and cost of each accepted charged call.
    charges: Vec<(u64, u64)>,
    /// The messages refused with 9 since the last of these, with the time of the first refusal.
    refused: HashMap<Vec<u8>, u64>,
}

impl Partner {
    /// The scope's figure: "the smallest of 262,144 and, for each of its accepted charged calls, 262,144 + 65,536 x
    /// (reading - that call's reading) - the charges of the partner's accepted calls from that one on, that one's
    /// included". Nothing is cut off at 0.
    fn level(&self, now: u64) -> i64 {
        let mut spent = 0;
        let mut level = LEVEL_LIMIT as i64;
        for &(time, cost) in self.charges.iter().rev() {
            spent += cost as i64;
            level = level.min(allowed(time, now) - spent);
        }
        level
    }

    /// The first accepted charged call from which on, up to the last, more was spent than the bound allows.
    fn overspent(&self) -> Option<(u64, i64)> {
        let (last, _) = *self.charges.last()?;
        let mut spent = 0;
        let sums = self.charges.iter().rev().map(|&(time, cost)| {
            spent += cost as i64;
            (time, spent)
        });
        sums.filter(|&(time, spent)| spent > allowed(time, last)).last()
    }

    /// Notes an accepted charged call of the partner, which has this number.
    pub fn spend(&mut self, number: usize, now: u64, cost: u64) -> Result<(), Fault> {
        self.charges.push((now, cost));
        match self.overspent() {
            None => Ok(()),
            Some((from, spent)) => Err(Fault(format!("partner {number} spent {spent} from {from} to {now}"))),
        }
    }
}

/// The bound: 262,144 and 65,536 for each second between the two.
fn allowed(from: u64, to: u64) -> i64 {
    LEVEL_LIMIT as i64 + REFILL as i64 * (to as i64 - from as i64)
}

/// Asserts that runs came to refusals that are repeated up to the third second, and to calls accepted from then on.
pub fn assert_retries(retries: &Tally) {
    let [at_once, after_one, after_two, after_three] = AGAIN;
    let reached = [(at_once, 9), (after_one, 9), (after_one, 0), (after_two, 9), (after_two, 0), (after_three, 0)];
    for (name, number) in reached {
        retries.assert_reached(name, number, true);
    }
    retries.assert_reached(after_three, 9, false);
}

/// Follows a run call by call.
pub struct Monitor {
    /// The time of the last accepted call.
    clock: u64,
    partners: [Partner; PARTNERS],
    /// Calls refused with 9 that were made again before any other was paid for, and their answers.
    retries: Tally,
}

impl Monitor {
    /// Of a run that starts at this time.
    pub fn new(start: u64) -> Self {
        Self { clock: start, partners: Default::default(), retries: Tally::default() }
    }

    /// Checks the next call of the run against those before it.
    pub fn record(&mut self, entry: &Entry) -> Result<(), Fault> {
        self.check_refusal(entry)?;
        if entry.accepted() {
            self.clock = entry.now;
        }
        match (entry.partner, entry.answer.number) {
            (Some(partner), 0) if entry.charged => {
                self.note_retry(partner, entry);
                self.partners[partner].refused.clear();
                self.partners[partner].spend(partner, entry.now, entry.cost())?;
                check_cost(entry)
            }
            (Some(partner), 9) => {
                self.note_retry(partner, entry);
                self.note_refusal(partner, entry)
            }
            _ => Ok(()),
        }
    }

    /// 9 exactly when the call passes the checks before, is charged, and costs more than the partner has left.
    fn check_refusal(&self, entry: &Entry) -> Result<(), Fault> {
        let expected = match (entry.partner, entry.price) {
            (Some(partner), Some(price)) => price as i64 > self.partners[partner].level(entry.now),
            _ => false,
        };
        let number = entry.answer.number;
        if expected == (number == 9) {
            return Ok(());
        }
        Err(Fault(format!("answered {number}, but over the allowance: {expected}: {}", shown(entry))))
    }

    fn note_retry(&mut self, partner: usize, entry: &Entry) {
        if let Some(first) = self.partners[partner].refused.get(&entry.message) {
            let seconds = RETRY_AFTER.min(entry.now.saturating_sub(*first));
            self.retries.count(AGAIN[seconds as usize], entry.answer.number);
        }
    }

    /// "a partner refused with 9 that then makes no accepted charged call is not refused with 9 for the same bytes
    /// [three] seconds of clock later"
    fn note_refusal(&mut self, partner: usize, entry: &Entry) -> Result<(), Fault> {
        let first = *self.partners[partner].refused.entry(entry.message.clone()).or_insert(entry.now);
        if entry.now < first + RETRY_AFTER {
            return Ok(());
        }
        Err(Fault(format!("refused at {first} and still: {}", shown(entry))))
    }

    /// Adds the calls made again to those of other runs.
    pub fn count_retries(&self, retries: &mut Tally) {
        retries.merge(&self.retries);
    }

    /// Checks that the level each partner has in the tables is that from history, now and at later times.
    pub fn check_levels(&self, relay: &Relay) -> Result<(), Fault> {
        for (number, partner) in self.partners.iter().enumerate() {
            for later in [0, 1, 2, 3, 4, 5, 3_600] {
                let now = self.clock + later;
                let (stored, level) = (relay.allowances[number].level_at(now), partner.level(now));
                if stored as i64 != level {
                    let (clock, had) = (self.clock, "in the tables");
                    return Err(Fault(format!(
                        "partner {number}, {later} after {clock}: {stored} {had}, {level} from history"
                    )));
                }
            }
        }
        Ok(())
    }
}

/// The cost that stands in history is the price by which the call was judged. One that no price was known of should have
/// been stopped before.
fn check_cost(entry: &Entry) -> Result<(), Fault> {
    if entry.price == Some(entry.cost()) {
        return Ok(());
    }
    Err(Fault(format!("cost {}: {}", entry.cost(), shown(entry))))
}

fn shown(entry: &Entry) -> String {
    let Entry { now, partner, price, message, .. } = entry;
    format!("at {now}, partner {partner:?}, price {price:?}, {}", crate::difference::shown(message))
}
