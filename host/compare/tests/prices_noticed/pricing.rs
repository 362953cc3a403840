//! A relay whose ways to charge can be replaced one by one.

use compare::relay::boundary::{Boundary, Call, Kind, Lent, Second};
use compare::relay::prices::{cost, row_of, Row};
use compare::relay::records;
use engine::relay::{Answer, NOBODY};
use model::{partner_of, Allowance, Relay, LEVEL_LIMIT};

/// A call that passes checks 1 to 8: the relay before it, and what it does if it is done.
pub struct Made {
    pub before: Relay,
    pub call: Call,
    pub caller: usize,
    pub done: Answer,
    /// The start of the reply, zero where it is shorter.
    pub reply: [u8; 6],
}

impl Made {
    pub fn now(&self) -> u64 {
        self.call.now
    }

    pub fn received(&self) -> u64 {
        self.call.message().len() as u64
    }

    pub fn replied(&self) -> u64 {
        self.done.reply.into()
    }

    pub fn relayed(&self) -> u64 {
        self.done.relay.into()
    }

    /// The right price of a charged call.
    pub fn price(&self) -> u64 {
        cost(self.call.message(), &self.done)
    }

    /// The cost before the bytes sent counted.
    pub fn old_cost(&self) -> u64 {
        32 + self.received()
    }

    pub fn allowance(&self) -> &Allowance {
        &self.before.allowances[partner_of(self.caller)]
    }

    /// What the partner has.
    pub fn level(&self) -> u64 {
        self.allowance().level_at(self.now())
    }

    pub fn is_charged(&self) -> bool {
        self.call.is_charged()
    }

    pub fn is_open(&self) -> bool {
        matches!(self.call.kind, Kind::Open { .. })
    }

    /// Whether it is a message that begins so.
    pub fn is(&self, start: &[u8]) -> bool {
        self.call.message().starts_with(start)
    }

    /// Whether it is a message whose reply begins so.
    pub fn replies(&self, start: &[u8]) -> bool {
        self.done.reply > 0 && self.reply.starts_with(start)
    }

    /// What a charged call is and costs on another relay.
    pub fn row_on(&self, change: impl FnOnce(&mut Relay)) -> Row {
        let mut relay = self.before.clone();
        change(&mut relay);
        row_of(&relay, &self.call).expect("a charged call")
    }

    /// The same at another time.
    pub fn row_at(&self, now: u64) -> Row {
        row_of(&self.before, &Call { now, ..self.call.clone() }).expect("a charged call")
    }
}

/// What a call costs; none if it is free.
pub type Price = fn(&Made) -> Option<u64>;
/// Whether a call of this price is refused.
pub type Refuses = fn(&Made, u64) -> bool;
/// What is stored of a call of this price that is done.
pub type Store = fn(&Made, u64) -> Allowance;
/// What a refused call leaves.
pub type Refused = fn(&Made, &mut Answer, &mut Relay);

/// Whether check 9 comes before the check of this number.
pub type ComesFirst = fn(u32) -> bool;

/// A way to charge; for all else it is the second implementation.
#[derive(Clone, Copy)]
pub struct Pricing {
    pub price: Price,
    pub refuses: Refuses,
    pub store: Store,
    pub refused: Refused,
    pub comes_first: ComesFirst,
}

/// As the papers say.
pub const RIGHT: Pricing = Pricing {
    price: |made| made.is_charged().then(|| made.price()),
    refuses: |made, price| price > made.level(),
    store: |made, price| Allowance { level: made.level().saturating_sub(price), updated: made.now() },
    refused: |_, _, _| {},
    comes_first: |_| false,
};

impl Boundary for Pricing {
    fn call(&self, call: &Call, lent: &mut Lent) -> Answer {
        let before = lent.clone();
        let Some((relay, caller)) = Relay::decode(&before.tables()).zip(call.caller()) else {
            return Second.call(call, lent);
        };
        // For a partner that has spent nothing.
        set_allowance(lent, caller, &Allowance { level: LEVEL_LIMIT, updated: 0 });
        let done = Second.call(call, lent);
        if done.number != 0 {
            *lent = before;
            return self.refuse(&relay, caller, call, done);
        }
        let made = Made { before: relay, call: call.clone(), caller, done, reply: start(lent.reply.lend()) };
        self.charge(&made, &before, lent)
    }
}

impl Pricing {
    /// The answer to a call that another check refuses.
    fn refuse(&self, relay: &Relay, caller: usize, call: &Call, answer: Answer) -> Answer {
        let level = || relay.allowances[partner_of(caller)].level_at(call.now);
        let too_dear = || call.is_charged() && cost(call.message(), &answer) > level();
        if (self.comes_first)(answer.number) && too_dear() {
            return Answer { number: 9, ..answer };
        }
        answer
    }

    /// Charges for what was done, or undoes it.
    fn charge(&self, made: &Made, before: &Lent, lent: &mut Lent) -> Answer {
        let left = match (self.price)(made) {
            Some(price) if (self.refuses)(made, price) => {
                // The right one: what is overlooked must show elsewhere.
                let record = records::of(&made.call, 9, made.price());
                let mut answer = Answer::from(([9, 0, 0, NOBODY, 0], before.map, record));
                let mut after = made.before.clone();
                (self.refused)(made, &mut answer, &mut after);
                *lent = before.clone();
                lent.set_tables(&after.encode());
                return answer;
            }
            Some(price) => (self.store)(made, price),
            None => made.allowance().clone(),
        };
        set_allowance(lent, made.caller, &left);
        made.done
    }
}

/// Writes the allowance of the caller's partner.
fn set_allowance(lent: &mut Lent, caller: usize, allowance: &Allowance) {
    let record = [allowance.level.to_be_bytes(), allowance.updated.to_be_bytes()].concat();
    lent.allowances.lend_mut()[record.len() * partner_of(caller)..][..record.len()].copy_from_slice(&record);
}

fn start(bytes: &[u8]) -> [u8; 6] {
    let mut start = [0; 6];
    let length = bytes.len().min(start.len());
    start[..length].copy_from_slice(&bytes[..length]);
    start
}
