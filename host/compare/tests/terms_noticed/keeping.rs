//! A relay whose ways to keep the term can be replaced one by one.

use compare::guarded::Guarded;
use compare::relay::boundary::{Boundary, Call, Kind, Lent, Second};
use compare::relay::noticed::edit;
use compare::relay::runs::decoded;
use compare::relay::terms::Leased;
use engine::relay::Answer;
use model::{Common, StoredTerm, Tables};

/// A call on tables of the right sizes that isn't a fresh start, and what is answered.
pub struct Made<'a> {
    pub call: &'a Call,
    pub answer: Answer,
    /// The number that the tables keep the term as, before the call.
    pub number: u64,
}

impl Made<'_> {
    /// The seconds that the number stands for.
    pub fn seconds(&self) -> u64 {
        StoredTerm(self.number).seconds()
    }

    pub fn is_done(&self) -> bool {
        self.answer.number == 0
    }

    /// Whether it is a done message of this type.
    pub fn is_done_message(&self, message_type: u8) -> bool {
        self.is_done() && self.call.message().first() == Some(&message_type)
    }
}

/// A lease that a call gives, renews or extends.
pub struct Given {
    pub now: u64,
    pub how: Leased,
    /// When it would have ended.
    pub old_expiry: u64,
    /// What the tables keep beside, before the call.
    pub common: Common,
}

impl Given {
    /// The right number of seconds that it lasts.
    pub fn seconds(&self) -> u64 {
        self.common.term.seconds()
    }
}

/// The number that a fresh start stores of this term; none if it is refused.
pub type Named = fn(u64) -> Option<u64>;
/// Whether the term is checked before the check of this number.
pub type ComesFirst = fn(u32) -> bool;
/// What a start at this time leaves whose term is refused.
pub type Refused = fn(&mut Lent, u64);
/// When the lease ends, by its row and by the reply.
pub type Ends = fn(&Given) -> [u64; 2];
/// The number in the tables after the call.
pub type Kept = fn(&Made) -> u64;

/// A way to keep the term; for all else it is the second implementation.
#[derive(Clone, Copy)]
pub struct Keeping {
    pub named: Named,
    pub comes_first: ComesFirst,
    pub refused: Refused,
    pub ends: Ends,
    pub kept: Kept,
}

/// As the papers say.
pub const RIGHT: Keeping = Keeping {
    named: |term| match term {
        0 => Some(600),
        600..=86_400 => Some(term),
        _ => None,
    },
    comes_first: |_| false,
    refused: |_, _| {},
    ends: |given| lasting(given, given.seconds()),
    kept: |made| made.number,
};

/// The end of a lease that lasts for so many seconds from now on.
pub fn lasting(given: &Given, seconds: u64) -> [u64; 2] {
    [given.now.wrapping_add(seconds); 2]
}

impl Boundary for Keeping {
    fn call(&self, call: &Call, lent: &mut Lent) -> Answer {
        if let Kind::Fresh { term } = call.kind {
            return self.start(call.now, term, lent);
        }
        let before = lent.tables();
        let answer = Second.call(call, lent);
        if answer.number != SIZES {
            self.lease(&before, call, &answer, lent);
            let number = number_in(&mut lent.allowances);
            *number = (self.kept)(&Made { call, answer, number: u64::from_be_bytes(*number) }).to_be_bytes();
        }
        answer
    }
}

/// The check that refuses tables of other sizes.
const SIZES: u32 = 1;

/// The bytes of the number that the tables keep the term as.
fn number_in(allowances: &mut Guarded) -> &mut [u8; 8] {
    let [.., term, _clock] = allowances.lend_mut().as_chunks_mut().0 else { panic!("allowances") };
    term
}

impl Keeping {
    fn start(&self, now: u64, term: u64, lent: &mut Lent) -> Answer {
        let before = lent.clone();
        let answer = Second.call(&Call { now, kind: Kind::Fresh { term: 0 } }, lent);
        match ((self.named)(term), answer.number) {
            (Some(number), 0) => *number_in(&mut lent.allowances) = number.to_be_bytes(),
            (None, 0) => {
                *lent = before;
                (self.refused)(lent, now);
                return Answer { number: 6, map: lent.map, ..answer };
            }
            (None, check) if (self.comes_first)(check) => return Answer { number: 6, ..answer },
            _ => {}
        }
        answer
    }

    /// Writes the end of the lease, if the call gives or extends one.
    fn lease(&self, before: &Tables, call: &Call, answer: &Answer, lent: &mut Lent) {
        let reply = &mut lent.reply.lend_mut()[..answer.reply as usize];
        if !matches!(reply, [3 | 5, 1, ..]) {
            return;
        }
        let before = decoded(before);
        let (how, row) = Leased::by(&before, call, reply).expect("a lease, as the reply says");
        let old_expiry = before.leases[row].expiry;
        let given = Given { now: call.now, how, old_expiry, common: before.common };
        let [expiry, expiration] = (self.ends)(&given);
        *reply.last_chunk_mut().expect("a reply with an expiration") = expiration.to_be_bytes();
        edit(lent, |relay| relay.leases[row].expiry = expiry);
    }
}
