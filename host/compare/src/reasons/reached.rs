//! Counts of what the explanations reached: each check of each call, each decision, and each kind of headroom.

use std::fmt;

use engine::reasons::{Reason, ESTABLISH, LEASE};
use model::Tables;

use crate::relay::boundary::Call;
use crate::relay::leases::Asked;
use crate::relay::prices::{row_of, ROWS};
use crate::relay::runs::decoded;
use crate::tally::Tally;

/// The checks that stop each call, and 0.
const CHECKS: [(&str, &[u32]); 4] = [
    ("open", &[0, 1, 2, 3, 4, 5, 9]),
    ("message", &[0, 1, 2, 3, 4, 5, 6, 7, 8, 9]),
    ("close", &[0, 1, 2, 3, 4, 5]),
    ("keepalive", &[0, 1, 2, 3, 4, 5]),
];

/// The names under which the conditions of done leases and the statuses of done establishes are counted.
const CONDITION: &str = "lease condition";
const STATUS: &str = "establish status";
/// The conditions of leases whose request has the cookie of a row that could be renewed.
const RENEWABLE: &str = "condition, renewable";
const DECISIONS: [(&str, &[u32]); 3] =
    [(CONDITION, &[0, 1, 2, 3, 4]), (RENEWABLE, &[0, 1, 2, 3, 4]), (STATUS, &[0, 1, 2, 3, 4, 5])];

/// The checks with which each kind of headroom comes; a free call that is done has none.
const HEADROOMS: [(&str, &[u32]); 5] = [
    ("headroom above 0", &[0]),
    ("headroom 0", &[0]),
    ("headroom -1", &[9]),
    ("headroom below -1", &[9]),
    ("no headroom", &[0, 1, 2, 3, 4, 5, 6, 7, 8]),
];

/// What the explanations of a test reached.
#[derive(Default)]
pub struct Reached {
    /// How often each call was explained with each check.
    checks: Tally,
    decisions: Tally,
    headrooms: Tally,
    /// The checks of the calls with a headroom, by what they cost.
    prices: Tally,
    /// The checks of the calls that name a length which no buffer has.
    beyond_memory: Tally,
}

impl Reached {
    /// Counts the reason of a call on these tables.
    pub fn count(&mut self, tables: &Tables, call: &Call, reason: &Reason) {
        self.checks.count(call.name(), reason.check);
        match reason.request {
            LEASE => {
                let renewable = Asked::new(&decoded(tables), call).and_then(|asked| asked.row_to_renew()).is_some();
                self.decisions.count(if renewable { RENEWABLE } else { CONDITION }, reason.condition);
            }
            ESTABLISH => self.decisions.count(STATUS, reason.condition),
            _ => {}
        }
        self.headrooms.count(kind_of_headroom(reason), reason.check);
        if reason.charged == 1 {
            let row = row_of(&decoded(tables), call).expect("a charged call");
            self.prices.count(row.name, reason.check);
        }
        if call.has_length_beyond_memory() {
            self.beyond_memory.count(call.name(), reason.check);
        }
    }

    /// Asserts that all of it was reached, and that no call had a check or a headroom that it can't have.
    pub fn assert_all(&self) {
        println!("{self}");
        self.checks.assert_just(&CHECKS);
        self.decisions.assert_just(&DECISIONS);
        self.headrooms.assert_just(&HEADROOMS);
        self.prices.assert_just(&ROWS.map(|row| (row.name, &[0, 9][..])));
        for (name, _) in CHECKS {
            self.beyond_memory.assert_reached(name, 0, true);
        }
        for name in ["message", "keepalive"] {
            self.beyond_memory.assert_reached(name, 5, true);
        }
    }
}

fn kind_of_headroom(reason: &Reason) -> &'static str {
    match (reason.charged, reason.headroom) {
        (0, _) => "no headroom",
        (_, 0) => "headroom 0",
        (_, -1) => "headroom -1",
        (_, 1..) => "headroom above 0",
        (_, ..-1) => "headroom below -1",
    }
}

impl fmt::Display for Reached {
    fn fmt(&self, out: &mut fmt::Formatter) -> fmt::Result {
        for tally in [&self.decisions, &self.headrooms, &self.prices] {
            tally.write_rows(out)?;
        }
        writeln!(out, "with lengths that no buffer has")?;
        self.beyond_memory.write_rows(out)?;
        writeln!(out, "all")?;
        self.checks.fmt(out)
    }
}
