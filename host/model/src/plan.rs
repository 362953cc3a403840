//! What a call that has passed checks 1 to 8 would do, and what that costs: "32 plus the bytes received plus the bytes that
//! it puts into both trays if done". It is worked out on a copy of the relay, which check 9 then keeps or drops.

use crate::calls::Sent;
use crate::checks::{Action, Passed, Refusal};
use crate::records::Allowance;
use crate::relay::{partner_of, Relay};
use crate::requests::Request;

/// What every charged call costs beside its bytes.
pub const BASE_COST: u64 = 32;

pub(crate) struct Plan {
    /// The relay afterwards, but for the charge.
    after: Relay,
    sent: Sent,
    /// Of a charged call what it costs if it is done.
    pub price: Option<u64>,
    /// Of a charged call "level minus charge, negative by exactly the shortfall".
    pub headroom: Option<i64>,
}

impl Plan {
    /// Check 9: "Equal cost and level passes". Gives the level that a charged call leaves.
    pub fn level_left(&self) -> Result<Option<u64>, Refusal> {
        let left = self.headroom.map(u64::try_from).transpose();
        left.map_err(|_| Refusal::Allowance)
    }

    /// The relay after the call, charged, and what it sends: "A done charged call stores the level left and its reading
    /// as moment."
    pub fn carry_out(mut self, passed: &Passed) -> Result<(Relay, Sent), Refusal> {
        if let Some(level) = self.level_left()? {
            self.after.allowances[partner_of(passed.caller)] = Allowance { level, updated: passed.now };
        }
        Ok((self.after, self.sent))
    }
}

impl Relay {
    pub(crate) fn plan(&self, passed: &Passed) -> Plan {
        let mut after = self.clone();
        let sent = after.act(passed);
        let level = self.allowances[partner_of(passed.caller)].level_at(passed.now);
        let cost = BASE_COST + (passed.received + sent.length()) as u64;
        let price = passed.action.is_charged().then_some(cost);
        Plan { after, sent, price, headroom: price.map(|price| level as i64 - price as i64) }
    }
}

impl Action<'_> {
    /// "SessionEnd, close and Item 3's call stay free."
    fn is_charged(&self) -> bool {
        !matches!(self, Self::Request(Request::SessionEnd, _) | Self::Close | Self::Keepalive)
    }
}
