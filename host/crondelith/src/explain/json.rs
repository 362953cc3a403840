//! An explanation as a JSON object. Its names are for programs and stay as they are; one that doesn't apply is left out.

use serde_json::{json, Value};

use super::call::Action;
use super::explanation::{After, Decision, Explanation};
use super::words;
use crate::output::known;

impl Explanation {
    pub fn to_json(&self) -> Value {
        known(self.about_call().into_iter().chain(self.about_answer()).chain(self.about_allowance()))
    }

    fn about_call(&self) -> [(&'static str, Value); 7] {
        let call = match self.call.action {
            Action::Open { .. } => "open",
            Action::Message { .. } => "message",
            Action::Close { .. } => "close",
            Action::Keepalive { .. } => "keepalive",
        };
        let message = self.call.message();
        [
            ("call", json!(call)),
            ("connection", json!(self.call.connection)),
            ("partner", json!(self.call.partner())),
            ("time", json!(self.call.time)),
            ("clock", json!(self.clock)),
            ("message_length", json!(message.map(<[u8]>::len))),
            ("message_type", json!(message.and_then(<[u8]>::first))),
        ]
    }

    fn about_answer(&self) -> [(&'static str, Value); 10] {
        let decision = self.decision();
        let (request, condition, status) = match decision {
            Some(Decision::Lease(condition)) => (Some("lease"), Some(condition), None),
            Some(Decision::Establish { status, .. }) => (Some("establish"), None, Some(status)),
            None => (None, None, None),
        };
        [
            ("check", json!(self.reason.check)),
            ("done", json!(self.refusal().is_none())),
            ("reason", json!(self.refusal().map(|refusal| refusal.reason()))),
            ("meaning", json!(words::meaning(self))),
            ("follows", json!(self.follows())),
            ("request", json!(request)),
            ("condition", json!(condition)),
            ("status", json!(status)),
            ("decision", json!(decision.map(words::decision))),
            ("expiration", json!(self.expiration)),
        ]
    }

    fn about_allowance(&self) -> [(&'static str, Value); 8] {
        let allowance = self.allowance();
        let left = allowance.and_then(|allowance| match allowance.after {
            After::Left(units) => Some(units),
            After::Short(_) => None,
        });
        [
            ("free", json!(self.is_free())),
            ("cost", json!(allowance.map(|allowance| allowance.cost))),
            ("level", json!(allowance.map(|allowance| allowance.level))),
            ("headroom", json!(allowance.map(|_| self.reason.headroom))),
            ("left", json!(left)),
            ("shortfall", json!(self.reason.shortfall())),
            ("payable_at", json!(self.payable_at)),
            ("payable_after", json!(self.payable_at.map(|time| time - self.call.time))),
        ]
    }
}
