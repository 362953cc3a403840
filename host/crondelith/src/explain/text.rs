//! An explanation as lines for people.

use std::fmt::{self, Display};

use peer::grouped;
use server::Refusal;

use super::call::{Action, Call};
use super::explanation::{After, Allowance, Decision, Explanation};
use super::words;
use crate::words::{connection, counted, date, units};

impl Display for Explanation {
    fn fmt(&self, to: &mut fmt::Formatter) -> fmt::Result {
        let lines: Vec<_> = self.lines().iter().map(|(label, text)| format!("{label:<11} {text}")).collect();
        to.write_str(&lines.join("\n"))
    }
}

impl Explanation {
    fn lines(&self) -> Vec<(&'static str, String)> {
        let decision = self.decision().map(|decision| {
            let label = if matches!(decision, Decision::Lease(_)) { "Lease:" } else { "Session:" };
            (label, words::decision(decision))
        });
        let lines = [
            Some(("Call:", call(&self.call))),
            Some(("Time:", self.time())),
            Some(("Answer:", self.answer())),
            words::meaning(self).map(|meaning| ("Meaning:", meaning)),
            self.follows().map(|follows| ("Follows:", follows)),
            decision,
            self.expiration.map(|end| ("Until:", self.until(end))),
            Some(("Cost:", self.cost())),
            self.allowance().map(|allowance| ("Allowance:", allowance_left(allowance))),
            self.reason.shortfall().map(|_| ("Payable:", self.payable())),
        ];
        lines.into_iter().flatten().collect()
    }

    fn time(&self) -> String {
        let time = date(self.call.time);
        if self.call.time == self.clock {
            format!("{time}, the file's clock")
        } else {
            format!("{time}; the file's clock is at {}", self.clock)
        }
    }

    fn answer(&self) -> String {
        match self.refusal() {
            None => "0, it would be done".into(),
            Some(refusal @ Refusal(check)) => format!("{check}, it would be refused: {}", refusal.reason()),
        }
    }

    fn cost(&self) -> String {
        match (self.allowance(), self.is_free()) {
            (Some(Allowance { cost, .. }), _) => units(cost),
            (None, Some(true)) => "nothing, the call is free".into(),
            _ => "nothing, a call refused so isn't charged".into(),
        }
    }

    fn until(&self, end: u64) -> String {
        format!("{}, {} seconds later, unless it is extended", date(end), grouped(end - self.call.time))
    }

    fn payable(&self) -> String {
        let Some(time) = self.payable_at else { return "at no time that the relay's clock can have".into() };
        let seconds = counted(time - self.call.time, "second");
        format!("in {seconds}, at {}, if the partner makes no charged call meanwhile", date(time))
    }
}

fn call(call: &Call) -> String {
    let connection = connection(call.connection, call.partner());
    match &call.action {
        Action::Open { .. } => format!("open of {connection}"),
        Action::Close { .. } => format!("close of {connection}"),
        Action::Keepalive { .. } => format!("keepalive check of {connection}"),
        Action::Message { message, .. } => format!("message from {connection}: {}", described(message)),
    }
}

fn described(message: &[u8]) -> String {
    let length = counted(message.len() as u64, "byte");
    match message.first().map(|kind| (kind, words::type_name(*kind))) {
        Some((kind, Some(name))) => format!("{length}, type {kind} ({name})"),
        Some((kind, None)) => format!("{length}, type {kind}"),
        None => length,
    }
}

fn allowance_left(Allowance { level, after, .. }: Allowance) -> String {
    let level = units(level);
    match after {
        After::Left(left) => format!("the partner has {level} and keeps {}", grouped(left)),
        After::Short(short) => format!("the partner has {level}, {} too few", grouped(short)),
    }
}
