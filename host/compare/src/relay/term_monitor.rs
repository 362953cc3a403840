//! How long leases last, checked on a run from its history alone: the term that its start named, or the number that its tables
//! were found with, and the calls with their answers and replies. Of the tables it only sees that the number stays.

use codec::{decode, Message};
use model::CONNECTIONS;

use super::agree::Outcome;
use super::boundary::{Call, Kind};
use super::monitor::Fault;

/// The lease of a connection, as it was last told.
#[derive(Clone)]
struct Held {
    cookie: Vec<u8>,
    expiration: u64,
}

/// Follows a run call by call.
pub struct TermMonitor {
    seconds: u64,
    stored: u64,
    /// By connection, those that have closed since left out.
    held: Vec<Option<Held>>,
}

impl TermMonitor {
    /// Of a run whose start named this term, one that is accepted.
    pub fn named(term: u64) -> Self {
        let seconds = if term == 0 { 600 } else { term };
        Self { seconds, stored: seconds, held: vec![None; CONNECTIONS] }
    }

    /// Of a run on tables with this number.
    pub fn found(stored: u64) -> Self {
        let seconds = match stored {
            0 => 3_600,
            600..=86_400 => stored,
            _ => 600,
        };
        Self { seconds, stored, held: vec![None; CONNECTIONS] }
    }

    /// Checks the next call of the run against those before it.
    pub fn record(&mut self, call: &Call, outcome: &Outcome) -> Result<(), Fault> {
        self.check_stored(outcome.lent.allowances.lend())?;
        let (0, Some(caller)) = (outcome.answer.number, call.caller()) else {
            return Ok(());
        };
        match (decode(call.message()), decode(outcome.reply())) {
            (_, Some(Message::LeaseGranted { cookie, expiration, .. })) => self.note(call, caller, cookie, expiration),
            (Some(Message::ExtensionRequest { cookie }), Some(Message::ExtensionGranted { expiration })) => {
                self.check_live(call, caller, cookie, true)?;
                self.note(call, caller, cookie, expiration)
            }
            (Some(Message::ExtensionRequest { cookie }), _) => self.check_live(call, caller, cookie, false),
            _ => {
                let closes = matches!(call.kind, Kind::Open { .. } | Kind::Close { .. });
                if closes || outcome.answer.disconnect == 1 {
                    self.held[caller] = None;
                }
                Ok(())
            }
        }
    }

    /// The number in the tables is that of the start.
    fn check_stored(&self, allowances: &[u8]) -> Result<(), Fault> {
        let [.., term, _clock] = allowances.as_chunks().0 else {
            return Err(Fault("no allowances".into()));
        };
        if u64::from_be_bytes(*term) == self.stored {
            return Ok(());
        }
        Err(Fault(format!("the tables have {term:?} and no longer {}", self.stored)))
    }

    /// A connection is told of a lease, new, renewed or extended: from now on it lasts for the term.
    fn note(&mut self, call: &Call, caller: usize, cookie: &[u8], expiration: u64) -> Result<(), Fault> {
        self.held[caller] = Some(Held { cookie: cookie.to_vec(), expiration });
        if expiration == call.now + self.seconds {
            return Ok(());
        }
        Err(Fault(format!("{call:?}: until {expiration}, but the term is {}", self.seconds)))
    }

    /// The lease of which the connection was told last is extended exactly if it has not expired.
    fn check_live(&self, call: &Call, caller: usize, cookie: &[u8], extended: bool) -> Result<(), Fault> {
        match &self.held[caller] {
            Some(held) if held.cookie == cookie && extended != (call.now < held.expiration) => {
                Err(Fault(format!("{call:?}: extended: {extended}, but held until {}", held.expiration)))
            }
            _ => Ok(()),
        }
    }
}
