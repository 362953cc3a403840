//! The checks, in their order, on a call and all that it brings: "the first that applies decides".

use crate::records::State;
use crate::relay::{Relay, Tables, CONNECTIONS};
use crate::requests::{RandomBytes, Request};
use crate::terms::StoredTerm;
use crate::TIME_LIMIT;

/// The least reply buffer, and the least relay buffer.
const BUFFER: u64 = 64;

/// The checks, by their numbers.
#[derive(Clone, Copy, Debug, PartialEq, Eq)]
pub enum Refusal {
    TableSize = 1,
    Time = 2,
    NoSuchConnection = 3,
    WrongState = 4,
    Buffers = 5,
    /// What is brought is no message that peers send, or no term.
    Invalid = 6,
    NotPermitted = 7,
    NoSession = 8,
    Allowance = 9,
}

/// A call of a connection. Of the buffers that it writes to it has the lengths, which may be any numbers.
#[derive(Clone, Copy)]
pub(crate) struct Call<'a> {
    pub now: u64,
    pub connection: u64,
    pub kind: Kind<'a>,
}

#[derive(Clone, Copy)]
pub(crate) enum Kind<'a> {
    Open { reply_length: u64 },
    Message { message: &'a [u8], random: &'a [u8], reply_length: u64, relay_length: u64 },
    Close { relay_length: u64 },
    Keepalive { reply_length: u64, relay_length: u64 },
}

impl Kind<'_> {
    /// The bytes that are received; the random bytes aren't.
    fn received(&self) -> usize {
        match self {
            Self::Message { message, .. } => message.len(),
            Self::Open { .. } | Self::Close { .. } | Self::Keepalive { .. } => 0,
        }
    }
}

/// What a call that has passed checks 1 to 8 asks for.
#[derive(Clone, Copy)]
pub(crate) enum Action<'a> {
    Open,
    Request(Request<'a>, RandomBytes<'a>),
    Close,
    Keepalive,
}

/// A call that has passed checks 1 to 8.
pub(crate) struct Passed<'a> {
    pub now: u64,
    pub caller: usize,
    pub action: Action<'a>,
    pub received: usize,
}

/// Checks 1 to 8; the ninth needs to know what the call would do. Gives the relay that the tables are, and what is asked of it.
pub(crate) fn check<'a>(tables: &Tables, call: &Call<'a>) -> Result<(Relay, Passed<'a>), Refusal> {
    let relay = Relay::decode(tables).ok_or(Refusal::TableSize)?;
    refuse_if(call.now >= TIME_LIMIT || call.now < relay.clock(), Refusal::Time)?;
    refuse_if(call.connection >= CONNECTIONS as u64, Refusal::NoSuchConnection)?;
    let caller = call.connection as usize;
    let action = relay.check_kind(caller, call.kind)?;
    Ok((relay, Passed { now: call.now, caller, action, received: call.kind.received() }))
}

/// The checks of a fresh start: "checks 1 and 2 and no trays", no time being "below the latest", and "other terms are
/// answered with 6, after checks 1 and 2". Gives the term to store.
pub(crate) fn check_fresh(tables: &Tables, now: u64, term: u64) -> Result<StoredTerm, Refusal> {
    Relay::decode(tables).ok_or(Refusal::TableSize)?;
    check_start(now, term)
}

/// Those that are not of the tables.
pub(crate) fn check_start(now: u64, term: u64) -> Result<StoredTerm, Refusal> {
    refuse_if(now >= TIME_LIMIT, Refusal::Time)?;
    StoredTerm::named(term).ok_or(Refusal::Invalid)
}

fn refuse_if(applies: bool, refusal: Refusal) -> Result<(), Refusal> {
    if applies {
        Err(refusal)
    } else {
        Ok(())
    }
}

impl Relay {
    /// Checks 4 to 8: "open on a connection not closed; message or close on a closed one", and what a call of each kind
    /// has to bring. For a keepalive they "apply as for close, with both trays at least 64".
    fn check_kind<'a>(&self, caller: usize, kind: Kind<'a>) -> Result<Action<'a>, Refusal> {
        let closed = self.connections[caller].state() == State::Closed;
        refuse_if(closed != matches!(kind, Kind::Open { .. }), Refusal::WrongState)?;
        match kind {
            Kind::Open { reply_length } => {
                refuse_if(reply_length < BUFFER, Refusal::Buffers)?;
                Ok(Action::Open)
            }
            Kind::Message { message, random, reply_length, relay_length } => {
                let random = RandomBytes::new(random).ok_or(Refusal::Buffers)?;
                refuse_if(reply_length < BUFFER, Refusal::Buffers)?;
                refuse_if(relay_length < BUFFER.max(message.len() as u64), Refusal::Buffers)?;
                Ok(Action::Request(self.check_message(caller, message)?, random))
            }
            Kind::Close { relay_length } => {
                refuse_if(relay_length < BUFFER, Refusal::Buffers)?;
                Ok(Action::Close)
            }
            Kind::Keepalive { reply_length, relay_length } => {
                refuse_if(reply_length.min(relay_length) < BUFFER, Refusal::Buffers)?;
                Ok(Action::Keepalive)
            }
        }
    }

    /// Checks 6 to 8.
    fn check_message<'a>(&self, caller: usize, message: &'a [u8]) -> Result<Request<'a>, Refusal> {
        let request = Request::decode(message).ok_or(Refusal::Invalid)?;
        refuse_if(!request.permitted_in(self.connections[caller].state()), Refusal::NotPermitted)?;
        refuse_if(request.needs_session() && self.in_session_with(caller).is_none(), Refusal::NoSession)?;
        Ok(request)
    }
}
