//! The five calls. Each is checked first and then acts on a decoded copy of the tables, so that one refused alters no
//! byte.

use codec::{encode, Message};

use crate::checks::{check, check_fresh, Action, Call, Kind, Passed, Refusal};
use crate::journal::{Entry, EntryBytes, NO_ENTRY};
use crate::keepalives::Due;
use crate::maps::{Map, FRESH_MAP};
use crate::records::{Connection, Session, State};
use crate::relay::{Relay, Tables};
use crate::requests::{RandomBytes, Request};
use crate::NOBODY;

#[derive(Clone, Copy, Debug, PartialEq, Eq)]
pub struct Answer {
    /// 0, or the number of the check that refused the call.
    pub number: u32,
    /// Bytes in the reply buffer.
    pub reply: usize,
    /// Bytes in the relay buffer.
    pub relay: usize,
    /// The connection that they are for, or [`NOBODY`].
    pub destination: usize,
    /// The scope's hang-up.
    pub disconnect: bool,
    /// The map of the connections afterwards.
    pub map: u64,
    /// The call's record in the journal.
    pub record: EntryBytes,
}

impl Answer {
    /// The numbers in the order above, the map and the record apart, as include/crondelith.h has them.
    pub fn numbers(self) -> ([u32; 5], u64, EntryBytes) {
        let Self { number, reply, relay, destination, disconnect, map, record } = self;
        ([number, reply as u32, relay as u32, destination as u32, disconnect.into()], map, record)
    }
}

/// What an accepted call sends and asks for.
#[derive(Default)]
pub(crate) struct Sent {
    reply: Vec<u8>,
    relay: Option<(usize, Vec<u8>)>,
    disconnect: bool,
}

impl Sent {
    fn reply(message: Message) -> Self {
        Self { reply: bytes(message), ..Self::default() }
    }

    fn relay(to: usize, message: Message) -> Self {
        Self { relay: Some((to, bytes(message))), ..Self::default() }
    }

    /// The bytes in both buffers.
    pub fn length(&self) -> usize {
        self.reply.len() + self.relay.as_ref().map_or(0, |(_, relayed)| relayed.len())
    }
}

fn bytes(message: Message) -> Vec<u8> {
    encode(&message).expect("the relay's own messages are in range")
}

/// Makes a fresh relay, whose leases last so many seconds; 0 for the usual term.
pub fn fresh(tables: &mut Tables, mut map: u64, now: u64, term: u64) -> Answer {
    let done = check_fresh(tables, now, term).map(|term| {
        *tables = Relay::fresh(now, term).encode();
        map = FRESH_MAP;
        Sent::default()
    });
    deliver((done, NO_ENTRY), map, &mut [], &mut [])
}

/// Opens a connection.
pub fn open(tables: &mut Tables, mut map: u64, now: u64, connection: u64, reply: &mut [u8]) -> Answer {
    let kind = Kind::Open { reply_length: reply.len() as u64 };
    deliver(attempt(tables, &mut map, Call { now, connection, kind }), map, reply, &mut [])
}

/// Takes a message from a connection.
#[allow(clippy::too_many_arguments, reason = "these are what the scope lends a message")]
pub fn message(
    tables: &mut Tables,
    mut map: u64,
    now: u64,
    connection: u64,
    message: &[u8],
    random: &[u8],
    reply: &mut [u8],
    relay: &mut [u8],
) -> Answer {
    let (reply_length, relay_length) = (reply.len() as u64, relay.len() as u64);
    let kind = Kind::Message { message, random, reply_length, relay_length };
    deliver(attempt(tables, &mut map, Call { now, connection, kind }), map, reply, relay)
}

/// Closes a connection.
pub fn close(tables: &mut Tables, mut map: u64, now: u64, connection: u64, relay: &mut [u8]) -> Answer {
    let kind = Kind::Close { relay_length: relay.len() as u64 };
    deliver(attempt(tables, &mut map, Call { now, connection, kind }), map, &mut [], relay)
}

/// Finds out whether a connection is dead.
pub fn keepalive(
    tables: &mut Tables,
    mut map: u64,
    now: u64,
    connection: u64,
    reply: &mut [u8],
    relay: &mut [u8],
) -> Answer {
    let kind = Kind::Keepalive { reply_length: reply.len() as u64, relay_length: relay.len() as u64 };
    deliver(attempt(tables, &mut map, Call { now, connection, kind }), map, reply, relay)
}

/// Makes a call on a copy of the relay, which becomes the relay if the call is accepted; then the map follows. Refused or
/// not, the call has a record.
fn attempt(tables: &mut Tables, map: &mut u64, call: Call) -> (Result<Sent, Refusal>, EntryBytes) {
    let mut charge = 0;
    let done = check(tables, &call).and_then(|(before, passed)| {
        let plan = before.plan(&passed);
        charge = plan.price.unwrap_or(0);
        let (after, sent) = plan.carry_out(&passed)?;
        *map = Map::decode(*map).after_call(&before, &after).encode();
        *tables = after.encode();
        Ok(sent)
    });
    let record = Entry::of(&call, done.as_ref().err().copied(), charge);
    (done, record)
}

/// "each tray starts with its message, and its further bytes stay"; "Refusals 1 to 9 report 0, 0, 255, no".
fn deliver(
    (done, record): (Result<Sent, Refusal>, EntryBytes),
    map: u64,
    reply: &mut [u8],
    relay: &mut [u8],
) -> Answer {
    let (number, sent) = match done {
        Ok(sent) => (0, sent),
        Err(refusal) => (refusal as u32, Sent::default()),
    };
    let (destination, relayed) = sent.relay.unwrap_or((NOBODY.into(), Vec::new()));
    reply[..sent.reply.len()].copy_from_slice(&sent.reply);
    relay[..relayed.len()].copy_from_slice(&relayed);
    let (reply, relay, disconnect) = (sent.reply.len(), relayed.len(), sent.disconnect);
    Answer { number, reply, relay, destination, disconnect, map, record }
}

impl Relay {
    /// The effect of a call that has passed every check, but for its charge.
    pub(crate) fn act(&mut self, passed: &Passed) -> Sent {
        let Passed { caller, now, .. } = *passed;
        let sent = match passed.action {
            Action::Open => self.open(caller),
            Action::Request(request, random) => self.serve(caller, request, random, now),
            Action::Close => self.close(caller),
            Action::Keepalive => self.keepalive(caller, now),
        };
        self.note_sent(caller, &sent, now);
        self.set_clock(now);
        sent
    }

    /// "the reading of the last message sent to it": a reply is sent to the caller, what is relayed to the other.
    fn note_sent(&mut self, caller: usize, sent: &Sent, now: u64) {
        let replied_to = (!sent.reply.is_empty()).then_some(caller);
        let relayed_to = sent.relay.as_ref().map(|&(to, _)| to);
        for receiver in replied_to.into_iter().chain(relayed_to) {
            self.connections[receiver].sent = now;
        }
    }

    fn open(&mut self, caller: usize) -> Sent {
        self.connections[caller] = Connection::fresh(State::Awaiting);
        Sent::reply(Message::ProtocolVersion { major: 1, minor: 0 })
    }

    fn close(&mut self, caller: usize) -> Sent {
        let sent = self.end(caller);
        self.release_leases(caller);
        self.connections[caller] = Connection::fresh(State::Closed);
        sent
    }

    fn keepalive(&mut self, caller: usize, now: u64) -> Sent {
        match self.connections[caller].due(now) {
            Due::Nothing => Sent::default(),
            Due::Ask => {
                self.connections[caller].set_asked(now);
                Sent::reply(Message::Keepalive)
            }
            // "closed as by close, hang-up yes"
            Due::Close => Sent { disconnect: true, ..self.close(caller) },
        }
    }

    fn serve(&mut self, caller: usize, request: Request, random: RandomBytes, now: u64) -> Sent {
        // "Any done message from the connection clears byte 2."
        self.connections[caller].unanswered = 0;
        match request {
            Request::VersionAnswer { ok } => self.answer_version(caller, ok),
            Request::Lease { cookie } => Sent::reply(match self.lease(caller, cookie, random, now) {
                Some((id, ref cookie, expiration)) => Message::LeaseGranted { id, cookie, expiration },
                None => Message::LeaseRefused,
            }),
            Request::Extension { cookie } => Sent::reply(match self.extend(caller, cookie, now) {
                Some(expiration) => Message::ExtensionGranted { expiration },
                None => Message::ExtensionRefused,
            }),
            Request::Establish { id } => self.answer_establish(caller, id, random, now),
            Request::SessionEnd => self.end(caller),
            Request::Data { data } => match self.in_session_with(caller) {
                Some(other) => Sent::relay(other, Message::DataReceive { data }),
                None => Sent::default(),
            },
            // "nothing sent; a reply would start an endless exchange"
            Request::Keepalive => Sent::default(),
        }
    }

    /// "ok 1 gives state 2; ok 0 puts the record back to fresh and hangs up"
    fn answer_version(&mut self, caller: usize, ok: bool) -> Sent {
        if ok {
            self.connections[caller].set_state(State::Open);
        } else {
            self.connections[caller] = Connection::fresh(State::Closed);
        }
        Sent { disconnect: !ok, ..Sent::default() }
    }

    /// "reply is type 7 with the caller's pair, relay is type 8 with the holder's pair, to the holder"
    fn answer_establish(&mut self, caller: usize, id: u32, random: RandomBytes, now: u64) -> Sent {
        match self.establish(caller, id, random, now) {
            Err(status) => Sent::reply(Message::EstablishRefused { id, status }),
            Ok(holder) => {
                let (own, others) = (random.session_of_caller(), random.session_of_holder());
                let told = Sent::relay(holder, Message::EstablishNotification { session: fields(&others) });
                Sent { reply: bytes(Message::Established { id, session: fields(&own) }), ..told }
            }
        }
    }

    /// Ends the session, if there is one: "relay is type 10 to the other".
    fn end(&mut self, caller: usize) -> Sent {
        match self.end_session(caller) {
            Some(other) => Sent::relay(other, Message::SessionEndNotification),
            None => Sent::default(),
        }
    }
}

fn fields(session: &Session) -> codec::Session<'_> {
    codec::Session { id: &session.id, peer: &session.peer, key: &session.key }
}
