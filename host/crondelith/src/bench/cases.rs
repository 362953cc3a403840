//! The calls that are measured, each with tables on which it can be repeated and is accepted every time.

pub mod leases;

use std::hint::black_box;

use codec::{Message, DATA_LIMIT};
use engine::relay::{self, Answer, BUFFER, NOBODY, RANDOM, RECORD};
use engine::RelayBuffer;
use model::Tables;
use server::LeaseTerm;

use super::relays::{Call, Engine, Kind, Lent, Relay};

/// Calls that are repeated one after the other.
pub struct Case {
    pub what: &'static str,
    pub calls: Vec<Call>,
    /// By how much the time grows with each repetition.
    pub seconds: u64,
    /// The tables, made by calls of the engine, and buffers.
    pub prepared: Lent,
    /// How the last reply must begin: an accepted lease doesn't yet show that the search for its id was the one meant.
    reply_start: &'static [u8],
}

impl Case {
    /// Makes the calls once. Whether each got its answer.
    pub fn repeat<R: Relay>(&self, lent: &mut Lent) -> bool {
        lent.now += self.seconds;
        self.calls.iter().all(|call| call.is_answered_by(R::call(black_box(call), lent)))
    }

    /// Whether a batch left the reply that was meant.
    pub fn is_replied(&self, lent: &Lent) -> bool {
        lent.reply.starts_with(self.reply_start)
    }
}

/// Partner 0's, which make the calls.
const CALLER: u64 = 0;
const HOLDER: u64 = 1;

const START: u64 = 1_000_000;
/// A connection is asked that was sent nothing for so long.
const KEEPALIVE_SECONDS: u64 = 30;
/// Fills any allowance.
const REFILL_SECONDS: u64 = 4;
/// A free id.
const FREE: u32 = 1;

/// Every case; None if the engine can't be brought to where one begins.
pub fn all() -> Option<Vec<Case>> {
    let mut cases = vec![open_and_close()?, keepalive()?, nothing_due()?, asked_and_answered()?];
    cases.extend(leases::all()?);
    cases.extend([
        establish_and_end()?,
        send("send of 1 byte", 1)?,
        send("send of 1,024 bytes", 1_024)?,
        send("send of 65,533 bytes", DATA_LIMIT)?,
    ]);
    Some(cases)
}

fn open_and_close() -> Option<Case> {
    let open = call(CALLER, Kind::Open, reply(13));
    let close = call(CALLER, Kind::Close, nothing());
    Some(Case {
        what: "open and close",
        calls: vec![open, close],
        seconds: REFILL_SECONDS,
        prepared: Lent::fresh(BUFFER)?,
        reply_start: b"\0SVSC 001.000",
    })
}

fn keepalive() -> Option<Case> {
    let mut prepared = Lent::fresh(BUFFER)?;
    prepared.open(CALLER)?;
    let keepalive = message(CALLER, Message::Keepalive, nothing())?;
    Some(Case { what: "keepalive", calls: vec![keepalive], seconds: REFILL_SECONDS, prepared, reply_start: &[] })
}

/// What the host asks about each connection once a second.
fn nothing_due() -> Option<Case> {
    let mut prepared = Lent::fresh(BUFFER)?;
    prepared.open(CALLER)?;
    let check = call(CALLER, Kind::Keepalive, nothing());
    Some(Case { what: "keepalive check, nothing due", calls: vec![check], seconds: 0, prepared, reply_start: &[] })
}

fn asked_and_answered() -> Option<Case> {
    let mut prepared = Lent::fresh(BUFFER)?;
    prepared.open(CALLER)?;
    let check = call(CALLER, Kind::Keepalive, reply(1));
    let answer = message(CALLER, Message::Keepalive, nothing())?;
    Some(Case {
        what: "keepalive check that asks, and the answer",
        calls: vec![check, answer],
        seconds: KEEPALIVE_SECONDS,
        prepared,
        reply_start: &[13],
    })
}

fn establish_and_end() -> Option<Case> {
    let mut prepared = Lent::fresh(BUFFER)?;
    prepared.open_two()?;
    let end = message(CALLER, Message::SessionEnd, relayed(1))?;
    Some(Case {
        what: "establish and end",
        calls: vec![establish()?, end],
        seconds: REFILL_SECONDS,
        prepared,
        reply_start: &[7, 0, 0, 0, FREE as u8, 0],
    })
}

pub fn send(what: &'static str, length: usize) -> Option<Case> {
    let data = (0..length).map(|place| (place % 251 + 1) as u8).collect::<Vec<_>>();
    let whole = data.len() + 1;
    let mut prepared = Lent::fresh(whole.max(BUFFER))?;
    prepared.open_two()?;
    prepared.make(&establish()?)?;
    let send = message(CALLER, Message::DataSend { data: &data }, relayed(whole.try_into().ok()?))?;
    Some(Case { what, calls: vec![send], seconds: REFILL_SECONDS, prepared, reply_start: &[] })
}

fn establish() -> Option<Call> {
    let established = Answer { reply: 54, ..relayed(49) };
    message(CALLER, Message::EstablishRequest { id: FREE }, established)
}

impl Lent {
    /// A fresh relay, and a relay buffer of this length.
    fn fresh(relay_length: usize) -> Option<Self> {
        let mut tables = Tables {
            connections: vec![0; relay::CONNECTIONS],
            leases: vec![0; relay::LEASES],
            allowances: vec![0; relay::ALLOWANCES],
        };
        let Tables { connections, leases, allowances } = &mut tables;
        let lent = relay::Tables { connections, leases, allowances };
        let answer = relay::fresh(lent, 0, START, LeaseTerm::USUAL.seconds());
        let (random, relay) = (random_bytes([FREE]), RelayBuffer::new(relay_length));
        let lent = Self { now: START, tables, map: answer.map, random, reply: [0; BUFFER], relay };
        (answer == nothing()).then_some(lent)
    }

    /// Makes a call of the engine.
    fn make(&mut self, call: &Call) -> Option<()> {
        call.is_answered_by(Engine::call(call, self)).then_some(())
    }

    /// Opens a connection and answers the version message.
    fn open(&mut self, connection: u64) -> Option<()> {
        self.make(&call(connection, Kind::Open, reply(13)))?;
        self.make(&message(connection, Message::VersionAnswer { ok: 1 }, nothing())?)
    }

    fn lease(&mut self, connection: u64, id: u32) -> Option<()> {
        self.random = random_bytes([id]);
        self.make(&message(connection, Message::LeaseRequest, reply(38))?)
    }

    /// Opens the caller and the holder of a lease that stays.
    fn open_two(&mut self) -> Option<()> {
        self.open(CALLER)?;
        self.open(HOLDER)?;
        self.lease(HOLDER, FREE)?;
        self.prolong_leases()
    }

    /// Makes the leases outlast every repetition. The engine grants none so long.
    fn prolong_leases(&mut self) -> Option<()> {
        let now = self.now;
        self.change(|relay| {
            let live = relay.leases.iter_mut().filter(|lease| lease.is_live(now));
            live.for_each(|lease| lease.expiry = model::TIME_LIMIT);
        })
    }

    /// Changes the tables by hand, to what no call or not so few calls would make of them.
    fn change(&mut self, change: impl FnOnce(&mut model::Relay)) -> Option<()> {
        let mut relay = model::Relay::decode(&self.tables)?;
        change(&mut relay);
        self.tables = relay.encode();
        Some(())
    }
}

/// Random bytes with these candidates for an id, and a cookie that goes with the first of them.
fn random_bytes(candidates: impl IntoIterator<Item = u32>) -> [u8; RANDOM] {
    let ids = candidates.into_iter().flat_map(u32::to_be_bytes).collect::<Vec<_>>();
    let cookie = [ids.get(3).copied().unwrap_or_default(); codec::COOKIE_LENGTH];
    let mut bytes = [0; RANDOM];
    bytes.iter_mut().zip(cookie.into_iter().chain(ids)).for_each(|(byte, value)| *byte = value);
    bytes
}

fn call(connection: u64, kind: Kind, expected: Answer) -> Call {
    Call { connection, kind, expected }
}

fn message(connection: u64, message: Message, expected: Answer) -> Option<Call> {
    Some(call(connection, Kind::Message(codec::encode(&message)?), expected))
}

/// Accepted, and nothing is sent.
fn nothing() -> Answer {
    Answer { number: 0, reply: 0, relay: 0, destination: NOBODY, disconnect: 0, map: 0, record: [0; RECORD] }
}

/// A reply of so many bytes.
fn reply(length: u32) -> Answer {
    Answer { reply: length, ..nothing() }
}

/// So many bytes relayed to the holder.
fn relayed(length: u32) -> Answer {
    Answer { relay: length, destination: HOLDER as u32, ..nothing() }
}
