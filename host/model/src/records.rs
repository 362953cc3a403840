//! The records of the three tables. Every byte is kept, used or not, so that what is decoded and encoded again is the
//! same: "In a record that a rule changes, bytes that it doesn't name stay."

use crate::terms::StoredTerm;
use crate::{LEVEL_LIMIT, NOBODY, REFILL};

pub trait Record: Sized {
    const LENGTH: usize;
    /// The record that these bytes are, just as many as its length.
    fn decode(bytes: &[u8]) -> Self;
    /// Appends the record's bytes.
    fn encode(&self, to: &mut Vec<u8>);
}

/// Takes the next field of a record.
pub(crate) fn take<const N: usize>(bytes: &mut &[u8]) -> [u8; N] {
    let (field, rest) = bytes.split_first_chunk().expect("a whole record");
    *bytes = rest;
    *field
}

#[derive(Clone, Copy, Debug, PartialEq, Eq)]
pub enum State {
    Closed,
    /// Awaiting the version answer.
    Awaiting,
    Open,
}

/// Takes a time of five bytes, which have room for every time below the limit.
fn take_time(bytes: &mut &[u8]) -> u64 {
    take::<5>(bytes).iter().fold(0, |time, &byte| time << 8 | u64::from(byte))
}

fn put_time(to: &mut Vec<u8>, time: u64) {
    to.extend(&time.to_be_bytes()[3..]);
}

/// What a connection knows of its session, all zero without one.
#[derive(Clone, Copy, Debug, Default, PartialEq, Eq)]
pub struct Session {
    pub id: [u8; 16],
    pub peer: [u8; 16],
    pub key: [u8; 16],
}

#[derive(Clone, Debug, PartialEq, Eq)]
pub struct Connection {
    state: u8,
    /// The peer connection, or [`NOBODY`].
    pub peer: u8,
    /// "byte 2 is 1 while a keepalive is unanswered"
    pub unanswered: u8,
    /// Bytes 3, 14 and 15.
    unused: [u8; 3],
    /// "4-8 the reading of the last message sent to it"
    pub sent: u64,
    /// "9-13 that of the unanswered keepalive"
    pub asked: u64,
    pub session: Session,
}

impl Connection {
    /// "connections all zero but byte 1 = 255", and here the state.
    pub fn fresh(state: State) -> Self {
        let session = Session::default();
        Self { state: state as u8, peer: NOBODY, unanswered: 0, unused: [0; 3], sent: 0, asked: 0, session }
    }

    /// "State above 2 reads as closed."
    pub fn state(&self) -> State {
        match self.state {
            1 => State::Awaiting,
            2 => State::Open,
            _ => State::Closed,
        }
    }

    pub fn set_state(&mut self, state: State) {
        self.state = state as u8;
    }

    pub fn set_session(&mut self, peer: u8, session: Session) {
        self.peer = peer;
        self.session = session;
    }
}

impl Record for Connection {
    const LENGTH: usize = 64;

    fn decode(mut bytes: &[u8]) -> Self {
        let [state, peer, unanswered, third] = take(&mut bytes);
        let [sent, asked] = [(); 2].map(|()| take_time(&mut bytes));
        let [last_but_one, last] = take(&mut bytes);
        let [id, peer_id, key] = [(); 3].map(|()| take(&mut bytes));
        let unused = [third, last_but_one, last];
        Self { state, peer, unanswered, unused, sent, asked, session: Session { id, peer: peer_id, key } }
    }

    fn encode(&self, to: &mut Vec<u8>) {
        to.extend([self.state, self.peer, self.unanswered, self.unused[0]]);
        put_time(to, self.sent);
        put_time(to, self.asked);
        to.extend(&self.unused[1..]);
        to.extend(self.session.id);
        to.extend(self.session.peer);
        to.extend(self.session.key);
    }
}

#[derive(Clone, Debug, PartialEq, Eq)]
pub struct Lease {
    pub expiry: u64,
    pub id: u32,
    /// The connection named as holder, or [`NOBODY`]; whether it counts is for the relay to say.
    pub holder: u8,
    unused: [u8; 3],
    pub cookie: [u8; 24],
}

impl Lease {
    /// "leases all zero but byte 12 = 255"
    pub fn fresh() -> Self {
        Self { expiry: 0, id: 0, holder: NOBODY, unused: [0; 3], cookie: [0; 24] }
    }

    /// "A lease row is live when the reading is below its expiry."
    pub fn is_live(&self, now: u64) -> bool {
        now < self.expiry
    }
}

impl Record for Lease {
    const LENGTH: usize = 40;

    fn decode(mut bytes: &[u8]) -> Self {
        let expiry = u64::from_be_bytes(take(&mut bytes));
        let id = u32::from_be_bytes(take(&mut bytes));
        let [holder] = take(&mut bytes);
        Self { expiry, id, holder, unused: take(&mut bytes), cookie: take(&mut bytes) }
    }

    fn encode(&self, to: &mut Vec<u8>) {
        to.extend(self.expiry.to_be_bytes());
        to.extend(self.id.to_be_bytes());
        to.push(self.holder);
        to.extend(self.unused);
        to.extend(self.cookie);
    }
}

/// A partner's allowance.
#[derive(Clone, Debug, PartialEq, Eq)]
pub struct Allowance {
    pub level: u64,
    /// The scope's moment: the time of the last charge.
    pub updated: u64,
}

impl Allowance {
    /// "the smaller of 262,144 and level + 65,536 x (reading - moment)"; "A level above 262,144 reads as 262,144; a
    /// moment after the reading gives no refill." The product fits, as a time is below 2^40.
    pub fn level_at(&self, now: u64) -> u64 {
        let seconds = now.saturating_sub(self.updated);
        LEVEL_LIMIT.min(self.level.min(LEVEL_LIMIT) + REFILL * seconds)
    }
}

impl Record for Allowance {
    const LENGTH: usize = 16;

    fn decode(mut bytes: &[u8]) -> Self {
        let [level, updated] = [(); 2].map(|()| u64::from_be_bytes(take(&mut bytes)));
        Self { level, updated }
    }

    fn encode(&self, to: &mut Vec<u8>) {
        to.extend(self.level.to_be_bytes());
        to.extend(self.updated.to_be_bytes());
    }
}

/// The ninth record beside the eight allowances, which is no partner's and no allowance: "The ninth allowance record's
/// level keeps the term", and its moment is the clock.
#[derive(Clone, Debug, PartialEq, Eq)]
pub struct Common {
    pub term: StoredTerm,
    /// The scope's latest reading.
    pub clock: u64,
}

impl Record for Common {
    const LENGTH: usize = 16;

    fn decode(mut bytes: &[u8]) -> Self {
        let [term, clock] = [(); 2].map(|()| u64::from_be_bytes(take(&mut bytes)));
        Self { term: StoredTerm(term), clock }
    }

    fn encode(&self, to: &mut Vec<u8>) {
        to.extend(self.term.0.to_be_bytes());
        to.extend(self.clock.to_be_bytes());
    }
}
