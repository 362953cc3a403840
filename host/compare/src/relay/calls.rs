//! Calls to make: mostly such as the relay's state suggests, with ids and cookies that are in its tables.

use codec::{COOKIE_LENGTH, DATA_LIMIT};
use engine::relay::{BUFFER, RANDOM};
use model::{partner_of, Lease, Relay, State, Tables, BASE_COST, CONNECTIONS, TIME_LIMIT};
use model::{ANSWER_TIMEOUT, KEEPALIVE_TIMEOUT};

use super::boundary::{Call, Kind};
use super::mistakes::TIMES_TOO_LATE;
use super::prices::row_of;
use super::{tables, terms};
use crate::random::Random;

/// Times at which calls are made on tables from anywhere.
const TIMES: [u64; 8] = [0, 1, 100, 3_600, 1 << 32, TIME_LIMIT - 3_600, TIME_LIMIT - 2, TIME_LIMIT - 1];

/// Lengths of data, hardly ever the longest.
pub const SHORT_DATA: &[usize] = &[0, 1, 2, 30, 63, 64, 65, 1_000];
pub const LONG_DATA: &[usize] = &[DATA_LIMIT, DATA_LIMIT, 30_000, 8_000];

/// Makes calls. The pool is a store of random bytes, longer than the longest data.
pub struct Calls<'a> {
    pub random: &'a mut Random,
    pub pool: &'a [u8],
}

impl Calls<'_> {
    /// A time, mostly one that may pass.
    pub fn time(&mut self) -> u64 {
        match self.random.below(12) {
            0 => self.random.choice(&TIMES_TOO_LATE),
            1..8 => self.random.choice(&TIMES),
            _ => self.random.number() % TIME_LIMIT,
        }
    }

    /// A call that suits the tables, one in three spoiled, in one thing or in several.
    pub fn any(&mut self, relay: &Relay, now: u64) -> Call {
        let connection = self.any_connection(relay);
        let data = if self.random.one_in(4) { LONG_DATA } else { SHORT_DATA };
        let mut call = self.suitable(relay, now, connection, data);
        while self.random.one_in(3) {
            self.spoil(&mut call, relay.clock());
        }
        call
    }

    /// Makes it a fresh start instead, at times, often too late.
    pub fn start_instead(&mut self, call: &mut Call) {
        if self.random.one_in(30) {
            call.now = self.random.mostly(call.now, &TIMES_TOO_LATE);
            call.kind = Kind::Fresh { term: terms::any(self.random) };
        }
    }

    /// A connection, more often than the tables have it one in a session.
    fn any_connection(&mut self, relay: &Relay) -> usize {
        let connection = self.random.below(CONNECTIONS);
        if relay.in_session_with(connection).is_none() && self.random.one_in(2) {
            return self.random.below(CONNECTIONS);
        }
        connection
    }

    /// The tables, which are these records, at times with a level near the call's price or with a table of another size.
    pub fn varied(&mut self, tables: &Tables, relay: &Relay, call: &Call) -> Tables {
        let mut tables = tables.clone();
        if let (Some(caller), Some(row), true) = (call.caller(), row_of(relay, call), self.random.one_in(4)) {
            tables::set_level_near(self.random, &mut tables, partner_of(caller), call.now, row.price);
        }
        if self.random.one_in(40) {
            tables::resize_one(self.random, &mut tables);
        }
        tables
    }

    /// A call of the connection that its state permits, mostly; with such data, if data is sent.
    pub fn suitable(&mut self, relay: &Relay, now: u64, connection: usize, data: &[usize]) -> Call {
        let random = self.random_bytes(relay, now, connection);
        let bytes = match relay.connections[connection].state() {
            _ if self.random.one_in(14) => return Call { now, kind: close(connection) },
            _ if self.random.one_in(9) => return Call { now, kind: keepalive(connection) },
            State::Closed if !self.random.one_in(10) => return Call { now, kind: open(connection) },
            State::Awaiting if !self.random.one_in(10) => vec![1, u8::from(!self.random.one_in(8))],
            _ => self.message(relay, connection, data),
        };
        Call { now, kind: message(connection, bytes, random) }
    }

    /// As much data as the allowance lets pass, a byte more, or so many fewer that little is left, or much, from a connection
    /// of the partner in a session.
    pub fn flood(&mut self, relay: &Relay, now: u64, partner: usize) -> Option<Call> {
        let sender = connections_of(partner).find(|&connection| relay.in_session_with(connection).is_some())?;
        let level = relay.allowances[partner].level_at(now) as usize;
        // The type byte and each byte of data are paid for twice: received and relayed.
        let left = (level.saturating_sub(BASE_COST as usize) / 2).saturating_sub(1);
        let fewer = left.saturating_sub(self.random.below(75));
        let lengths = [left, left + 1, fewer, self.random.choice(LONG_DATA)].map(|length| length.min(DATA_LIMIT));
        Some(Call { now, kind: message(sender, self.data(&lengths), self.any_random_bytes()) })
    }

    /// A send that leaves the partner just as much as some other call costs, or one less, and this call.
    pub fn leave_price(&mut self, relay: &Relay, now: u64, partner: usize) -> Option<(Call, Call)> {
        let sender = connections_of(partner).find(|&connection| relay.in_session_with(connection).is_some())?;
        let connections: Vec<usize> = connections_of(partner).collect();
        let (caller, data) = (self.random.choice(&connections), self.random.mostly(SHORT_DATA, &[LONG_DATA]));
        let next = self.suitable(relay, now, caller, data);
        let level = relay.allowances[partner].level_at(now);
        let spent = level.checked_sub(BASE_COST + row_of(relay, &next)?.price)?;
        let length = spent.div_ceil(2) as usize;
        if !(1..=1 + DATA_LIMIT).contains(&length) {
            return None;
        }
        let send = message(sender, self.data(&[length - 1]), self.any_random_bytes());
        Some((Call { now, kind: send }, next))
    }

    /// The end of a connection that holds a lease of the partner.
    pub fn cut(&mut self, relay: &Relay, now: u64, partner: usize) -> Option<Call> {
        let holders: Vec<usize> = relay.live_rows(partner, now).filter_map(|(row, _)| relay.holder_of(row)).collect();
        (!holders.is_empty()).then(|| Call { now, kind: close(self.random.choice(&holders)) })
    }

    /// A request of who holds a lease of the partner, in its last second or at its expiry, that shows whether it is live: to
    /// extend it, or for a session with itself.
    pub fn at_the_end(&mut self, relay: &Relay, now: u64, partner: usize) -> Option<Call> {
        let live = relay.live_rows(partner, now);
        let held: Vec<(usize, &Lease)> = live.filter_map(|(row, lease)| Some((relay.holder_of(row)?, lease))).collect();
        if held.is_empty() {
            return None;
        }
        let (holder, lease) = self.random.choice(&held);
        let time = lease.expiry - self.random.choice(&[0, 1]);
        let extension = [&[4], &lease.cookie[..]].concat();
        let establish = [&[6], &lease.id.to_be_bytes()[..]].concat();
        let bytes = if self.random.one_in(2) { extension } else { establish };
        Some(Call { now: time.min(TIME_LIMIT - 1), kind: message(holder, bytes, self.any_random_bytes()) })
    }

    /// A keepalive call for a connection of the partner, at or around the time when something is due for it.
    pub fn keepalive_when_due(&mut self, relay: &Relay, now: u64, partner: usize) -> Option<Call> {
        let in_session = self.random.one_in(2);
        let suits = |&connection: &usize| match relay.connections[connection].state() {
            State::Closed => false,
            _ => !in_session || relay.in_session_with(connection).is_some(),
        };
        let connections: Vec<usize> = connections_of(partner).filter(suits).collect();
        if connections.is_empty() {
            return None;
        }
        let connection = self.random.choice(&connections);
        let record = &relay.connections[connection];
        let due = if record.is_unanswered() { record.asked + ANSWER_TIMEOUT } else { record.sent + KEEPALIVE_TIMEOUT };
        let time = self.random.choice(&[due - 1, due, due, due + 1]);
        Some(Call { now: time.clamp(now, TIME_LIMIT - 1), kind: keepalive(connection) })
    }

    /// Data for a connection of the partner that has not answered a keepalive, or at times its end of the session.
    pub fn data_for_silent(&mut self, relay: &Relay, now: u64, partner: usize) -> Option<Call> {
        let silent = connections_of(partner).filter(|&connection| relay.connections[connection].is_unanswered());
        let pairs = silent.filter_map(|connection| Some((connection, relay.in_session_with(connection)?)));
        let pairs: Vec<(usize, usize)> = pairs.collect();
        if pairs.is_empty() {
            return None;
        }
        let (silent, other) = self.random.choice(&pairs);
        let ends = self.random.one_in(20);
        let (sender, bytes) = if ends { (silent, vec![9]) } else { (other, self.data(SHORT_DATA)) };
        Some(Call { now, kind: message(sender, bytes, self.any_random_bytes()) })
    }

    /// A message for an open connection.
    fn message(&mut self, relay: &Relay, connection: usize, data: &[usize]) -> Vec<u8> {
        let in_session = relay.in_session_with(connection).is_some();
        match self.random.below(25) {
            0..3 => vec![2, 0],
            3..8 => [&[2, 1], &self.old_cookie(relay, connection)[..]].concat(),
            8..11 => [&[4], &self.held_cookie(relay, connection)[..]].concat(),
            11..16 => [&[6], &self.id(relay, connection).to_be_bytes()[..]].concat(),
            16..20 if in_session || self.random.one_in(3) => self.data(data),
            20 | 21 if in_session || self.random.one_in(3) => vec![9],
            22 => vec![1, 1],
            _ => vec![13],
        }
    }

    fn data(&mut self, lengths: &[usize]) -> Vec<u8> {
        let length = self.random.choice(lengths);
        [&[11], self.random.part(self.pool, length)].concat()
    }

    /// A cookie to ask for a lease with: mostly of a row of the connection's partner that has been used, or of any of
    /// its rows, of anybody's, or a new one.
    fn old_cookie(&mut self, relay: &Relay, connection: usize) -> Vec<u8> {
        let own: Vec<&Lease> = relay.rows_of(partner_of(connection)).map(|(_, lease)| lease).collect();
        let used: Vec<&Lease> = relay.leases.iter().filter(|lease| lease.expiry > 0).collect();
        match self.random.below(8) {
            0 => self.random.bytes(COOKIE_LENGTH),
            1 if !used.is_empty() => self.random.choice(&used).cookie.to_vec(),
            2 => self.random.choice(&own).cookie.to_vec(),
            _ => self.row_near(relay, connection).cookie.to_vec(),
        }
    }

    /// A cookie to extend a lease with: of one that the connection holds, of another of its partner, of anybody's, or a
    /// new one.
    fn held_cookie(&mut self, relay: &Relay, connection: usize) -> Vec<u8> {
        let held = relay.leases.iter().filter(|lease| usize::from(lease.holder) == connection);
        let held: Vec<&Lease> = held.collect();
        match self.random.below(4) {
            0 => self.random.bytes(COOKIE_LENGTH),
            1 | 2 if !held.is_empty() => self.random.choice(&held).cookie.to_vec(),
            _ => self.row_near(relay, connection).cookie.to_vec(),
        }
    }

    /// An id: one that is in the tables, as it is or 2^26 more, or a new one.
    fn id(&mut self, relay: &Relay, connection: usize) -> u32 {
        let id = self.row_near(relay, connection).id;
        match self.random.below(8) {
            0 => self.random.number() as u32,
            1 => id.wrapping_add(1 << 26),
            _ => id,
        }
    }

    /// A lease row, mostly one of the connection's partner that has been used.
    fn row_near<'r>(&mut self, relay: &'r Relay, connection: usize) -> &'r Lease {
        let own: Vec<&Lease> =
            relay.rows_of(partner_of(connection)).map(|(_, lease)| lease).filter(|lease| lease.expiry > 0).collect();
        if own.is_empty() || self.random.one_in(6) {
            &relay.leases[self.random.below(relay.leases.len())]
        } else {
            self.random.choice(&own)
        }
    }

    /// Random bytes for a lease: the cookie at times one in the tables; the candidates new, taken, or a mixture. At
    /// times both repeat leases that have expired.
    fn random_bytes(&mut self, relay: &Relay, now: u64, connection: usize) -> Vec<u8> {
        let mut bytes = self.any_random_bytes();
        let live = !self.random.one_in(4);
        let used = relay.leases.iter().filter(|lease| lease.expiry > 0 && lease.is_live(now) == live);
        let used: Vec<&Lease> = used.collect();
        if !live && !used.is_empty() && self.random.one_in(2) {
            bytes[..COOKIE_LENGTH].copy_from_slice(&self.random.choice(&used).cookie);
        } else if self.random.one_in(5) {
            bytes[..COOKIE_LENGTH].copy_from_slice(&self.row_near(relay, connection).cookie);
        }
        let known_in_ten = if live { self.random.choice(&[0, 0, 9, 10]) } else { 9 };
        self.repeat_ids(&mut bytes[COOKIE_LENGTH..], &used, known_in_ten);
        bytes
    }

    /// Makes so many in ten of the candidates ids of these leases, mostly such as a candidate can be.
    fn repeat_ids(&mut self, candidates: &mut [u8], leases: &[&Lease], in_ten: usize) {
        let limit = self.random.mostly(1 << 26, &[u32::MAX]);
        let ids: Vec<u32> = leases.iter().map(|lease| lease.id).filter(|&id| id < limit).collect();
        for candidate in candidates.chunks_exact_mut(4) {
            if !ids.is_empty() && self.random.below(10) < in_ten {
                // The same id with other high bits, which are cut off.
                let id = self.random.choice(&ids) | self.random.choice(&[0, 1 << 26, 63 << 26]);
                candidate.copy_from_slice(&id.to_be_bytes());
            }
        }
    }

    pub(super) fn any_random_bytes(&mut self) -> Vec<u8> {
        self.random.part(self.pool, RANDOM).to_vec()
    }
}

/// The connections of a partner.
pub(super) fn connections_of(partner: usize) -> impl Iterator<Item = usize> {
    (0..CONNECTIONS).filter(move |&connection| partner_of(connection) == partner)
}

pub(super) fn open(connection: usize) -> Kind {
    Kind::Open { connection: connection as u64, reply: BUFFER }
}

pub(super) fn close(connection: usize) -> Kind {
    Kind::Close { connection: connection as u64, relay: BUFFER }
}

pub(super) fn keepalive(connection: usize) -> Kind {
    Kind::Keepalive { connection: connection as u64, reply: BUFFER, relay: BUFFER }
}

/// A message with buffers that are just long enough.
pub(super) fn message(connection: usize, message: Vec<u8>, random: Vec<u8>) -> Kind {
    let relay = BUFFER.max(message.len());
    Kind::Message { connection: connection as u64, message, random, reply: BUFFER, relay }
}
