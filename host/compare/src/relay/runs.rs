//! Runs: a fresh start, and then calls one after the other on the tables that it left, or on such as others would have left.

use std::collections::HashSet;
use std::ops::Range;

use engine::relay::{Answer, ALLOWANCES, CONNECTIONS, LEASES};
use model::{partner_of_row, Lease, Relay, StoredTerm, Tables, NOBODY, PARTNERS, TIME_LIMIT};

use super::agree::{self, Outcome};
use super::boundary::{Boundary, Call, Kind, Lent};
use super::calls::{connections_of, Calls, LONG_DATA, SHORT_DATA};
use super::connection_monitor::ConnectionMonitor;
use super::journals::{self, Journal};
use super::map_monitor::MapMonitor;
use super::monitor::{Entry, Fault, Monitor};
use super::term_monitor::TermMonitor;
use super::{maps, prices, terms};
use crate::difference::{same, Difference};
use crate::random::Random;
use crate::tally::Tally;

/// How the clock goes between two calls.
#[derive(Clone, Copy, Debug)]
enum Clock {
    Stands,
    /// A second now and then: a flood spends faster than it is refilled.
    Creeps,
    Steps,
    /// Stands mostly, and at times jumps, as far as to where a lease ends.
    Jumps,
}

/// Where the allowances have the term.
const TERM: Range<usize> = ALLOWANCES - 16..ALLOWANCES - 8;

/// For how long leases may still last that a run finds in its tables.
const FOUND_FOR: [u64; 6] = [1, 60, 599, 3_600, 86_400, 100_000];

/// A call that a run has in mind: one for which just its price was left, or one refused with 9, to be made again.
#[derive(Default)]
pub struct Pending(Option<Call>);

impl Pending {
    /// Of the calls refused with 9 every other one is made again, up to three seconds later.
    pub fn note(&mut self, calls: &mut Calls, call: Call, answer: &Answer) {
        if answer.number == 9 && calls.random.one_in(2) {
            let now = call.now + calls.random.choice(&[0, 1, 2, 2, 3]);
            self.0 = Some(Call { now: now.min(TIME_LIMIT - 1), ..call });
        }
    }
}

/// What a run is like.
#[derive(Clone, Copy, Debug)]
pub struct Run {
    start: u64,
    /// The term that the start names.
    term: u64,
    /// The number that the tables are then found with instead, in a run that doesn't go on with what its start left.
    found: Option<u64>,
    clock: Clock,
    /// A partner that makes half of all calls, with much data.
    flooding: Option<usize>,
    /// Whether holders of leases often lose their connections, so that the leases are left to who comes back.
    power_cuts: bool,
    /// Whether there are many keepalive calls, when something is due.
    keepalives: bool,
    /// Whether there are many requests just before leases end, and just then.
    endings: bool,
    /// So many partners, from the first, make calls; the fewer, the more each has of them.
    partners: usize,
    /// Whether calls are at times handed another map than the one before gave back, so that it disagrees with the tables.
    wrong_maps: bool,
}

impl Run {
    pub fn any(calls: &mut Calls) -> Self {
        let random = &mut *calls.random;
        let partners = random.choice(&[1, 2, PARTNERS]);
        Self {
            start: random.choice(&[0, 1, 100, 1 << 32, TIME_LIMIT - 100_000, TIME_LIMIT - 8_000, TIME_LIMIT - 50]),
            term: terms::accepted(random),
            found: random.one_in(2).then(|| terms::any(random)),
            clock: random.choice(&[Clock::Stands, Clock::Creeps, Clock::Steps, Clock::Jumps, Clock::Jumps]),
            flooding: (!random.one_in(3)).then(|| random.below(partners)),
            power_cuts: random.one_in(3),
            keepalives: random.one_in(2),
            endings: random.one_in(2),
            partners,
            wrong_maps: random.one_in(2),
        }
    }

    /// The fresh start, and tables with any bytes and a map to make it on.
    pub fn start(&self, calls: &mut Calls) -> (Call, Tables, u64) {
        let tables = [CONNECTIONS, LEASES, ALLOWANCES].map(|length| calls.random.part(calls.pool, length).to_vec());
        let [connections, leases, allowances] = tables;
        let tables = Tables { connections, leases, allowances };
        let map = maps::any(calls.random, &tables);
        (Call { now: self.start, kind: Kind::Fresh { term: self.term } }, tables, map)
    }

    /// The tables that the run goes on with, given those that its start left: these, or with the number that is found there
    /// and with leases from before, for longer than the term or shorter.
    pub fn first_tables(&self, calls: &mut Calls, started: Tables) -> Tables {
        let Some(number) = self.found else {
            return started;
        };
        let mut relay = decoded(&started);
        relay.common.term = StoredTerm(number);
        for (row, lease) in relay.leases.iter_mut().enumerate() {
            if calls.random.one_in(4) {
                let expiry = self.start + calls.random.choice(&FOUND_FOR);
                leave_lease(calls.random, row, lease, expiry);
            }
        }
        relay.encode()
    }

    /// The map that the next call is handed, given the one that the call before gave back: this, or at times another one,
    /// mostly by the bit of a connection.
    pub fn handed(&self, calls: &mut Calls, map: u64) -> u64 {
        let random = &mut *calls.random;
        if !self.wrong_maps || !random.one_in(8) {
            return map;
        }
        let others = [0, u64::MAX, random.number()];
        let connection = random.below(self.partners * model::CONNECTIONS / PARTNERS);
        if random.one_in(8) {
            random.choice(&others)
        } else {
            map ^ 1 << connection
        }
    }

    /// The journal of the run, in which there is nothing yet.
    pub fn journal(&self) -> Journal {
        Journal::new(self.start, self.term)
    }

    /// Compares what both relays find after a run: in its map of each partner, and as the map of its tables, which it must be
    /// if each call was handed the one that the call before gave back; and in its journal.
    pub fn compare_end(
        &self,
        subject: &impl Boundary,
        tables: &Tables,
        map: u64,
        journal: &Journal,
    ) -> Result<(), Difference> {
        self.compare_replays(subject, &tables.allowances, journal)?;
        let rebuilt = agree::rebuild(subject, &tables.connections)?.map;
        if !self.wrong_maps {
            same(|| format!("the map after a run to {tables:?}"), &map, &rebuilt)?;
        }
        maps::partners().try_for_each(|partner| {
            agree::connections_of(subject, rebuilt, partner)?;
            agree::connections_of(subject, map, partner).map(drop)
        })
    }

    /// Both replays of the journal must give the allowances that the run ended with.
    fn compare_replays(&self, subject: &impl Boundary, allowances: &[u8], journal: &Journal) -> Result<(), Difference> {
        let mut replayed = journals::replay(subject, journal, ALLOWANCES)?;
        if self.found.is_some() {
            // In the tables there was another number instead of the term.
            replayed.allowances[TERM].copy_from_slice(&allowances[TERM]);
        }
        let described = || format!("the allowances after {journal:?}");
        same(described, &replayed.verdict, &model::Replayed::Agrees)?;
        same(described, &replayed.allowances.as_slice(), &allowances)
    }

    /// What the monitor of the term knows of how the run begins.
    pub fn term_monitor(&self) -> TermMonitor {
        self.found.map_or_else(|| TermMonitor::named(self.term), TermMonitor::found)
    }

    /// The next call: one that the run has in mind, or any.
    pub fn next(&self, calls: &mut Calls, relay: &Relay, pending: &mut Pending) -> Call {
        if let Some(call) = pending.0.take() {
            return call;
        }
        let now = self.tick(calls, relay);
        if calls.random.one_in(7) {
            let partner = self.flooding.unwrap_or_else(|| calls.random.below(self.partners));
            if let Some((send, next)) = calls.leave_price(relay, now, partner) {
                pending.0 = Some(next);
                return send;
            }
        }
        self.any_call(calls, relay, now)
    }

    /// A call, one in six spoiled, in one thing or in several.
    fn any_call(&self, calls: &mut Calls, relay: &Relay, now: u64) -> Call {
        let mut call = match self.flooding {
            Some(partner) if calls.random.one_in(2) => self.flooding_call(calls, relay, now, partner),
            _ => {
                let partner = calls.random.below(self.partners);
                let special = self.special_call(calls, relay, now, partner);
                special.unwrap_or_else(|| any_call_of(calls, relay, now, partner, SHORT_DATA))
            }
        };
        while calls.random.one_in(6) {
            calls.spoil(&mut call, relay.clock());
        }
        call
    }

    /// Makes the fresh start and then so many calls of one relay by itself, each shown with the relay before it. A run is one
    /// whose start is accepted, and "a fresh relay's map is 0". Gives the tables that it ends with.
    fn alone(
        &self,
        subject: &impl Boundary,
        calls: &mut Calls,
        length: usize,
        mut show: impl FnMut(&Relay, &Call, &Outcome) -> Result<(), Fault>,
    ) -> Result<Tables, Fault> {
        let (start, anything, found) = self.start(calls);
        let started = make(subject, &anything, found, &start);
        if (started.answer.number, started.answer.map) != (0, 0) {
            return Err(Fault(format!("{start:?}: {:?}", started.answer)));
        }
        let (mut tables, mut map) = (self.first_tables(calls, started.lent.tables()), started.answer.map);
        let mut pending = Pending::default();
        for _ in 0..length {
            let before = decoded(&tables);
            let call = self.next(calls, &before, &mut pending);
            let outcome = make(subject, &tables, self.handed(calls, map), &call);
            show(&before, &call, &outcome)?;
            (tables, map) = (outcome.lent.tables(), outcome.answer.map);
            pending.note(calls, call, &outcome.answer);
        }
        Ok(tables)
    }

    /// At times a call that this kind of run has more of than others.
    fn special_call(&self, calls: &mut Calls, relay: &Relay, now: u64, partner: usize) -> Option<Call> {
        if self.power_cuts && calls.random.one_in(6) {
            return calls.cut(relay, now, partner);
        }
        match calls.random.below(8) {
            0 if self.keepalives => calls.keepalive_when_due(relay, now, partner),
            1 | 2 if self.keepalives => calls.data_for_silent(relay, now, partner),
            3 if self.endings => calls.at_the_end(relay, now, partner),
            _ => None,
        }
    }

    fn flooding_call(&self, calls: &mut Calls, relay: &Relay, now: u64, partner: usize) -> Call {
        let flood = calls.flood(relay, now, partner).filter(|_| calls.random.one_in(2));
        flood.unwrap_or_else(|| any_call_of(calls, relay, now, partner, LONG_DATA))
    }

    /// The time of the next call; it stops just below the limit.
    fn tick(&self, calls: &mut Calls, relay: &Relay) -> u64 {
        let random = &mut *calls.random;
        let step = match self.clock {
            Clock::Stands => 0,
            Clock::Creeps => random.one_in(12).into(),
            Clock::Steps => random.choice(&[0, 0, 0, 1, 2, 3]),
            Clock::Jumps if random.one_in(50) => jump(random, relay),
            Clock::Jumps => 0,
        };
        (relay.clock() + step).min(TIME_LIMIT - 1)
    }
}

/// So many seconds that the clock leaves out: few, or as many as a lease still lasts, or one more or less.
fn jump(random: &mut Random, relay: &Relay) -> u64 {
    let left = relay.leases.iter().map(|lease| lease.expiry.saturating_sub(relay.clock())).filter(|&left| left > 0);
    let left: Vec<u64> = left.collect();
    match random.below(6) {
        0 => random.choice(&[1, 60, 1_800]),
        _ if left.is_empty() => 1,
        _ => random.choice(&left) + random.choice(&[0, 1, 2]) - 1,
    }
}

/// Makes the row one that was leased, with an id that no other has. Its holder is nobody or a connection of the partner, which
/// holds it once it is open.
fn leave_lease(random: &mut Random, row: usize, lease: &mut Lease, expiry: u64) {
    let connections: Vec<usize> = connections_of(partner_of_row(row)).collect();
    let holder = random.choice(&connections) as u8;
    (lease.expiry, lease.id, lease.holder) = (expiry, row as u32, random.mostly(holder, &[NOBODY]));
    lease.cookie.fill_with(|| random.byte());
}

/// Makes a call of one relay by itself.
pub fn make(subject: &impl Boundary, tables: &Tables, map: u64, call: &Call) -> Outcome {
    let mut lent = Lent::new(tables, map, call);
    Outcome { answer: subject.call(call, &mut lent), lent }
}

/// A call of one of the partner's connections.
fn any_call_of(calls: &mut Calls, relay: &Relay, now: u64, partner: usize, data: &[usize]) -> Call {
    let connections: Vec<usize> = connections_of(partner).collect();
    let mut connection = calls.random.choice(&connections);
    // Who has not answered mostly stays silent.
    if relay.connections[connection].is_unanswered() && !calls.random.one_in(3) {
        connection = calls.random.choice(&connections);
    }
    calls.suitable(relay, now, connection, data)
}

/// What runs came to that the monitor of the allowances followed.
#[derive(Default)]
pub struct Followed {
    pub calls: u64,
    pub prices: prices::Reached,
    pub retries: Tally,
}

/// Makes a run of one relay by itself, followed by the monitor of the allowances.
pub fn follow(subject: &impl Boundary, calls: &mut Calls, length: usize, followed: &mut Followed) -> Result<(), Fault> {
    let run = Run::any(calls);
    let mut monitor = Monitor::new(run.start);
    run.alone(subject, calls, length, |before, call, outcome| {
        followed.calls += 1;
        followed.prices.count(before, call, &outcome.answer);
        monitor.record(&Entry::new(before, call, outcome.answer))?;
        monitor.check_levels(&decoded(&outcome.lent.tables()))
    })?;
    monitor.count_retries(&mut followed.retries);
    Ok(())
}

/// Makes a run of one relay by itself, followed by the monitor of dead connections.
pub fn follow_connections(subject: &impl Boundary, calls: &mut Calls, length: usize) -> Result<(), Fault> {
    let mut monitor = ConnectionMonitor::default();
    let run = Run::any(calls);
    run.alone(subject, calls, length, |_, call, outcome| monitor.record(call, &outcome.answer)).map(drop)
}

/// Makes a run of one relay by itself, followed by the monitor of the term.
pub fn follow_terms(subject: &impl Boundary, calls: &mut Calls, length: usize) -> Result<(), Fault> {
    let run = Run::any(calls);
    let mut monitor = run.term_monitor();
    run.alone(subject, calls, length, |_, call, outcome| monitor.record(call, outcome)).map(drop)
}

/// Makes a run of one relay by itself, followed by the monitor of the map.
pub fn follow_maps(subject: &impl Boundary, calls: &mut Calls, length: usize) -> Result<(), Fault> {
    let mut monitor = MapMonitor::default();
    let run = Run::any(calls);
    let last = run.alone(subject, calls, length, |_, call, outcome| monitor.record(call, outcome))?;
    monitor.check_end(subject, &last.connections)
}

/// Makes a run of one relay by itself, whose journal must replay to its allowances, in both ways, and keep to demand 3's bound.
pub fn follow_journals(subject: &impl Boundary, calls: &mut Calls, length: usize) -> Result<Journal, Fault> {
    let run = Run::any(calls);
    let mut journal = run.journal();
    let last = run.alone(subject, calls, length, |_, _, outcome| {
        journal.note(&outcome.answer);
        Ok(())
    })?;
    let replayed = run.compare_replays(subject, &last.allowances, &journal);
    replayed.map_err(|difference| Fault(format!("{difference:?}")))?;
    journal.check_bound()?;
    Ok(journal)
}

/// An id that two live rows have: no run may come to that.
pub fn doubled_id(relay: &Relay) -> Option<u32> {
    let live = relay.leases.iter().filter(|lease| lease.is_live(relay.clock()));
    let mut ids = HashSet::new();
    live.map(|lease| lease.id).find(|&id| !ids.insert(id))
}

/// A connection whose record has something in bytes that nobody uses: no run may come to that.
pub fn unused_bytes(tables: &Tables) -> Option<usize> {
    let mut records = tables.connections.chunks_exact(tables.connections.len() / model::CONNECTIONS);
    records.position(|record| [3, 14, 15].iter().any(|&byte| record[byte] != 0))
}

/// The tables of a run as records.
pub fn decoded(tables: &Tables) -> Relay {
    Relay::decode(tables).expect("no call changes the sizes")
}
