//! The engine's tables, the map of the connections and the clock.

use std::ops::RangeInclusive;

use engine::reasons::{self, Reason};
use engine::relay::{self, Answer, PartnerConnections};

use crate::calls::{relay_length, REPLY_LENGTH};
use crate::clock::Clock;
use crate::journal::{Journal, Start, Syncer};
use crate::lease_term::{KeptTerm, LeaseTerm};
use crate::refusal::Refusal;
use crate::{CONNECTIONS_EACH, PARTNERS};

/// Bytes of an allowance's record: the level and the time of its update, most significant byte first. There is one for each
/// partner, and a last one that is nobody's: its numbers are the leases' term and the relay's clock.
const RECORD_LENGTH: usize = 16;
/// Bytes of each of these numbers.
const NUMBER_LENGTH: usize = RECORD_LENGTH / 2;
/// A record of the allowances.
type Record = [u8; RECORD_LENGTH];
/// Bytes of a lease's record, which begins with its expiry.
const LEASE_LENGTH: usize = 40;
/// The most that a partner has, and what it gets each second.
const CAPACITY: u64 = 262_144;
const REFILL: u64 = 65_536;

/// A call answered with one of these has no record in the journal.
const UNRECORDED: RangeInclusive<u32> = 1..=3;

/// The three tables as bytes, as they are kept from one run to the next.
#[derive(Clone, PartialEq, Eq)]
pub struct Tables([u8; Self::SIZE]);

impl Tables {
    /// Of all three, one after the other.
    pub const SIZE: usize = relay::CONNECTIONS + relay::LEASES + relay::ALLOWANCES;

    /// None if there are more or fewer bytes.
    pub fn from_bytes(bytes: &[u8]) -> Option<Self> {
        bytes.try_into().ok().map(Self)
    }

    pub fn as_bytes(&self) -> &[u8] {
        &self.0
    }

    /// The latest reading that a call was accepted at.
    pub fn clock(&self) -> u64 {
        let [_, clock] = self.term_and_clock();
        clock
    }

    /// For how long leases are given, renewed and extended.
    pub fn lease_term(&self) -> KeptTerm {
        let [term, _] = self.term_and_clock();
        KeptTerm::from_number(term)
    }

    /// What a partner has at a time: "A level above 262,144 reads as 262,144; a moment after the reading gives no refill."
    pub fn level(&self, partner: usize, time: u64) -> u64 {
        let [level, updated] = self.level_and_update(partner);
        let refill = time.saturating_sub(updated).saturating_mul(REFILL);
        level.saturating_add(refill).min(CAPACITY)
    }

    fn level_and_update(&self, partner: usize) -> [u64; 2] {
        // The last record is no partner's, and its first number no level.
        numbers(&self.allowances()[..PARTNERS][partner])
    }

    fn term_and_clock(&self) -> [u64; 2] {
        numbers(&self.allowances()[PARTNERS])
    }

    fn allowances(&self) -> &[Record] {
        self.view().allowances.as_chunks().0
    }

    /// When the leases end, in the order of their rows; of rows that were never leased, 0.
    pub fn lease_ends(&self) -> impl Iterator<Item = u64> + '_ {
        self.view().leases.chunks_exact(LEASE_LENGTH).map(number_at_start)
    }

    /// These, with the allowances after the calls of a journal: its clock is theirs. Else the byte at which the journal
    /// contradicts the rules.
    pub(crate) fn with_allowances_of(&self, journal: &[u8], start: Start) -> Result<Self, u64> {
        let mut replayed = self.clone();
        let answer = relay::replay(replayed.lend().allowances, journal, start.time, start.term.seconds());
        let is_replayed = answer.number == 0 && answer.contradicted == 0;
        is_replayed.then_some(replayed).ok_or(answer.place)
    }

    /// Whether they are others than these, also if the clock were the same.
    pub fn differ_beside_clock(&self, other: &Self) -> bool {
        let beside_clock = ..Self::SIZE - NUMBER_LENGTH;
        self.0[beside_clock] != other.0[beside_clock]
    }

    /// Only to be read.
    pub fn view(&self) -> reasons::Tables<'_> {
        let (connections, rest) = self.0.split_at(relay::CONNECTIONS);
        let (leases, allowances) = rest.split_at(relay::LEASES);
        reasons::Tables { connections, leases, allowances }
    }

    /// For a call.
    pub fn lend(&mut self) -> relay::Tables<'_> {
        let (connections, rest) = self.0.split_at_mut(relay::CONNECTIONS);
        let (leases, allowances) = rest.split_at_mut(relay::LEASES);
        relay::Tables { connections, leases, allowances }
    }
}

fn numbers(record: &Record) -> [u64; 2] {
    [&record[..], &record[NUMBER_LENGTH..]].map(number_at_start)
}

fn number_at_start(bytes: &[u8]) -> u64 {
    bytes[..NUMBER_LENGTH].iter().fold(0, |number, byte| number << 8 | u64::from(*byte))
}

pub struct Relay {
    tables: Tables,
    /// Which connections aren't closed: each call is handed the map that the one before gave back, so it agrees with the
    /// tables.
    map: u64,
    clock: Box<dyn Clock>,
    latest: u64,
    journal: Option<Journal>,
}

impl Relay {
    /// A fresh relay. A clock out of the engine's range is refused.
    pub fn fresh(clock: Box<dyn Clock>, term: LeaseTerm) -> Result<Self, Refusal> {
        let mut relay = Self { tables: Tables([0; Tables::SIZE]), map: 0, clock, latest: 0, journal: None };
        let now = relay.now();
        let answer = relay::fresh(relay.tables.lend(), relay.map, now, term.seconds());
        relay.finish_call(answer)?;
        Ok(relay)
    }

    /// A relay that goes on with the tables of an earlier run, whose connections are gone, and with its journal.
    pub fn restored(mut clock: Box<dyn Clock>, tables: Tables, journal: Option<Journal>) -> Result<Self, Refusal> {
        clock.start_from(tables.clock());
        // The size is the type's, so there is no other answer than a map.
        let map = relay::rebuild(tables.view().connections).map;
        let mut relay = Self { latest: tables.clock(), tables, map, clock, journal };
        for connection in (0..PARTNERS * CONNECTIONS_EACH).filter(|connection| map >> connection & 1 == 1) {
            relay.close(connection, &mut [0; relay::BUFFER])?;
        }
        Ok(relay)
    }

    /// Has a journal from here on. The fresh relay's own start has no record in it.
    pub fn keep_journal(&mut self, journal: Journal) {
        self.journal = Some(journal);
    }

    /// Hands over the records of the calls so far, to be written.
    pub fn hand_over_records(&mut self) {
        self.journal.iter_mut().for_each(Journal::hand_over);
    }

    /// What brings those that are handed over to the disk, if there is a journal.
    pub fn journal_syncer(&self) -> Option<Syncer> {
        self.journal.as_ref().map(Journal::syncer)
    }

    /// The tables, to be saved. The records of their calls are handed over before, so that a sync reaches them.
    pub fn tables_to_save(&mut self) -> &Tables {
        self.hand_over_records();
        &self.tables
    }

    /// Ends the journal, with all on the disk.
    pub fn finish_journal(&mut self) {
        self.journal.take().into_iter().for_each(Journal::finish);
    }

    pub fn tables(&self) -> &Tables {
        &self.tables
    }

    pub fn clock(&mut self) -> &mut dyn Clock {
        &mut *self.clock
    }

    /// How many connections a partner has, and the number that its next one gets.
    pub fn connections_of(&self, partner: usize) -> PartnerConnections {
        relay::connections_of(self.map, partner as u64)
    }

    pub fn open(&mut self, connection: usize, reply: &mut [u8]) -> Result<Answer, Refusal> {
        let now = self.now();
        let answer = relay::open(self.tables.lend(), self.map, now, connection as u64, reply);
        self.finish_call(answer)
    }

    pub fn message(
        &mut self,
        connection: usize,
        message: &[u8],
        random: &[u8; relay::RANDOM],
        reply: &mut [u8],
        relay: &mut [u8],
    ) -> Result<Answer, Refusal> {
        let now = self.now();
        let (tables, connection) = (self.tables.lend(), connection as u64);
        let answer = relay::message(tables, self.map, now, connection, message, random, reply, relay);
        self.finish_call(answer)
    }

    pub fn close(&mut self, connection: usize, relay: &mut [u8]) -> Result<Answer, Refusal> {
        let now = self.now();
        let answer = relay::close(self.tables.lend(), self.map, now, connection as u64, relay);
        self.finish_call(answer)
    }

    /// Finds out whether a connection's peer still answers.
    pub fn keepalive(&mut self, connection: usize, reply: &mut [u8], relay: &mut [u8]) -> Result<Answer, Refusal> {
        let now = self.now();
        let answer = relay::keepalive(self.tables.lend(), self.map, now, connection as u64, reply, relay);
        self.finish_call(answer)
    }

    /// Why an open was refused: this is about its reading, the latest.
    pub fn explain_open(&self, connection: usize) -> Reason {
        reasons::open(self.tables.view(), self.latest, connection as u64, REPLY_LENGTH as u64)
    }

    /// Why a message was refused, likewise.
    pub fn explain_message(&self, connection: usize, message: &[u8], random: &[u8; relay::RANDOM]) -> Reason {
        let lengths = [REPLY_LENGTH, relay_length(message.len())].map(|length| length as u64);
        let [reply_length, relay_length] = lengths;
        let tables = self.tables.view();
        reasons::message(tables, self.latest, connection as u64, message, random, reply_length, relay_length)
    }

    /// A reading for a call. The latest is taken again if the clock went back, which the engine would refuse.
    fn now(&mut self) -> u64 {
        self.latest = self.latest.max(self.clock.now());
        self.latest
    }

    /// Adds the call's record to the journal, and keeps the map of an answer if the call was accepted: a refused one's is
    /// that of before.
    fn finish_call(&mut self, answer: Answer) -> Result<Answer, Refusal> {
        if let Some(journal) = self.journal.as_mut().filter(|_| !UNRECORDED.contains(&answer.number)) {
            journal.append(&answer.record);
        }
        match answer.number {
            0 => {
                self.map = answer.map;
                Ok(answer)
            }
            number => Err(Refusal(number)),
        }
    }
}

#[cfg(test)]
mod tests {
    use std::fs;
    use std::sync::Arc;

    use codec::Message;
    use engine::relay::{PartnerConnections, NOBODY};
    use engine::{reasons, relay};

    use super::{Relay, Start, Tables, RECORD_LENGTH, REPLY_LENGTH};
    use crate::journal::JournalFile;
    use crate::{JumpingClock, KeptTerm, LeaseTerm, Log, LogFormat, CLOCK_LIMIT, CONNECTIONS_EACH, PARTNERS};

    /// Of all partners.
    const CONNECTIONS: usize = PARTNERS * CONNECTIONS_EACH;

    /// Tables of a fresh relay with other numbers in a partner's record of the allowances, or in the last.
    fn tables(record: usize, numbers: [u64; 2]) -> Tables {
        let mut tables = fresh(LeaseTerm::USUAL);
        let start = Tables::SIZE - relay::ALLOWANCES + record * RECORD_LENGTH;
        tables.0[start..][..RECORD_LENGTH].copy_from_slice(&numbers.map(u64::to_be_bytes).concat());
        tables
    }

    fn fresh(term: LeaseTerm) -> Tables {
        Relay::fresh(Box::<JumpingClock>::default(), term).expect("a relay").tables().clone()
    }

    /// What an open, which costs 45, would leave is the engine's word.
    #[test]
    fn a_level_is_what_the_engine_takes_it_for() {
        let updates = [0, 4, 7, 8, 9, CLOCK_LIMIT - 1, u64::MAX];
        let levels = [0, 1, 44, 45, 65_536, 262_143, 262_144, 262_145, u64::MAX];
        for partner in 0..PARTNERS {
            for (level, updated) in levels.iter().flat_map(|level| updates.map(|updated| (*level, updated))) {
                let tables = tables(partner, [level, updated]);
                for time in [4, 7, 8, 9, 10, 11, 100, CLOCK_LIMIT - 1] {
                    let connection = (partner * CONNECTIONS_EACH) as u64;
                    let left = reasons::open(tables.view(), time, connection, REPLY_LENGTH as u64).headroom;
                    let told = tables.level(partner, time);
                    assert_eq!(told as i64 - 45, left, "{level} of {updated} at {time}, partner {partner}");
                }
            }
        }
    }

    #[test]
    #[should_panic(expected = "out of bounds")]
    fn the_last_record_has_no_level() {
        fresh(LeaseTerm::USUAL).level(PARTNERS, 4);
    }

    const NOW: u64 = 1_000;

    /// The engine's reply to a message of connection 0 that comes with these random bytes.
    fn reply(tables: &mut Tables, message: Message, random: u8) -> Vec<u8> {
        let (mut reply, mut relayed) = (vec![0; REPLY_LENGTH], [0; relay::BUFFER]);
        let (bytes, random) = (codec::encode(&message).expect("a message"), [random; relay::RANDOM]);
        let answer = relay::message(tables.lend(), 0, NOW, 0, &bytes, &random, &mut reply, &mut relayed);
        assert_eq!(answer.number, 0, "{message:?}");
        reply.truncate(answer.reply as usize);
        reply
    }

    fn open(tables: &mut Tables) {
        assert_eq!(relay::open(tables.lend(), 0, NOW, 0, &mut [0; REPLY_LENGTH]).number, 0);
        reply(tables, Message::VersionAnswer { ok: 1 }, 0);
    }

    /// For how long the engine gives a lease, extends it, and renews it for who comes back.
    fn engine_terms(mut tables: Tables) -> [u64; 3] {
        // That of a lease is the first of its random bytes.
        let cookie = &[1; codec::COOKIE_LENGTH];
        open(&mut tables);
        let given = reply(&mut tables, Message::LeaseRequest, 1);
        let extended = reply(&mut tables, Message::ExtensionRequest { cookie }, 0);
        assert_eq!(relay::close(tables.lend(), 0, NOW, 0, &mut [0; relay::BUFFER]).number, 0);
        open(&mut tables);
        let renewed = reply(&mut tables, Message::LeaseRequestWithCookie { cookie }, 2);
        [given, extended, renewed].map(|reply| match codec::decode(&reply) {
            Some(Message::LeaseGranted { expiration, .. } | Message::ExtensionGranted { expiration }) => {
                expiration - NOW
            }
            other => panic!("{other:?}"),
        })
    }

    #[test]
    fn the_term_is_what_the_engine_takes_it_for() {
        let numbers = [0, 1, 599, 600, 601, 3_600, 86_399, 86_400, 86_401, (1 << 32) + 600, u64::MAX];
        for number in numbers {
            let tables = tables(PARTNERS, [number, 4]);
            assert_eq!(engine_terms(tables.clone()), [tables.lease_term().seconds(); 3], "{number}");
        }
    }

    #[test]
    fn a_fresh_relay_keeps_the_term_that_it_is_given() {
        for term in [600, 601, 86_400].map(|seconds| LeaseTerm::new(seconds).expect("a term")) {
            let tables = fresh(term);
            assert_eq!(tables.lease_term(), KeptTerm::Given(term));
            assert_eq!(engine_terms(tables), [term.seconds(); 3]);
        }
    }

    /// The numbers of the connections that aren't closed, as the tables have them.
    fn open_numbers(relay: &Relay) -> Vec<usize> {
        let records = relay.tables().view().connections.chunks_exact(relay::CONNECTIONS / CONNECTIONS);
        records.enumerate().filter(|(_, record)| record[0] != 0).map(|(number, _)| number).collect()
    }

    /// Likewise as the map has them, which the host is told a partner at a time.
    fn assert_map_agrees(relay: &Relay) {
        let open = open_numbers(relay);
        assert_eq!(relay.map, open.iter().map(|number| 1 << number).sum::<u64>(), "{open:?}");
        for partner in 0..PARTNERS {
            let numbers = partner * CONNECTIONS_EACH..(partner + 1) * CONNECTIONS_EACH;
            let lowest = numbers.clone().find(|number| !open.contains(number)).map_or(NOBODY, |number| number as u32);
            let connections = numbers.filter(|number| open.contains(number)).count() as u32;
            let told = relay.connections_of(partner);
            assert_eq!(told, PartnerConnections { number: 0, connections, lowest }, "{partner}: {open:?}");
        }
    }

    #[test]
    fn the_map_agrees_with_the_tables_after_every_call() {
        let mut relay = Relay::fresh(Box::<JumpingClock>::default(), LeaseTerm::USUAL).expect("a relay");
        let (mut reply, mut room) = ([0; REPLY_LENGTH], [0; relay::BUFFER]);
        assert_map_agrees(&relay);
        for number in (0..CONNECTIONS).rev() {
            relay.open(number, &mut reply).expect("it is closed");
            relay.open(number, &mut reply).expect_err("it is open");
            assert_map_agrees(&relay);
        }
        for number in (0..CONNECTIONS).filter(|number| number % 3 > 0) {
            match number % 3 {
                1 => relay.close(number, &mut room),
                _ => relay.message(number, &[1, 0], &[0; relay::RANDOM], &mut reply, &mut room),
            }
            .expect("it is open");
            relay.close(number, &mut room).expect_err("it is closed");
            assert_map_agrees(&relay);
        }
        // It is asked, and never answers.
        while relay.keepalive(0, &mut reply, &mut room).expect("it is open").disconnect == 0 {
            assert_map_agrees(&relay);
        }
        assert_map_agrees(&relay);
        assert!(!open_numbers(&relay).contains(&0));
    }

    #[test]
    fn tables_are_saved_after_the_records_of_their_calls() {
        let folder = tempfile::tempdir().expect("a folder");
        let path = folder.path().join("journal");
        let mut relay = Relay::fresh(Box::<JumpingClock>::default(), LeaseTerm::USUAL).expect("a relay");
        let start = Start::new(relay.tables().clock(), LeaseTerm::USUAL);
        let file = JournalFile::take(&path, Arc::new(Log::new(LogFormat::Text, |_| ())));
        relay.keep_journal(file.and_then(|file| file.begin(start)).expect("a journal"));
        let syncer = relay.journal_syncer().expect("a journal");
        for number in 0..3 {
            relay.open(number, &mut [0; REPLY_LENGTH]).expect("it is closed");
            let tables = relay.tables_to_save().clone();
            syncer.sync();
            let written = fs::read(&path).expect("a journal");
            assert_eq!(written.len(), (number + 1) * relay::RECORD);
            assert!(tables.with_allowances_of(&written, start) == Ok(tables), "it replays to the tables");
        }
    }

    #[test]
    fn a_restored_relay_has_all_numbers_free() {
        let mut relay = Relay::fresh(Box::<JumpingClock>::default(), LeaseTerm::USUAL).expect("a relay");
        for number in (0..CONNECTIONS).filter(|number| number % 3 == 0 || *number < CONNECTIONS_EACH) {
            relay.open(number, &mut [0; REPLY_LENGTH]).expect("it is closed");
        }
        let restored = Relay::restored(Box::<JumpingClock>::default(), relay.tables().clone(), None).expect("a relay");
        assert!(open_numbers(&restored).is_empty());
        assert_map_agrees(&restored);
    }

    /// A record whose state is none counts as closed, and is opened like one.
    #[test]
    fn a_state_that_is_none_takes_no_number() {
        let mut tables = fresh(LeaseTerm::USUAL);
        tables.0[0] = 3;
        let mut restored = Relay::restored(Box::<JumpingClock>::default(), tables, None).expect("a relay");
        assert_eq!(restored.connections_of(0), PartnerConnections { number: 0, connections: 0, lowest: 0 });
        restored.open(0, &mut [0; REPLY_LENGTH]).expect("it is closed");
        assert_map_agrees(&restored);
    }
}
