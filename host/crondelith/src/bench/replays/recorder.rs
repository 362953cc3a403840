//! A journal as a busy relay's: each second every connection is checked, and every partner sends until its allowance is
//! used up.

use codec::Message;
use engine::relay::{self, Answer, ALLOWANCES, BUFFER, RANDOM, RECORD};
use server::{LeaseTerm, Tables, CONNECTIONS_EACH, PARTNERS};

pub const START: u64 = 1_000_000;
pub const TERM: u64 = LeaseTerm::USUAL.seconds();

/// All partners' connections.
const CONNECTIONS: usize = PARTNERS * CONNECTIONS_EACH;
/// Bytes of data in messages, in turn: more short ones than long ones.
const LENGTHS: [usize; 7] = [1, 64, 1_024, 1, 256, 64, 4_096];
/// Of a partner's connections so many have no session. Their data is refused.
const ALONE: usize = 2;
/// Every so many messages is one that no peer sends.
const MALFORMED_EVERY: usize = 50;
const MALFORMED: [u8; 1] = [77];
/// How often each connection says that it is there, in seconds.
const KEEPALIVE_SECONDS: u64 = 20;
/// The answer of a call for which its partner hasn't got enough.
const USED_UP: u32 = 9;

/// A relay and the records of its first calls.
pub struct Recorder {
    pub journal: Vec<u8>,
    /// The relay's after the last of these calls.
    pub allowances: [u8; ALLOWANCES],
    /// Bytes of the journal when it is full.
    size: usize,
    tables: Tables,
    map: u64,
    now: u64,
    reply: [u8; BUFFER],
    relay: Vec<u8>,
    /// Counts messages.
    turn: usize,
}

impl Recorder {
    /// So many records; None if the engine refuses what has to be done.
    pub fn run(records: usize) -> Option<Self> {
        let mut recorder = Self::fresh(records * RECORD)?;
        (0..PARTNERS).try_for_each(|partner| recorder.connect(partner))?;
        while recorder.journal.len() < recorder.size {
            recorder.pass_second()?;
        }
        Some(recorder)
    }

    fn fresh(size: usize) -> Option<Self> {
        let mut tables = Tables::from_bytes(&[0; Tables::SIZE])?;
        let answer = relay::fresh(tables.lend(), 0, START, TERM);
        let relay = vec![0; BUFFER + LENGTHS.iter().max()?];
        let (journal, allowances, reply) = (Vec::with_capacity(size), [0; ALLOWANCES], [0; BUFFER]);
        let recorder = Self { journal, allowances, size, tables, map: answer.map, now: START, reply, relay, turn: 0 };
        (answer.number == 0).then_some(recorder)
    }

    /// Opens a partner's connections, and sessions between every other one and the next.
    fn connect(&mut self, partner: usize) -> Option<()> {
        for connection in connections(partner) {
            self.open(connection)?;
        }
        let mut holders = connections(partner).take(CONNECTIONS_EACH - ALONE).step_by(2);
        holders.try_for_each(|holder| self.establish(holder + 1, holder))
    }

    fn open(&mut self, connection: usize) -> Option<()> {
        let answer = relay::open(self.tables.lend(), self.map, self.now, connection as u64, &mut self.reply);
        self.keep(answer).then_some(())?;
        self.send(connection, &Message::VersionAnswer { ok: 1 }).map(drop)
    }

    fn establish(&mut self, caller: usize, holder: usize) -> Option<()> {
        let answer = self.send(holder, &Message::LeaseRequest)?;
        match codec::decode(self.reply.get(..answer.reply as usize)?)? {
            Message::LeaseGranted { id, .. } => self.send(caller, &Message::EstablishRequest { id }).map(drop),
            _ => None,
        }
    }

    /// The keepalives of every connection, and messages of every partner.
    fn pass_second(&mut self) -> Option<()> {
        self.now += 1;
        for connection in 0..CONNECTIONS {
            let (reply, relayed) = (&mut self.reply, &mut self.relay);
            let answer = relay::keepalive(self.tables.lend(), self.map, self.now, connection as u64, reply, relayed);
            self.keep(answer).then_some(())?;
            if self.now.is_multiple_of(KEEPALIVE_SECONDS) {
                self.send(connection, &Message::Keepalive)?;
            }
        }
        self.reopen(self.now as usize % CONNECTIONS)?;
        (0..PARTNERS).try_for_each(|partner| self.use_up(partner))
    }

    /// A connection without a session ends, and another one comes.
    fn reopen(&mut self, connection: usize) -> Option<()> {
        if connection % CONNECTIONS_EACH < CONNECTIONS_EACH - ALONE {
            return Some(());
        }
        let (tables, number) = (self.tables.lend(), connection as u64);
        let answer = relay::close(tables, self.map, self.now, number, &mut self.relay);
        self.keep(answer).then_some(())?;
        self.open(connection)
    }

    /// Messages of a partner's connections in turn, up to the first that can't be paid.
    fn use_up(&mut self, partner: usize) -> Option<()> {
        let mut answer = 0;
        while answer != USED_UP {
            self.turn += 1;
            let connection = partner * CONNECTIONS_EACH + self.turn % CONNECTIONS_EACH;
            let data = vec![7; LENGTHS[self.turn % LENGTHS.len()]];
            let message = match self.turn % MALFORMED_EVERY {
                0 => MALFORMED.to_vec(),
                _ => codec::encode(&Message::DataSend { data: &data })?,
            };
            answer = self.message(connection, &message).number;
        }
        Some(())
    }

    /// A message that has to be done.
    fn send(&mut self, connection: usize, message: &Message) -> Option<Answer> {
        let answer = self.message(connection, &codec::encode(message)?);
        (answer.number == 0).then_some(answer)
    }

    fn message(&mut self, connection: usize, message: &[u8]) -> Answer {
        // Another id, and other keys, for each connection.
        let random = [connection as u8 + 1; RANDOM];
        let (reply, relayed) = (&mut self.reply, &mut self.relay);
        let tables = self.tables.lend();
        let answer = relay::message(tables, self.map, self.now, connection as u64, message, &random, reply, relayed);
        self.keep(answer);
        answer
    }

    /// Keeps a call's record, unless the journal is full. Whether the call is done.
    fn keep(&mut self, answer: Answer) -> bool {
        self.map = answer.map;
        if self.journal.len() < self.size {
            self.journal.extend(answer.record);
            self.allowances.copy_from_slice(self.tables.view().allowances);
        }
        answer.number == 0
    }
}

fn connections(partner: usize) -> impl Iterator<Item = usize> {
    (partner * CONNECTIONS_EACH..).take(CONNECTIONS_EACH)
}

#[cfg(test)]
mod tests {
    use std::collections::BTreeSet;

    use super::{Recorder, RECORD};

    #[test]
    fn the_journal_has_every_kind_of_call_and_so_many_records() {
        let Recorder { journal, .. } = Recorder::run(20_000).expect("a journal");
        assert_eq!(journal.len(), 20_000 * RECORD);
        let kinds: BTreeSet<_> = journal.chunks(RECORD).map(|record| (record[9], record[11])).collect();
        // Opens, messages, closes and checks that are done; and messages that are refused.
        assert_eq!(kinds, [(0, 0), (1, 0), (1, 6), (1, 8), (1, 9), (2, 0), (3, 0)].into());
    }
}
