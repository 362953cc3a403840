//! The journal: what is in it, and what a restart makes of it.

mod restart;

use std::fs;
use std::path::{Path, PathBuf};
use std::thread;
use std::time::{Duration, Instant};

use codec::Message;
use engine::relay::{self, RECORD};
use server::journal::Start;
use server::{bind_free, Clock, LeaseTerm, Log, LogFormat, Server, Settings, SystemClock, Tables, CLOCK_LIMIT};
use tempfile::TempDir;

use crate::clocks::Standing;
use crate::state::folder;
use crate::support::{Relay, Socket, LIMIT};

const NOW: u64 = 1_000;
/// What is charged for an open, and for a message of one byte.
const OPEN_COST: u64 = 45;
const KEEPALIVE_COST: u64 = 33;
const CAPACITY: u64 = 262_144;
/// The call by which a peer is checked.
const CHECK: u8 = 3;

/// A folder with the names of a state file and a journal.
struct Files {
    folder: TempDir,
    state: PathBuf,
    journal: PathBuf,
}

impl Files {
    fn new() -> Self {
        let folder = folder();
        let [state, journal] = ["state", "journal"].map(|name| folder.path().join(name));
        Self { folder, state, journal }
    }

    fn adapt(&self, settings: &mut Settings) {
        (settings.state, settings.journal) = (Some(self.state.clone()), Some(self.journal.clone()));
    }

    /// A relay with both.
    fn start(&self, clock: impl Clock + 'static) -> Relay {
        Relay::with_settings(clock, |settings| self.adapt(settings))
    }

    /// Why a relay with both doesn't start.
    fn refusal(&self) -> String {
        let mut settings = Settings::new(SystemClock::new(), Log::new(LogFormat::Text, |_| ()));
        self.adapt(&mut settings);
        let started = Server::start(bind_free().expect("free ports"), settings);
        started.err().expect("it doesn't start").to_string()
    }

    /// What a relay that is killed now leaves, but with the state of before.
    fn killed(&self, state: &[u8]) -> Self {
        let copy = Self::new();
        for (from, to) in
            [(&self.journal, &copy.journal), (&Start::path_for(&self.journal), &Start::path_for(&copy.journal))]
        {
            fs::copy(from, to).expect("a copy");
        }
        fs::write(&copy.state, state).expect("a copy");
        copy
    }

    fn tables(&self) -> Tables {
        Tables::load(&self.state).expect("a state")
    }

    fn bytes(&self) -> Vec<u8> {
        fs::read(&self.journal).expect("a journal")
    }

    /// Waits until the journal has records of so many calls beside the checks of the peers, and gives them.
    fn await_calls(&self, count: usize) -> Vec<Record> {
        let end = Instant::now() + LIMIT;
        loop {
            let calls = calls(&self.bytes());
            if calls.len() >= count {
                return calls;
            }
            assert!(Instant::now() < end, "only {} calls are written", calls.len());
            thread::sleep(Duration::from_millis(5));
        }
    }

    /// The state must have exactly the allowances that the journal is replayed to.
    fn assert_agree(&self) {
        assert!(replayed(&self.journal) == self.tables().view().allowances, "the journal replays to other allowances");
    }
}

/// The allowances that a journal is replayed to, from the start beside it.
fn replayed(journal: &Path) -> Vec<u8> {
    let Start { time, term, .. } = Start::read(journal).expect("a start");
    let mut allowances = vec![0; relay::ALLOWANCES];
    let answer = relay::replay(&mut allowances, &fs::read(journal).expect("a journal"), time, term.seconds());
    assert_eq!((answer.number, answer.contradicted), (0, 0), "at byte {}", answer.place);
    allowances
}

/// A record's time, connection, call, type byte, answer and charge.
type Record = (u64, u8, u8, u8, u8, u32);

fn records(bytes: &[u8]) -> Vec<Record> {
    let number = |bytes: &[u8]| bytes.iter().fold(0, |number, byte| number << 8 | u64::from(*byte));
    let (records, rest) = bytes.as_chunks::<RECORD>();
    assert!(rest.is_empty(), "a torn record");
    let read = |record: &[u8; RECORD]| {
        (number(&record[..8]), record[8], record[9], record[10], record[11], number(&record[12..]) as u32)
    };
    records.iter().map(read).collect()
}

/// Those that aren't checks of the peers: a clock that stands makes many of them.
fn calls(bytes: &[u8]) -> Vec<Record> {
    records(bytes).into_iter().filter(|record| record.2 != CHECK).collect()
}

/// Ends a relay as its peers leave, so that nothing of it waits.
fn end(relay: Relay, peers: Vec<Socket>) -> Vec<String> {
    drop(peers);
    relay.stop().1
}

#[test]
fn each_call_has_its_record_in_its_place() {
    let (files, clock) = (Files::new(), Standing::from(NOW));
    let relay = files.start(clock.clone());
    let mut peer = relay.peer(0);
    peer.send(Message::Keepalive);
    peer.send(Message::DataSend { data: &[1; 10] });
    relay.await_line("partner 0, connection 0: refused with 8");
    peer.send_message(&[]);
    relay.await_line("partner 0, connection 0: refused with 6");
    // A check of the peers moves the clock; of the one that is there it makes a record.
    let other = relay.peer(3);
    relay.await_done(3, 2);
    clock.pass(2);
    end(relay, vec![peer, other]);
    let all = records(&files.bytes());
    let of = |connection: u8| calls(&files.bytes()).into_iter().filter(move |record| record.1 == connection);
    let first: Vec<_> = of(0).collect();
    let expected = [(0, 0, 0, 45), (1, 1, 0, 34), (1, 13, 0, 33), (1, 11, 8, 0), (1, 0, 6, 0), (2, 0, 0, 0)];
    let expected = expected.map(|(call, kind, answer, charge)| (NOW, 0, call, kind, answer, charge));
    assert_eq!(first, expected);
    let last: Vec<_> = of(24).collect();
    assert_eq!(last, [(NOW, 24, 0, 0, 0, 45), (NOW, 24, 1, 1, 0, 34), (NOW + 2, 24, 2, 0, 0, 0)]);
    assert!(all.contains(&(NOW + 2, 24, CHECK, 0, 0, 0)), "the check of the peer: {all:?}");
    assert!(all.is_sorted_by_key(|record| record.0) && all.iter().all(|record| [0, 24].contains(&record.1)), "{all:?}");
    files.assert_agree();
    assert_eq!(Start::read(&files.journal).expect("a start"), Start::new(NOW, LeaseTerm::USUAL));
}

#[test]
fn a_journal_of_many_calls_replays_to_the_allowances_of_the_relay() {
    let files = Files::new();
    let relay = files.start(SystemClock::new());
    let peers = (0..4).map(|partner| {
        let mut peer = relay.peer(partner);
        (0..8_500).for_each(|_| peer.send(Message::Keepalive));
        peer
    });
    let peers: Vec<_> = peers.collect();
    (0..4).for_each(|partner| relay.await_done(partner, 8_502));
    end(relay, peers);
    files.assert_agree();
    let all = records(&files.bytes());
    assert!(all.iter().any(|record| record.4 == 9) && all.len() > 4 * 8_502, "{} records", all.len());
}

#[test]
fn a_call_answered_with_1_to_3_has_no_record() {
    let (files, clock) = (Files::new(), Standing::from(NOW));
    let relay = files.start(clock.clone());
    let mut peer = relay.peer(0);
    let before = files.await_calls(2);
    // Every call at this time is refused with 2.
    clock.advance(CLOCK_LIMIT);
    peer.send(Message::Keepalive);
    relay.await_line("refused with 2");
    end(relay, vec![peer]);
    assert_eq!(calls(&files.bytes()), before);
    assert!(records(&files.bytes()).iter().all(|record| record.0 == NOW), "a check of the peer has a record");
    files.assert_agree();
}

#[test]
fn records_are_written_while_the_relay_runs() {
    let files = Files::new();
    let relay = Relay::with_settings(Standing::from(NOW), |settings| settings.journal = Some(files.journal.clone()));
    assert!(files.bytes().is_empty() && !files.state.exists());
    let start = Instant::now();
    let peer = relay.peer(5);
    let written = files.await_calls(2);
    assert!(start.elapsed() < Duration::from_secs(5), "it took {:?}", start.elapsed());
    assert_eq!(written, [(NOW, 40, 0, 0, 0, 45), (NOW, 40, 1, 1, 0, 34)]);
    end(relay, vec![peer]);
}
