//! `crondelith serve --journal`: relays that are killed, and disks that are full.

use std::fs;
use std::path::{Path, PathBuf};
use std::time::Duration;

use codec::Message;
use engine::relay::{self, ALLOWANCES, RECORD};
use peer::Peer;
use server::journal::Start;
use server::Tables;

use crate::support::{becomes_true, folder, run, text, Relay};

/// How long records may take to be written.
const WRITTEN: Duration = Duration::from_secs(10);
/// The calls of a peer that connects.
const CONNECTED: usize = 2;

/// A state file and a journal in a folder of their own.
struct Files {
    state: PathBuf,
    journal: PathBuf,
}

impl Files {
    fn new(name: &str) -> Self {
        let folder = folder(name);
        Self { state: folder.join("state"), journal: folder.join("journal") }
    }

    fn options(&self) -> [&str; 4] {
        ["--state", text(&self.state), "--journal", text(&self.journal)]
    }

    fn tables(&self) -> Tables {
        Tables::load(&self.state).expect("a state")
    }

    fn bytes(&self) -> Vec<u8> {
        fs::read(&self.journal).expect("a journal")
    }

    fn await_records(&self, count: usize) {
        assert!(becomes_true(WRITTEN, || self.bytes().len() >= count * RECORD), "{} bytes", self.bytes().len());
    }

    /// The allowances that the journal is replayed to.
    fn replayed(&self) -> [u8; ALLOWANCES] {
        let Start { time, term, .. } = Start::read(&self.journal).expect("a start");
        let mut allowances = [0; ALLOWANCES];
        let answer = relay::replay(&mut allowances, &self.bytes(), time, term.seconds());
        assert_eq!((answer.number, answer.contradicted), (0, 0), "at byte {}", answer.place);
        allowances
    }
}

/// A peer of partner 2 that has sent so many messages.
fn peer(relay: &Relay, messages: usize) -> Peer {
    let mut peer = Peer::connect(("127.0.0.1", relay.base_port + 2)).expect("a handshake");
    (0..messages).for_each(|_| peer.send(&Message::Keepalive).expect("sent"));
    peer
}

/// Waits for a line, which may be among the relay's first.
fn await_line(relay: &mut Relay, line: &str) {
    assert!(relay.first_lines.contains(line) || relay.program.await_line(line).is_some(), "no '{line}'");
}

fn end(relay: Relay) -> String {
    relay.program.signal("TERM");
    let ended = relay.program.end();
    assert_eq!(ended.status, Some(0), "{}", ended.stderr);
    ended.stderr
}

#[test]
fn a_killed_relay_is_charged_by_its_journal() {
    let files = Files::new("journal_killed");
    let mut relay = Relay::start(&files.options());
    let fresh = fs::read(&files.state).expect("a state");
    // A state file is longer than this, so that none can be saved any more; the journal is shorter.
    relay.program.allow_file_size(fresh.len() as u64 - 1);
    let peer = peer(&relay, 300);
    files.await_records(CONNECTED + 300);
    await_line(&mut relay, "the state isn't saved");
    relay.program.signal("KILL");
    assert_eq!(relay.program.end().status, None);
    drop(peer);
    assert!(fs::read(&files.state).expect("a state") == fresh, "the state knows of no call");
    let (before, charged) = (files.bytes(), files.replayed());
    assert!(files.tables().view().allowances != charged);

    let mut relay = Relay::start(&files.options());
    await_line(&mut relay, "goes on after");
    assert!(files.tables().view().allowances == charged, "the state is saved with the journal's allowances");
    end(relay);
    assert!(files.bytes().starts_with(&before));
    assert!(files.tables().view().allowances == files.replayed());
}

#[test]
fn a_full_disk_ends_the_journal_and_no_call() {
    let files = Files::new("journal_full");
    let mut relay = Relay::start(&files.options());
    // Room for no whole number of records.
    let limit = 1_000 * RECORD as u64 + 5;
    relay.program.allow_file_size(limit);
    let mut peer = peer(&relay, 1_500);
    relay.program.await_line("journal' has ended, with 1000 records: File too large").expect("a line");
    peer.lease().expect("calls are made as before");
    drop(peer);
    let later = end(relay);
    assert!(later.contains("partner 2: 1504 calls done"), "{later}");
    let ended = files.bytes();
    assert_eq!(ended.len(), 1_000 * RECORD);
    files.replayed();
    assert!(Start::read(&files.journal).expect("a start").ended);

    // There is room again, but calls are missing.
    let mut relay = Relay::start(&files.options());
    await_line(&mut relay, "journal' has ended, so none is written");
    drop(self::peer(&relay, 10));
    end(relay);
    assert!(files.bytes() == ended, "something is appended");
}

fn refusal(state: &Path, journal: &Path) -> String {
    let ended = run(&["serve", "--state", text(state), "--journal", text(journal)]);
    assert_eq!((ended.status, &*ended.stdout), (Some(1), ""), "{}", ended.stderr);
    ended.stderr
}

#[test]
fn a_relay_that_has_no_journal_to_go_on_with_says_what_to_do() {
    let files = Files::new("journal_none");
    end(Relay::start(&["--state", text(&files.state)]));
    let refusal = refusal(&files.state, &files.journal);
    let why = "journal': it isn't there, though the state file is, and only a fresh relay begins one; \
               start without a journal, or move the state file away for a fresh relay, which begins one";
    assert!(refusal.contains(why), "{refusal}");
    assert!(!files.journal.exists() && !Start::path_for(&files.journal).exists());
    fs::rename(&files.state, files.state.with_extension("old")).expect("moved away");
    end(Relay::start(&files.options()));
    assert!(files.tables().view().allowances == files.replayed());
}
