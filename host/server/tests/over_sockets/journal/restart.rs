//! A relay that goes on with a saved state, and the journal that it finds.

use std::fs;

use codec::Message;
use engine::relay::RECORD;
use server::journal::Start;
use server::{LeaseTerm, SystemClock};

use super::{end, records, Files, Record, CAPACITY, KEEPALIVE_COST, NOW, OPEN_COST};
use crate::clocks::Standing;
use crate::support::Relay;

/// What a partner pays for a connection whose version is answered.
const CONNECTED_COST: u64 = OPEN_COST + 34;

/// A relay that was killed after so many messages of partner 1 that its state doesn't have.
fn killed_after(messages: usize) -> Files {
    let files = Files::new();
    let relay = files.start(Standing::from(NOW));
    let saved = fs::read(&files.state).expect("a state");
    let mut peer = relay.peer(1);
    (0..messages).for_each(|_| peer.send(Message::Keepalive));
    relay.await_done(1, 2 + messages as u64);
    files.await_calls(2 + messages);
    let killed = files.killed(&saved);
    end(relay, vec![peer]);
    killed
}

/// What partner 1 has after so many messages on one connection.
fn level_after(messages: usize) -> u64 {
    CAPACITY - CONNECTED_COST - messages as u64 * KEEPALIVE_COST
}

#[test]
fn charges_after_the_last_saved_state_are_not_forgotten() {
    let files = killed_after(100);
    let before = files.bytes();
    assert_eq!(files.tables().level(1, NOW), CAPACITY, "the state has none of them");
    let relay = files.start(Standing::from(NOW));
    relay.await_line(&format!("journal' goes on after {} records", before.len() / RECORD));
    assert_eq!(files.tables().level(1, NOW), level_after(100), "the state is saved with them at once");
    let peer = relay.peer(1);
    relay.await_done(1, 2);
    end(relay, vec![peer]);
    assert_eq!(files.tables().level(1, NOW), level_after(100) - CONNECTED_COST);
    let after = files.bytes();
    assert!(after.starts_with(&before) && after.len() >= before.len() + 3 * RECORD, "it is appended to");
    files.assert_agree();
}

/// What the state has had is filled up to the journal's time before it is compared.
#[test]
fn free_calls_after_the_last_saved_state_are_no_gap() {
    let (files, clock) = (Files::new(), Standing::from(NOW));
    let relay = files.start(clock.clone());
    let mut peer = relay.peer(1);
    (0..100).for_each(|_| peer.send(Message::Keepalive));
    relay.await_done(1, 102);
    relay.wait_until(|| files.tables().level(1, NOW) == level_after(100), "the state isn't saved");
    let saved = fs::read(&files.state).expect("a state");
    clock.pass(3);
    relay.wait_until(|| records(&files.bytes()).last().is_some_and(|record| record.0 == NOW + 3), "no later check");
    let killed = files.killed(&saved);
    end(relay, vec![peer]);
    assert_eq!(killed.tables().clock(), NOW);
    let later = records(&killed.bytes()).into_iter().filter(|record| record.0 > NOW);
    assert!(later.map(|record| record.5).sum::<u32>() == 0, "they are free");
    let relay = killed.start(Standing::from(NOW + 3));
    relay.await_line("journal' goes on after");
    assert!(!relay.has_line("lacks calls"));
    relay.stop();
    killed.assert_agree();
}

/// The state has an open connection, which its relay closes at the start.
#[test]
fn the_closes_at_loading_have_records() {
    let files = Files::new();
    let relay = files.start(Standing::from(NOW));
    let peers = vec![relay.peer(0), relay.peer(2)];
    relay.await_done(0, 2);
    relay.await_done(2, 2);
    files.await_calls(4);
    let is_open = |number: usize| files.tables().view().connections[number * 64] != 0;
    relay.wait_until(|| is_open(0) && is_open(16), "the state isn't saved");
    let copy = files.killed(&fs::read(&files.state).expect("a state"));
    end(relay, peers);
    let before = copy.bytes();
    copy.start(Standing::from(NOW + 5)).stop();
    let closes: Vec<Record> = records(&copy.bytes()[before.len()..]);
    assert_eq!(closes, [(NOW + 5, 0, 2, 0, 0, 0), (NOW + 5, 16, 2, 0, 0, 0)]);
    copy.assert_agree();
}

#[test]
fn a_torn_end_is_cut() {
    let files = killed_after(3);
    let whole = files.bytes();
    // Zeros are what a machine without power leaves of blocks that it hadn't written.
    let ends: [&[u8]; 4] = [&[0], &[7; RECORD - 1], &[0; 2 * RECORD], &[0; 3 * RECORD - 1]];
    for torn in ends {
        fs::write(&files.journal, [&whole, torn].concat()).expect("a file");
        let lines = files.start(Standing::from(NOW)).stop().1;
        let told = format!("journal' has lost its last {} bytes, which were torn", torn.len());
        assert!(lines.iter().any(|line| line.contains(&told)), "{lines:?}");
        assert!(files.bytes() == whole, "{} bytes", files.bytes().len());
        files.assert_agree();
    }
    assert_eq!(files.tables().level(1, NOW), level_after(3));
}

#[test]
fn a_state_without_its_journal_is_refused_and_nothing_is_lost() {
    let files = killed_after(3);
    let (state, journal, start) = (&files.state, &files.journal, Start::path_for(&files.journal));
    let kept = [state, journal, &start].map(|path| fs::read(path).expect("a file"));
    let remedy = "start without a journal, or move the state file away for a fresh relay, which begins one";
    let mut backward = kept[1].clone();
    backward[RECORD..2 * RECORD].fill(0);
    let older = Start::new(NOW, LeaseTerm::LONGEST).to_string().into_bytes();
    for (place, instead, why) in [
        (journal, None, "it isn't there, though the state file is, and only a fresh relay begins one"),
        (&start, None, "journal.start': No such file"),
        (&start, Some(&b"yesterday"[..]), "its lines aren't"),
        (&start, Some(&older), "leases of the state last for another time, so it is another relay's"),
        (journal, Some(&backward), "it contradicts the rules at byte 16"),
    ] {
        instead.map_or_else(|| fs::remove_file(place), |bytes| fs::write(place, bytes)).expect("a file");
        let refusal = files.refusal();
        assert!(refusal.contains(why) && refusal.ends_with(remedy), "{refusal}");
        assert_eq!(fs::read(place).ok().as_deref(), instead);
        for (path, bytes) in [state, journal, &start].into_iter().zip(&kept) {
            assert!(path == place || fs::read(path).expect("a file") == *bytes, "{} isn't left alone", path.display());
            fs::write(path, bytes).expect("a file");
        }
    }
    files.start(Standing::from(NOW)).stop();
    files.assert_agree();
}

/// Records that the state's calls have had are gone: by time, or within a second.
#[test]
fn a_journal_that_lacks_calls_of_the_state_has_ended() {
    for later in [0, 60] {
        let (files, clock) = (Files::new(), Standing::from(NOW));
        let relay = files.start(clock.clone());
        let mut peer = relay.peer(1);
        (0..100).for_each(|_| peer.send(Message::Keepalive));
        relay.await_done(1, 102);
        clock.pass(later);
        end(relay, vec![peer]);
        let lost = files.bytes()[..50 * RECORD].to_vec();
        fs::write(&files.journal, &lost).expect("a file");
        let kept = files.tables();
        let relay = files.start(clock.clone());
        relay.await_line("journal' lacks calls that the state has, so it has ended");
        relay.await_line("journal' has ended, so none is written; start without a journal, or move the state");
        let peer = relay.peer(1);
        relay.await_done(1, 2);
        end(relay, vec![peer]);
        assert_eq!(files.tables().level(1, NOW + later), kept.level(1, NOW + later) - CONNECTED_COST);
        assert!(files.bytes() == lost && Start::read(&files.journal).expect("a start").ended, "it is left as it was");
        // It still lacks them at the next start, which has nothing more to note.
        let kept = files.tables();
        let lines = files.start(clock.clone()).stop().1;
        assert!(lines.iter().any(|line| line.contains("journal' has ended, so none is written")), "{lines:?}");
        assert!(!lines.iter().any(|line| line.contains("lacks calls")), "{lines:?}");
        assert!(files.tables() == kept && files.bytes() == lost, "it is left as it was");
        assert!(Start::read(&files.journal).expect("a start").ended);
    }
}

/// The state couldn't be saved either, so the journal's allowances are the later ones; but calls are missing.
#[test]
fn a_journal_that_has_ended_is_not_appended_to() {
    let files = killed_after(100);
    Start::note_end(&files.journal).expect("noted");
    let before = files.bytes();
    for _ in 0..2 {
        let relay = files.start(Standing::from(NOW));
        relay.await_line("journal' has ended, so none is written");
        assert!(!relay.has_line("lacks calls"));
        assert_eq!(files.tables().level(1, NOW), level_after(100));
        relay.stop();
    }
    assert!(files.bytes() == before);
    // A fresh relay begins a new one, and the old one is still known as ended.
    fs::remove_file(&files.state).expect("a state");
    files.start(Standing::from(NOW)).stop();
    let old = files.folder.path().join("journal.1");
    assert!(fs::read(&old).expect("the old one") == before && Start::read(&old).expect("its start").ended);
    assert!(!Start::read(&files.journal).expect("a start").ended);
}

#[test]
fn the_clock_never_begins_before_that_of_the_journal() {
    let files = Files::new();
    let clock = Standing::from(1 << 38);
    let relay = files.start(clock.clone());
    let saved = fs::read(&files.state).expect("a state");
    let peer = relay.peer(1);
    relay.await_done(1, 2);
    clock.pass(1 << 38);
    relay.wait_until(|| records(&files.bytes()).last().is_some_and(|record| record.0 == 1 << 39), "no later check");
    let killed = files.killed(&saved);
    end(relay, vec![peer]);
    // The machine's time is long before it.
    let relay = killed.start(SystemClock::new());
    let mut peer = relay.peer(1);
    (0..8_100).for_each(|_| peer.send(Message::Keepalive));
    relay.await_done(1, 8_102);
    end(relay, vec![peer]);
    killed.assert_agree();
    assert!(killed.tables().clock() > 1 << 39, "allowances refill");
}

#[test]
fn without_a_state_every_start_is_a_fresh_one() {
    let files = Files::new();
    let start = |now| {
        let relay =
            Relay::with_settings(Standing::from(now), |settings| settings.journal = Some(files.journal.clone()));
        let peer = relay.peer(0);
        relay.await_done(0, 2);
        end(relay, vec![peer])
    };
    let lines = start(NOW);
    assert!(lines.iter().any(|line| line.ends_with("journal' begins")), "{lines:?}");
    let first = files.bytes();
    let lines = start(NOW + 1);
    assert!(lines.iter().any(|line| line.contains("journal' begins; what was there is kept as '")), "{lines:?}");
    let old = files.folder.path().join("journal.1");
    assert!(fs::read(&old).expect("the old one") == first && !first.is_empty());
    let started = [&old, &files.journal].map(|path| Start::read(path).expect("a start").time);
    assert_eq!(started, [NOW, NOW + 1]);
    assert!(records(&files.bytes()).iter().all(|record| record.0 == NOW + 1));
}

#[test]
fn a_state_and_a_journal_share_no_file() {
    let mut files = Files::new();
    let folder = files.folder.path().to_owned();
    let names =
        [("j.start", "j"), ("j", "j.lock"), ("j.start.new", "j"), ("j", "j.new"), ("j.1", "j"), ("j.1.start", "j")];
    for (state, journal) in names {
        (files.state, files.journal) = (folder.join(state), folder.join(journal));
        let refusal = files.refusal();
        assert!(refusal.ends_with("is a file of both the state and the journal"), "{refusal}");
        assert_eq!(fs::read_dir(&folder).expect("a folder").count(), 0);
    }
    (files.state, files.journal) = (folder.join("s"), folder.join("j"));
    files.start(SystemClock::new()).stop();
}
