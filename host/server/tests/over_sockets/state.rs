//! The state file: what a restart keeps, and files that are none.

use std::fs;
use std::io;
use std::path::Path;
use std::thread;
use std::time::{Duration, Instant};

use codec::{encode, Message};
use server::{bind_free, LeaseTerm, Log, LogFormat, Server, Settings, SystemClock, CONNECTIONS_EACH};
use tempfile::TempDir;

use crate::clocks::Standing;
use crate::support::{Relay, LIMIT};

/// Bytes of the three tables.
const SIZE: usize = 4_096 + 5_120 + 144;
/// Bytes of a connection's record, which is in the first table.
const RECORD: usize = 64;
/// The state of an open connection, the first byte of its record.
const OPEN: u8 = 2;
/// Where the first connection's record tells whether a Keepalive is unanswered.
const UNANSWERED: usize = 2;

pub fn folder() -> TempDir {
    tempfile::tempdir().expect("a folder")
}

fn with_state(clock: impl server::Clock + 'static, file: &Path) -> Relay {
    Relay::with_settings(clock, |settings| settings.state = Some(file.to_owned()))
}

/// Why a relay with this state file doesn't start.
fn refusal(file: &Path) -> String {
    let settings = Settings {
        state: Some(file.to_owned()),
        ..Settings::new(SystemClock::new(), Log::new(LogFormat::Text, |_| ()))
    };
    match Server::start(bind_free().expect("free ports"), settings) {
        Ok(_) => panic!("it starts"),
        Err(error) => error.to_string(),
    }
}

/// The status that a session with the holder of the id is refused with.
pub fn establish_status(relay: &Relay, id: u32) -> u8 {
    let mut caller = relay.peer(0);
    caller.send(Message::EstablishRequest { id });
    match codec::decode(&caller.receive().expect("an answer")) {
        Some(Message::EstablishRefused { status, .. }) => status,
        other => panic!("{other:?}"),
    }
}

#[test]
fn leases_and_allowances_go_on_after_a_restart() {
    let folder = folder();
    let file = folder.path().join("state");
    let clock = Standing::from(1_000);
    let relay = with_state(clock.clone(), &file);
    let mut holder = relay.peer(0);
    let id = holder.lease();
    let mut poor = relay.peer(1);
    (0..9_000).for_each(|_| poor.send(Message::Keepalive));
    relay.await_line("partner 1, connection 8: refused with 9");
    relay.stop();
    assert_eq!(fs::read(&file).expect("a state").len(), SIZE);

    let relay = with_state(clock.clone(), &file);
    assert_eq!(establish_status(&relay, id), 2, "leased, and its holder offline");
    let mut late = relay.socket(1);
    late.stream.set_read_timeout(Some(Duration::from_millis(100))).expect("a timeout");
    assert!(!late.is_closed() && relay.server.statistics()[1].done == 0, "the allowance is still used up");
    relay.stop();

    clock.advance(LeaseTerm::USUAL.seconds());
    let relay = with_state(clock, &file);
    assert_eq!(establish_status(&relay, id), 1, "the lease has ended meanwhile");
}

/// Waits until a state is saved that is as it should be. A busy disk may take ten seconds for it.
fn await_saved(file: &Path, is_awaited: impl Fn(&[u8]) -> bool) -> Vec<u8> {
    let end = Instant::now() + 4 * LIMIT;
    loop {
        let bytes = fs::read(file).expect("a state");
        if is_awaited(&bytes) {
            return bytes;
        }
        assert!(Instant::now() < end, "nothing is saved");
        thread::sleep(Duration::from_millis(10));
    }
}

/// The clock of the tables is their last number.
fn clock_of(tables: &[u8]) -> u64 {
    u64::from_be_bytes(*tables.last_chunk().expect("a clock"))
}

#[test]
fn the_state_is_saved_while_the_relay_runs_and_connections_of_a_killed_one_are_closed() {
    let folder = folder();
    let (file, copy) = (folder.path().join("state"), folder.path().join("copy"));
    let relay = with_state(SystemClock::new(), &file);
    let fresh = fs::read(&file).expect("it is written at the start");
    let all: Vec<_> = (0..CONNECTIONS_EACH).map(|_| relay.peer(0)).collect();
    let start = Instant::now();
    thread::sleep(Duration::from_millis(100));
    await_saved(&file, |bytes| bytes != fresh);
    // Half a second, and what a busy disk takes: a sync may stand for ten seconds there.
    assert!(start.elapsed() < Duration::from_secs(30), "it took {:?}", start.elapsed());
    // What a killed relay would leave: all connections of the partner are open in it.
    let saved = await_saved(&file, |bytes| (0..CONNECTIONS_EACH).all(|number| bytes[number * RECORD] == OPEN));
    fs::write(&copy, saved).expect("a copy");
    drop(all);
    let second = with_state(SystemClock::new(), &copy);
    let mut again: Vec<_> = (0..CONNECTIONS_EACH).map(|_| second.peer(0)).collect();
    assert!(again.iter_mut().all(|peer| peer.lease() < 1 << 26));
    assert!(second.await_opened(CONNECTIONS_EACH).into_iter().eq(0..CONNECTIONS_EACH), "all numbers were free");
}

#[test]
fn a_keepalive_of_a_killed_relay_is_forgotten() {
    let folder = folder();
    let (file, copy) = (folder.path().join("state"), folder.path().join("copy"));
    let clock = Standing::from(1_000);
    let relay = with_state(clock.clone(), &file);
    let _silent = relay.peer(0);
    relay.await_done(0, 2);
    clock.pass(30);
    fs::write(&copy, await_saved(&file, |bytes| bytes[UNANSWERED] == 1)).expect("a copy");
    let clock = Standing::from(2_000);
    let second = with_state(clock.clone(), &copy);
    let mut peer = second.peer(0);
    second.await_done(0, 2);
    clock.pass(29);
    assert!(peer.is_quiet(), "it is neither asked nor closed");
    clock.pass(1);
    assert_eq!(peer.receive(), encode(&Message::Keepalive));
}

#[test]
fn a_file_that_is_no_state_is_refused_and_left_alone() {
    let folder = folder();
    let file = folder.path().join("state");
    let wrong = [vec![], vec![0; SIZE - 1], vec![0; SIZE + 1], b"a letter to mother".to_vec()];
    for bytes in wrong {
        fs::write(&file, &bytes).expect("a file");
        let why = refusal(&file);
        assert!(why.contains("state'") && why.contains(&format!("{} bytes and not {SIZE}", bytes.len())), "{why}");
        assert_eq!(fs::read(&file).expect("the file"), bytes);
    }
    let mut late = vec![0; SIZE];
    late[SIZE - 6] = 1;
    fs::write(&file, &late).expect("a file");
    assert!(refusal(&file).contains("its clock is at 1099511627776, out of range"), "{}", refusal(&file));
    assert_eq!(fs::read(&file).expect("the file"), late);
}

#[test]
fn a_folder_that_cannot_be_written_and_a_file_in_use_are_refused() {
    let folder = folder();
    let nowhere = folder.path().join("missing").join("state");
    assert!(refusal(&nowhere).contains("missing"), "{}", refusal(&nowhere));
    assert!(refusal(folder.path()).contains("it isn't a plain file"), "{}", refusal(folder.path()));
    assert!(refusal(Path::new("/dev/zero")).contains("it isn't a plain file"), "it has no end");
    let link = folder.path().join("link");
    std::os::unix::fs::symlink(&nowhere, &link).expect("a link");
    assert!(refusal(&link).contains("the state file"), "a link to nothing");
    let file = folder.path().join("state");
    let relay = with_state(SystemClock::new(), &file);
    assert!(refusal(&file).contains("another relay uses it"), "{}", refusal(&file));
    relay.stop();
    with_state(SystemClock::new(), &file).stop();
}

#[test]
fn the_clock_never_begins_before_that_of_the_file() -> io::Result<()> {
    let folder = folder();
    let file = folder.path().join("state");
    let relay = with_state(Standing::from(1 << 39), &file);
    let id = relay.peer(0).lease();
    relay.stop();
    // The machine's time is long before it, and no partner has to wait for it.
    let relay = with_state(SystemClock::new(), &file);
    let mut peer = relay.peer(0);
    (0..8_100).for_each(|_| peer.send(Message::Keepalive));
    assert!(peer.lease() < 1 << 26, "allowances refill");
    assert_eq!(establish_status(&relay, id), 2, "the lease goes on");
    Ok(())
}

#[test]
fn only_its_owner_can_read_it() {
    use std::os::unix::fs::PermissionsExt;
    let folder = folder();
    let file = folder.path().join("state");
    with_state(SystemClock::new(), &file).stop();
    assert_eq!(fs::metadata(&file).expect("a file").permissions().mode() & 0o777, 0o600);
    let left: Vec<_> =
        fs::read_dir(folder.path()).expect("a folder").flatten().map(|entry| entry.file_name()).collect();
    assert!(!left.iter().any(|name| name == "state.new"), "{left:?}");
}

#[test]
fn nothing_is_written_while_nothing_changes() {
    use std::os::unix::fs::MetadataExt;
    let folder = folder();
    let file = folder.path().join("state");
    let clock = Standing::from(1_000);
    let relay = with_state(clock.clone(), &file);
    // While a peer says nothing only the clock's seconds change.
    let silent = relay.peer(0);
    await_saved(&file, |bytes| bytes[0] == OPEN);
    // A save makes another file of that name.
    let inode = || fs::metadata(&file).expect("a file").ino();
    let before = inode();
    for _ in 0..3 {
        clock.pass(1);
        thread::sleep(Duration::from_millis(400));
    }
    assert_eq!(inode(), before);
    silent.leave();
    relay.stop();
    assert_eq!(clock_of(&fs::read(&file).expect("a state")), 1_003, "at the end it is saved as it is");
}

#[test]
fn what_a_killed_relay_left_half_written_is_no_hindrance() {
    let folder = folder();
    let file = folder.path().join("state");
    fs::write(folder.path().join("state.new"), "half").expect("a file");
    with_state(SystemClock::new(), &file).stop();
    assert_eq!(fs::read(&file).expect("a state").len(), SIZE);
}

#[test]
fn a_link_to_the_file_stays_one() {
    let folder = folder();
    let (file, link) = (folder.path().join("state"), folder.path().join("link"));
    with_state(SystemClock::new(), &file).stop();
    std::os::unix::fs::symlink("state", &link).expect("a link");
    let relay = with_state(SystemClock::new(), &link);
    // Whatever it is called, it is one file.
    assert!(refusal(&file).contains("another relay uses it"), "{}", refusal(&file));
    relay.stop();
    assert!(fs::symlink_metadata(&link).expect("a link").is_symlink());
}

#[test]
fn what_could_not_be_saved_is_told_and_saved_at_the_end() {
    let folder = folder();
    let (there, away) = (folder.path().join("there"), folder.path().join("away"));
    fs::create_dir(&there).expect("a folder");
    let file = there.join("state");
    let relay = with_state(SystemClock::new(), &file);
    let fresh = fs::read(&file).expect("a state");
    fs::rename(&there, &away).expect("the folder is gone");
    let mut peer = relay.peer(0);
    peer.lease();
    peer.leave();
    relay.await_line("partner 0, connection 0: closed");
    relay.await_line("the relay: the state isn't saved in");
    // Nothing changes any more from here on, and what wasn't saved has been handed over.
    thread::sleep(Duration::from_millis(1_200));
    fs::rename(&away, &there).expect("the folder is back");
    relay.stop();
    assert!(fs::read(&file).expect("a state") != fresh, "the lease is lost");
}
