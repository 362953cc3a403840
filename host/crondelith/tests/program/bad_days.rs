//! A relay that is killed, ends during a transfer, has too few file descriptors or meets a flood, and two receivers of one
//! name.

use std::fs;
use std::io::{Read, Write};
use std::net::TcpStream;
use std::process::{Command, Stdio};
use std::thread;
use std::time::{Duration, Instant};

use crate::support::{files, folder, program, text, write_file, Relay, Running, PROGRAM};

#[test]
fn a_killed_relay_loses_at_most_its_last_second() {
    let folder = folder("killed");
    let state = folder.join("state");
    let options = ["--state", text(&state)];
    let relay = Relay::start(&options);
    let (receiver, id) = relay.receiver(&folder.join("copy"), &[]);
    thread::sleep(Duration::from_secs(1));
    relay.program.signal("KILL");
    assert_eq!(relay.program.end().status, None);
    assert_eq!(receiver.end().status, Some(1));
    for wait in [0, 7, 31, 150, 490, 510] {
        // Killed at any moment, it leaves whole tables.
        let relay = Relay::start(&options);
        let (_receiver, _) = relay.receiver(&folder.join("other"), &["--force"]);
        thread::sleep(Duration::from_millis(wait));
        relay.program.signal("KILL");
        relay.program.end();
    }
    let relay = Relay::start(&options);
    let sender = Running::start(&mut relay.peer(&["send", &id, "/etc/passwd"])).end();
    assert!(sender.last_line().contains("offline"), "the lease runs on: {}", sender.stderr);
}

#[test]
fn both_sides_of_a_transfer_say_that_the_relay_stopped() {
    let relay = Relay::start(&[]);
    let folder = folder("relay_stops");
    let original = folder.join("original");
    // More than the allowance lets through in the time.
    write_file(&original, 2_000_000);
    let (receiver, id) = relay.receiver(&folder.join("copy"), &[]);
    let mut sender = Running::start(&mut relay.peer(&["send", &id, text(&original)]));
    sender.await_line("the session is established").expect("a session");
    thread::sleep(Duration::from_millis(300));
    relay.program.signal("TERM");
    assert_eq!(relay.program.end().status, Some(0));
    for side in [sender, receiver] {
        let ended = side.end();
        assert_eq!(ended.status, Some(1));
        assert!(ended.last_line().contains("the relay stopped"), "{}", ended.stderr);
    }
    assert_eq!(files(&folder), 1, "no part is left");
}

/// What a relay says that has so many descriptors, by the shell's limit of this kind; None if it runs.
fn said_with_descriptors(limit: &str) -> Option<String> {
    let command = format!("ulimit {limit}; exec '{PROGRAM}' serve --port 21700");
    let mut shell = Command::new("sh");
    shell.args(["-c", &command]).stdin(Stdio::null()).stdout(Stdio::null()).stderr(Stdio::piped());
    let mut relay = Running::start(&mut shell);
    if relay.await_line("the relay runs").is_some() {
        relay.signal("TERM");
        assert_eq!(relay.end().status, Some(0));
        return None;
    }
    let mut again = Running::start(&mut shell);
    let lines = again.await_line("file descriptors").unwrap_or_default();
    assert_eq!(again.end().status, Some(1));
    Some(lines)
}

#[test]
fn too_few_file_descriptors_are_found_at_the_start() {
    assert_eq!(said_with_descriptors("-S -n 40"), None, "it raises the limit itself");
    let said = said_with_descriptors("-n 40").expect("it can't run");
    assert!(said.contains("the relay needs 232 file descriptors, and the limit is 40 (ulimit -n)"), "{said}");
}

/// Seconds of CPU that a process has taken.
fn cpu_seconds(process: u32) -> f64 {
    let stat = fs::read_to_string(format!("/proc/{process}/stat")).expect("a process");
    let fields: Vec<_> = stat.rsplit(')').next().expect("fields").split_whitespace().collect();
    // Of user and system, in hundredths; they are the 14th and 15th, and the first two are cut off.
    fields[11..13].iter().map(|field| field.parse::<f64>().expect("a number")).sum::<f64>() / 100.0
}

/// Watches a relay that has nothing to do for a second.
fn assert_idle(relay: &Relay) {
    let before = cpu_seconds(relay.program.id());
    thread::sleep(Duration::from_secs(1));
    let taken = cpu_seconds(relay.program.id()) - before;
    assert!(taken < 0.15, "{taken} s of CPU in a second");
}

/// Sends the frame over and over until the time, from a connection with its version answered.
fn flood(port: u16, frame: &[u8], end: Instant) {
    let mut stream = TcpStream::connect(("127.0.0.1", port)).expect("the relay listens");
    stream.read_exact(&mut [0; 16]).expect("the version");
    stream.write_all(&[0, 3, 1, 1, 1]).expect("an answer");
    stream.set_write_timeout(Some(Duration::from_millis(50))).expect("a timeout");
    let block = frame.repeat(65_536 / frame.len());
    while Instant::now() < end {
        // It is full while the relay pauses.
        let _ = stream.write(&block);
    }
}

/// The seconds of CPU that a relay takes while sixteen connections of two partners send the frame for two seconds.
fn cpu_in_flood(frame: &[u8]) -> f64 {
    let relay = Relay::start(&[]);
    let end = Instant::now() + Duration::from_secs(2);
    let before = cpu_seconds(relay.program.id());
    thread::scope(|scope| {
        for number in 0..16 {
            let port = relay.base_port + number / 8;
            scope.spawn(move || flood(port, frame, end));
        }
    });
    cpu_seconds(relay.program.id()) - before
}

#[test]
fn floods_of_what_is_dropped_or_waits_leave_the_relay_idle() {
    let data = [&[4, 2, 1, 11][..], &[7; 1_024]].concat();
    let keepalive = [0, 2, 1, 13];
    for frame in [&data[..], &keepalive] {
        let taken = cpu_in_flood(frame);
        assert!(taken < 0.6, "{taken} s of CPU in two seconds");
    }
}

/// A loop with something left to do that it can't do would use all of a core.
#[test]
fn a_relay_rests_when_its_peers_have_gone() {
    let relay = Relay::start(&[]);
    // More than the allowance pays for, so that all of them wait. They leave with the version unread, which is a reset.
    let bytes = [&[0, 3, 1, 1, 1][..], &[0, 2, 1, 13].repeat(15_000)].concat();
    let peers: Vec<_> =
        (0..8).map(|_| TcpStream::connect(("127.0.0.1", relay.base_port)).expect("it listens")).collect();
    thread::sleep(Duration::from_millis(200));
    peers.iter().for_each(|mut peer| peer.write_all(&bytes).expect("the kernel takes it"));
    thread::sleep(Duration::from_millis(500));
    drop(peers);
    // One that has sent something and then says nothing is nothing to do either.
    let mut idle = TcpStream::connect(("127.0.0.1", relay.base_port + 1)).expect("it listens");
    idle.write_all(&[0, 3, 1, 1, 1, 0, 2, 1, 13]).expect("the relay takes it");
    // A waiting one's next second begins meanwhile.
    thread::sleep(Duration::from_millis(1_500));
    assert_idle(&relay);
}

#[test]
fn a_relay_without_descriptors_rests_and_goes_on_later() {
    let mut relay = Relay::start(&[]);
    relay.program.allow_descriptors(0);
    let mut waiting = TcpStream::connect(("127.0.0.1", relay.base_port)).expect("the kernel takes it");
    relay.program.await_line("a connection failed").expect("a line");
    assert_idle(&relay);
    relay.program.allow_descriptors(1_000);
    waiting.set_read_timeout(Some(Duration::from_secs(5))).expect("a timeout");
    waiting.read_exact(&mut [0; 16]).expect("the version");
}

#[test]
fn a_relay_can_be_started_again_at_once() {
    let relay = Relay::start(&[]);
    let port = relay.base_port.to_string();
    let mut peer = TcpStream::connect(("127.0.0.1", relay.base_port)).expect("the relay listens");
    // One that the relay has not accepted yet would be reset.
    peer.read_exact(&mut [0; 16]).expect("the version");
    relay.program.signal("TERM");
    // The relay closes first, so its port stays known to the kernel for a while.
    peer.read_to_end(&mut Vec::new()).expect("the end");
    assert_eq!(relay.program.end().status, Some(0));
    let mut again = Running::start(&mut program(&["serve", "--port", &port]));
    assert!(again.await_line("the relay runs").is_some());
}

#[test]
fn two_receivers_of_one_name_keep_one_whole_file() {
    let relay = Relay::start(&[]);
    let folder = folder("one_name");
    let copy = folder.join("copy");
    let originals = [folder.join("first"), folder.join("second")];
    let contents = [write_file(&originals[0], 60_000), vec![7; 50_000]];
    fs::write(&originals[1], &contents[1]).expect("a file");
    let receivers = [relay.receiver(&copy, &["--force"]), relay.receiver(&copy, &["--force"])];
    let senders: Vec<_> = originals
        .iter()
        .zip(&receivers)
        .map(|(original, (_, id))| Running::start(&mut relay.peer(&["send", id, text(original)])))
        .collect();
    for sender in senders {
        let ended = sender.end();
        assert_eq!(ended.status, Some(0), "{}", ended.stderr);
    }
    for (receiver, _) in receivers {
        assert_eq!(receiver.end().status, Some(0));
    }
    assert!(contents.contains(&fs::read(&copy).expect("a file")), "neither the one nor the other");
    assert_eq!(files(&folder), 3, "no part is left");
}
