//! A file through a relay.

use std::fs;
use std::io::Write;
use std::net::{TcpListener, TcpStream};
use std::path::Path;
use std::time::Duration;

use codec::{Message, Session};
use peer::{Fingerprint, EXTENSION_WAIT};

use crate::support::{becomes_true, files, folder, program, run, text, write_file, Relay, Running};

#[test]
fn a_file_goes_through_the_relay() {
    let relay = Relay::start(&[]);
    let folder = folder("through_the_relay");
    let (original, copy) = (folder.join("original"), folder.join("copy"));
    let contents = write_file(&original, 100_000);
    fs::write(&copy, "an old one").expect("a file");

    let (receiver, id) = relay.receiver(&copy, &["--force"]);
    let arguments = ["send", &id, text(&original), "--relay", "127.0.0.1", "--message-size", "1000"];
    let sender = Running::start(&mut relay.peer(&arguments)).end();
    assert_eq!(sender.status, Some(0), "{}", sender.stderr);
    let received = receiver.end();
    assert_eq!(received.status, Some(0), "{}", received.stderr);
    assert!(fs::read(&copy).expect("the copy") == contents, "the copy differs");

    relay.program.signal("INT");
    let ended = relay.program.end();
    assert_eq!(ended.status, Some(0));
    // 100 messages of 1,000 bytes among them.
    let done = ended.stderr.split("partner 3: ").find_map(|rest| rest.split_once(" calls done")).expect("a summary").0;
    assert!(done.parse::<u32>().is_ok_and(|done| done > 110), "{}", ended.stderr);
}

#[test]
fn a_sender_without_a_receiver_fails() {
    let relay = Relay::start(&[]);
    for (options, reason) in [(&[][..], "67108863"), (&["--relay", "127.0.0.2"], "127.0.0.2")] {
        let arguments = [&["send", "67108863", "/etc/passwd"], options].concat();
        let ended = Running::start(&mut relay.peer(&arguments)).end();
        assert_eq!(ended.status, Some(1), "{}", ended.stderr);
        assert!(ended.last_line().contains(reason), "{}", ended.stderr);
    }
}

#[test]
fn a_transfer_that_stands_still_is_given_up_at_its_limit() {
    let relay = Relay::start(&[]);
    let folder = folder("stands_still");
    let original = folder.join("original");
    write_file(&original, 1_000_000);
    let (receiver, id) = relay.receiver(&folder.join("copy"), &[]);
    let mut sender = Running::start(&mut relay.peer(&["send", &id, text(&original), "--timeout", "2"]));
    sender.await_line("the session is established").expect("a session");
    receiver.signal("STOP");
    let ended = sender.end_within(Duration::from_secs(8));
    assert_eq!(ended.status, Some(1), "{}", ended.stderr);
    assert!(ended.last_line().contains("2 s"), "{}", ended.stderr);
}

/// Waits for a program's thread of this name, which says something to a relay while the others wait for a disk, say.
fn has_thread(running: &Running, thread: &str) -> bool {
    becomes_true(Duration::from_secs(5), || {
        let threads = fs::read_dir(format!("/proc/{}/task", running.id())).expect("its threads");
        let mut names = threads.flatten().map(|thread| fs::read_to_string(thread.path().join("comm")));
        names.any(|name| name.is_ok_and(|name| name.trim() == thread))
    })
}

#[test]
fn either_side_can_say_that_it_is_there_whatever_it_waits_for() {
    let relay = Relay::start(&[]);
    let folder = folder("heartbeats");
    let original = folder.join("original");
    write_file(&original, 1_000_000);
    let (receiver, id) = relay.receiver(&folder.join("copy"), &[]);
    assert!(has_thread(&receiver, "heartbeat") && has_thread(&receiver, "lease"));
    let mut sender = Running::start(&mut relay.peer(&["send", &id, text(&original)]));
    sender.await_line("the session is established").expect("a session");
    assert!(has_thread(&sender, "heartbeat"));
}

#[test]
fn the_help_tells_how_often_a_lease_is_extended() {
    let help = run(&["help", "peer"]).stdout;
    let told = format!("extends its lease every {} minutes", EXTENSION_WAIT.as_secs() / 60);
    assert!(help.contains(&told), "{help}");
}

/// A receiver at a relay of the test's own, which sends it a file of one byte, all but the digest.
fn receiver_of_a_byte(copy: &Path) -> (Running, TcpStream) {
    let relay = TcpListener::bind("127.0.0.1:0").expect("a port");
    let address = relay.local_addr().expect("its address").to_string();
    let mut receiver = Running::start(&mut program(&["peer", "receive", text(copy), "--relay", &address]));
    let (mut connection, _) = relay.accept().expect("the receiver's connection");
    for message in [
        Message::ProtocolVersion { major: 1, minor: 0 },
        Message::LeaseGranted { id: 5, cookie: &[7; 24], expiration: 1 << 39 },
        Message::EstablishNotification { session: Session { id: &[9; 16], peer: &[9; 16], key: &[9; 16] } },
        Message::DataReceive { data: &1_u64.to_be_bytes() },
        Message::DataReceive { data: b"a" },
    ] {
        send(&mut connection, message);
    }
    receiver.await_line("the session is established").expect("a session");
    (receiver, connection)
}

pub fn send(connection: &mut TcpStream, message: Message) {
    let mut frame = Vec::new();
    frames::append(&codec::encode(&message).expect("a message"), &mut frame).expect("a frame");
    connection.write_all(&frame).expect("sent");
}

fn send_digest(connection: &mut TcpStream) {
    let digest = Fingerprint::read(&b"a"[..]).expect("a byte").digest;
    send(connection, Message::DataReceive { data: &digest });
}

#[test]
fn a_file_that_has_come_is_no_failure_however_the_transfer_ends() {
    let copy = folder("only_parting_fails").join("copy");
    let (receiver, mut connection) = receiver_of_a_byte(&copy);
    send_digest(&mut connection);
    send(&mut connection, Message::DataReceive { data: b"more" });
    let ended = receiver.end();
    assert_eq!(ended.status, Some(0), "{}", ended.stderr);
    assert!(ended.last_line().contains("is complete, but the sender may not know"), "{}", ended.stderr);
    assert_eq!(fs::read(&copy).expect("the copy"), b"a");
}

/// The signal and the digest come at once, so either may be first.
#[test]
fn a_receiver_that_is_interrupted_at_the_end_says_whether_the_file_is_there() {
    let folder = folder("interrupted_at_the_end");
    for round in 0..10 {
        let copy = folder.join(format!("copy{round}"));
        let (receiver, mut connection) = receiver_of_a_byte(&copy);
        receiver.signal("STOP");
        send_digest(&mut connection);
        receiver.signal("INT");
        receiver.signal("CONT");
        let ended = receiver.end();
        let (status, words) = if copy.exists() { (0, "is complete") } else { (1, "interrupted before the whole") };
        assert_eq!(ended.status, Some(status), "{}", ended.stderr);
        assert!(ended.last_line().contains(words), "{}", ended.stderr);
    }
}

#[test]
fn a_name_that_is_taken_meanwhile_is_told_once() {
    let relay = Relay::start(&[]);
    let folder = folder("taken_meanwhile");
    let copy = folder.join("copy");
    let (receiver, id) = relay.receiver(&copy, &[]);
    fs::write(&copy, "another").expect("a file");
    let sender = Running::start(&mut relay.peer(&["send", &id, "/etc/passwd"])).end();
    assert_eq!(sender.status, Some(1), "{}", sender.stderr);
    let ended = receiver.end();
    assert_eq!(ended.status, Some(1), "{}", ended.stderr);
    assert_eq!(ended.last_line(), format!("crondelith: '{}' exists already", text(&copy)));
    assert_eq!(files(&folder), 1, "the other alone");
}

#[test]
fn a_name_that_no_file_can_have_is_a_wrong_argument() {
    let folder = folder("wrong_name");
    let long = folder.join("x".repeat(256));
    for (path, reason) in [(text(&long), "too long"), ("newdir/", "'newdir/' names a folder")] {
        let ended = run(&["peer", "receive", path]);
        assert_eq!(ended.status, Some(2), "{}", ended.stderr);
        assert!(ended.last_line().contains(reason), "{}", ended.stderr);
        assert!(ended.last_line().contains(path), "{}", ended.stderr);
    }
}
