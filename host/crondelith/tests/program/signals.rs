//! SIGINT, SIGTERM and SIGHUP.

use std::fs::File;
use std::net::{TcpListener, TcpStream};
use std::os::unix::fs::OpenOptionsExt;
use std::process::Command;
use std::time::Duration;

use crate::support::{
    becomes_true, files, folder, full_pipe, program, start_unheard, text, write_file, Ended, Relay, Running, WHILE,
};

/// After so long a second signal ends the program at once.
const AGAIN: Duration = Duration::from_millis(1_100);

const SIGNALS: [&str; 3] = ["INT", "TERM", "HUP"];

/// Sends a signal to a command that is at work, which has to end with status 1.
fn interrupt(running: Running, signal: &str, reason: &str) -> Ended {
    running.signal(signal);
    let ended = running.end();
    assert_eq!(ended.status, Some(1), "{signal}: {}", ended.stderr);
    assert_eq!(ended.last_line(), format!("crondelith: {reason}"), "{signal}: {}", ended.stderr);
    ended
}

#[test]
fn the_interrupt_ends_a_relay_with_connections() {
    for signal in SIGNALS {
        let relay = Relay::start(&[]);
        let connect = |partner| TcpStream::connect(("127.0.0.1", relay.base_port + partner));
        let idle: Vec<_> = (0..3).map(connect).collect();
        assert!(idle.iter().all(Result::is_ok));
        relay.program.signal(signal);
        assert_eq!(relay.program.end().status, Some(0), "{signal}");
    }
}

#[test]
fn an_interrupted_receiver_leaves_nothing_half() {
    let relay = Relay::start(&[]);
    let folder = folder("interrupted_receiver");
    for signal in SIGNALS {
        let (receiver, _) = relay.receiver(&folder.join("copy"), &[]);
        assert_eq!(files(&folder), 1, "the part that is there meanwhile");
        interrupt(receiver, signal, "interrupted before the whole file had come");
        assert_eq!(files(&folder), 0, "{signal}");
    }
}

#[test]
fn an_interrupted_sender_ends_its_receiver_too() {
    for signal in SIGNALS {
        let relay = Relay::start(&[]);
        let folder = folder(&format!("interrupted_sender_{signal}"));
        let original = folder.join("original");
        write_file(&original, 1_000_000);
        let (receiver, id) = relay.receiver(&folder.join("copy"), &[]);
        let mut sender = Running::start(&mut relay.peer(&["send", &id, text(&original)]));
        sender.await_line("the session is established").expect("a session");
        interrupt(sender, signal, "interrupted");
        // What the relay had read by then may wait for the allowance first.
        assert_eq!(receiver.end_within(Duration::from_secs(30)).status, Some(1), "{signal}");
        assert_eq!(files(&folder), 1, "{signal}: the original alone");
    }
}

#[test]
fn a_peer_is_interrupted_before_the_relay_has_answered() {
    let silent = TcpListener::bind("127.0.0.1:0").expect("a port");
    let address = silent.local_addr().expect("its address").to_string();
    let folder = folder("interrupted_before");
    let copy = folder.join("copy");
    let commands = [
        (&["receive", text(&copy)][..], "interrupted before the whole file had come"),
        (&["send", "5", "/etc/passwd"], "interrupted"),
    ];
    for (arguments, reason) in commands {
        let peer = Running::start(&mut program(&[&["peer", "--relay", &address], arguments].concat()));
        let _connection = silent.accept().expect("the peer's connection");
        interrupt(peer, "INT", reason);
    }
    assert_eq!(files(&folder), 0);
}

#[test]
fn the_demonstration_and_the_benchmark_are_interrupted() {
    for command in ["demo", "bench"] {
        for signal in SIGNALS {
            let mut running = Running::start(&mut program(&[command]));
            assert_ne!(running.line(), "", "a first line");
            interrupt(running, signal, "interrupted");
        }
    }
}

/// Opening a pipe for writing fails with this as long as nobody reads it.
const NONBLOCKING: i32 = 0o4000;

#[test]
fn an_explanation_is_interrupted_while_its_message_does_not_come() {
    let folder = folder("interrupted_explanation");
    let (state, pipe) = (folder.join("state"), folder.join("pipe"));
    let relay = Relay::start(&["--state", text(&state)]);
    relay.program.signal("TERM");
    assert_eq!(relay.program.end().status, Some(0));
    assert!(Command::new("mkfifo").arg(&pipe).status().expect("mkfifo").success());
    for signal in SIGNALS {
        let words = ["explain", text(&state), "message", "--connection", "0", "--file", text(&pipe)];
        let explanation = Running::start(&mut program(&words));
        let mut silent = None;
        let is_read = || {
            silent = File::options().write(true).custom_flags(NONBLOCKING).open(&pipe).ok();
            silent.is_some()
        };
        assert!(becomes_true(Duration::from_secs(10), is_read));
        interrupt(explanation, signal, "interrupted");
    }
}

#[test]
fn a_relay_ends_without_a_free_file_descriptor() {
    let relay = Relay::start(&[]);
    let _idle = TcpStream::connect(("127.0.0.1", relay.base_port)).expect("a connection");
    relay.program.allow_descriptors(0);
    relay.program.signal("TERM");
    assert_eq!(relay.program.end().status, Some(0));
}

#[test]
fn a_receiver_ends_without_a_free_file_descriptor() {
    let relay = Relay::start(&[]);
    let folder = folder("no_descriptor");
    let (receiver, _) = relay.receiver(&folder.join("copy"), &[]);
    receiver.allow_descriptors(0);
    interrupt(receiver, "TERM", "interrupted before the whole file had come");
    assert_eq!(files(&folder), 0);
}

#[test]
fn a_second_signal_ends_the_program_at_once() {
    for signals in [["INT", "INT"], ["TERM", "INT"], ["HUP", "TERM"]] {
        // It waits for somebody to take its first line, so it can't end in order.
        let (mut relay, _, _reader) = start_unheard(full_pipe);
        relay.signal(signals[0]);
        assert!(!relay.ends_within(AGAIN), "{signals:?}");
        relay.signal(signals[1]);
        assert_eq!(relay.end_within(Duration::from_secs(1)).status, Some(1), "{signals:?}");
    }
}

#[test]
fn a_terminal_that_closes_asks_once() {
    let (mut relay, _, _reader) = start_unheard(full_pipe);
    relay.signal("HUP");
    assert!(!relay.ends_within(AGAIN));
    relay.signal("HUP");
    assert!(!relay.ends_within(WHILE));
}

/// It sends each signal to the program and to its group.
#[test]
fn timeout_asks_once() {
    // It can't end in order, so only a signal taken for a second one would end it.
    let (mut relay, _, _reader) = start_unheard(full_pipe);
    (0..2).for_each(|_| relay.signal("TERM"));
    assert!(!relay.ends_within(WHILE));

    let relay = Relay::start(&[]);
    let folder = folder("timeout");
    let (receiver, _) = relay.receiver(&folder.join("copy"), &[]);
    for _ in 0..2 {
        receiver.signal("TERM");
        relay.program.signal("TERM");
    }
    assert_eq!(receiver.end().status, Some(1));
    assert_eq!(files(&folder), 0);
    assert_eq!(relay.program.end().status, Some(0));
}

/// From now on it can't write a file beyond so many bytes.
fn limit_file_size(running: &Running, bytes: u32) {
    let (limit, id) = (format!("--fsize={bytes}"), running.id().to_string());
    let limited = Command::new("prlimit").args([&limit, "--pid", &id]).status();
    assert!(limited.expect("prlimit").success());
}

#[test]
fn a_relay_outlives_a_limit_of_its_files_size() {
    let folder = folder("state_size");
    let mut relay = Relay::start(&["--state", text(&folder.join("state"))]);
    limit_file_size(&relay.program, 0);
    // Its lease is a change, which the relay saves within half a second.
    let _receiver = relay.receiver(&folder.join("copy"), &[]);
    relay.program.await_line("File too large").expect("a line about it");
    assert!(!relay.program.ends_within(WHILE));
}

#[test]
fn a_limit_of_a_files_size_is_a_write_that_fails() {
    let relay = Relay::start(&[]);
    let folder = folder("file_size");
    let (original, copy) = (folder.join("original"), folder.join("copy"));
    write_file(&original, 100_000);
    let (receiver, id) = relay.receiver(&copy, &[]);
    limit_file_size(&receiver, 10_000);
    let sender = Running::start(&mut relay.peer(&["send", &id, text(&original)])).end();
    assert_eq!(sender.status, Some(1), "{}", sender.stderr);
    let ended = receiver.end();
    assert_eq!(ended.status, Some(1), "{}", ended.stderr);
    assert!(ended.last_line().contains(text(&copy)), "{}", ended.stderr);
    assert!(ended.last_line().contains("File too large"), "{}", ended.stderr);
    assert_eq!(files(&folder), 1, "the original alone");
}

#[test]
fn under_nohup_the_terminal_may_close() {
    let Relay { program: mut relay, .. } = Relay::start_as("--ignore-signal=HUP", &[]);
    relay.signal("HUP");
    assert!(!relay.ends_within(WHILE));
    relay.signal("TERM");
    assert_eq!(relay.end().status, Some(0));
}
