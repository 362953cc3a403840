//! Outputs that are closed, or that nobody reads.

use std::fs::File;
use std::net::TcpStream;
use std::process::Command;

use crate::support::{broken_pipe, files, folder, program, start_unheard, text, Relay, Running, PROGRAM, WHILE};

#[test]
fn closed_outputs_change_no_exit_status() {
    let status = |arguments: &str| {
        let command = format!("'{PROGRAM}' {arguments} >&- 2>&-");
        Command::new("sh").args(["-c", &command]).status().expect("a shell").code()
    };
    assert_eq!(status("--help"), Some(0));
    assert_eq!(status("dance"), Some(2));
    assert_eq!(status("peer send 5 /nonexistent"), Some(1));
}

#[test]
fn broken_pipes_change_no_exit_status() {
    for (arguments, status) in
        [(&["help", "serve"][..], 0), (&["dance"], 2), (&["peer", "send", "5", "/nonexistent"], 1)]
    {
        let ended = Running::start(program(arguments).stdout(broken_pipe()).stderr(broken_pipe())).end();
        assert_eq!(ended.status, Some(status), "{arguments:?}");
    }
}

#[test]
fn a_demonstration_that_nobody_reads_goes_on() {
    let mut demo = Running::start(program(&["demo"]).stdout(broken_pipe()));
    assert!(!demo.ends_within(WHILE), "{}", demo.end().stderr);
}

#[test]
fn a_relay_whose_log_nobody_reads_goes_on() {
    let (mut relay, port, ()) = start_unheard(|| (broken_pipe(), ()));
    // Each has log lines.
    let connections: Vec<_> = (0..8).map(|partner| TcpStream::connect(("127.0.0.1", port + partner))).collect();
    assert!(connections.iter().all(Result::is_ok) && !relay.ends_within(WHILE));
    relay.signal("TERM");
    assert_eq!(relay.end().status, Some(0));
}

#[test]
fn a_receiver_whose_id_cannot_be_printed_leaves_nothing() {
    let relay = Relay::start(&[]);
    let folder = folder("not_printed");
    let full = File::options().write(true).open("/dev/full").expect("/dev/full");
    for output in [broken_pipe(), full.into()] {
        let mut command = relay.peer(&["receive", text(&folder.join("copy"))]);
        let ended = Running::start(command.stdout(output)).end();
        assert_eq!(ended.status, Some(1), "{}", ended.stderr);
        assert!(ended.last_line().contains("can't be printed"), "{}", ended.stderr);
        assert_eq!(files(&folder), 0);
    }
}
