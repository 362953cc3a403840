//! Where a relay listens, and what it logs.

use std::net::TcpListener;
use std::time::Duration;

use serde_json::Value;
use server::{LeaseTerm, Limits};

use crate::support::{folder, program, run, text, write_file, Relay, Running};

#[test]
fn a_port_in_use_is_named() {
    let taken = TcpListener::bind("127.0.0.1:0").expect("a port");
    let port = taken.local_addr().expect("its address").port();
    let ended = run(&["serve", "--port", &port.to_string()]);
    assert_eq!(ended.status, Some(1));
    assert!(ended.stderr.starts_with("crondelith: "), "{}", ended.stderr);
    assert!(ended.stderr.contains(&port.to_string()) && ended.stderr.contains("partner 0"), "{}", ended.stderr);
    assert_eq!(ended.stderr.lines().count(), 1, "{}", ended.stderr);
}

#[test]
fn each_partner_is_named_with_its_address() {
    let relay = Relay::start(&[]);
    for partner in 0..8 {
        let line = format!("crondelith: partner {partner} at 127.0.0.1:{}\n", relay.base_port + partner);
        assert!(relay.first_lines.contains(&line), "{}", relay.first_lines);
    }
}

/// Sends a file to a relay's one address, from another.
fn send_between(relay: &Relay, receive_at: &str, send_to: &str) {
    let folder = folder(&format!("between_{}", relay.base_port));
    let (original, copy) = (folder.join("original"), folder.join("copy"));
    let contents = write_file(&original, 5_000);
    let (receiver, id) = relay.receiver(&copy, &["--relay", receive_at]);
    let sender = Running::start(&mut relay.peer(&["send", &id, text(&original), "--relay", send_to])).end();
    assert_eq!(sender.status, Some(0), "{}", sender.stderr);
    assert_eq!(receiver.end().status, Some(0));
    assert!(std::fs::read(&copy).expect("the copy") == contents, "the copy differs");
}

#[test]
fn a_relay_listens_on_ipv6() {
    let relay = Relay::start(&["--listen", "::1"]);
    assert!(relay.first_lines.contains(&format!("partner 7 at [::1]:{}\n", relay.base_port + 7)));
    send_between(&relay, "::1", "[::1]");
    let elsewhere = relay.peer(&["send", "5", "/dev/null", "--relay", "127.0.0.1"]).status();
    assert_eq!(elsewhere.expect("a run").code(), Some(1), "only where it was asked to");
}

#[test]
fn a_relay_listens_on_two_addresses() {
    let relay = Relay::start(&["--listen", "127.0.0.1", "--listen", "::1"]);
    for address in ["127.0.0.1", "[::1]"] {
        let line = format!("partner 0 at {address}:{}\n", relay.base_port);
        assert!(relay.first_lines.contains(&line), "{}", relay.first_lines);
    }
    send_between(&relay, "127.0.0.1", "::1");
    // The IPv6 one doesn't take IPv4 as well.
    let relay = Relay::start(&["--listen", "0.0.0.0", "--listen", "::"]);
    send_between(&relay, "127.0.0.1", "::1");
}

#[test]
fn a_relay_keeps_its_tables_in_a_file() {
    let folder = folder("tables");
    let state = folder.join("state");
    let relay = Relay::start(&["--state", text(&state)]);
    let (receiver, id) = relay.receiver(&folder.join("copy"), &[]);
    relay.program.signal("TERM");
    assert_eq!(relay.program.end().status, Some(0));
    assert_eq!(receiver.end().status, Some(1));

    let relay = Relay::start(&["--state", text(&state)]);
    let sender = Running::start(&mut relay.peer(&["send", &id, "/etc/passwd"])).end();
    assert_eq!(sender.status, Some(1));
    assert!(sender.last_line().contains("offline"), "the lease runs on: {}", sender.stderr);
}

/// A line of a JSON log, which must have a time and an event.
fn event(line: &str) -> Value {
    let event: Value = serde_json::from_str(line).unwrap_or_else(|error| panic!("{error}: {line}"));
    let time = event["time"].as_str().expect("a time");
    humantime::parse_rfc3339(time).expect("a time of RFC 3339");
    assert!(event["event"].is_string(), "{line}");
    event
}

#[test]
fn the_notes_of_a_json_log_are_json() {
    let relay = Relay::start(&["--log", "json", "--listen", "::1"]);
    // The relay's own line about the term of leases comes at any time.
    let own = |event: &Value| event["event"] != "lease term";
    let events: Vec<_> = relay.first_lines.lines().map(event).filter(own).collect();
    for (partner, event) in events.iter().take(8).enumerate() {
        let address = format!("[::1]:{}", usize::from(relay.base_port) + partner);
        assert!(event["event"] == "listening" && event["partner"] == partner && event["address"] == address, "{event}");
    }
    assert!(events.len() == 9 && events[8]["event"] == "running", "{events:?}");
}

#[test]
fn the_lines_of_a_json_log_are_json() {
    let relay = Relay::start(&["--log", "json"]);
    send_between(&relay, "127.0.0.1", "127.0.0.1");
    relay.program.signal("TERM");
    let ended = relay.program.end();
    assert_eq!(ended.status, Some(0));
    let events: Vec<_> = ended.stderr.lines().map(event).collect();
    assert!(events.iter().any(|event| event["partner"] == 3), "{}", ended.stderr);
}

#[test]
fn the_help_tells_the_limits() {
    let Limits { patience, least_progress, open, version, frame, number, last_words, standstill } = Limits::default();
    let help = Running::start(&mut program(&["help", "serve"])).end().stdout;
    let help = help.split_whitespace().collect::<Vec<_>>().join(" ");
    let times = [patience, open, version, frame, last_words, standstill];
    let [patience, open, version, frame, last_words, standstill] = times.map(|time| time.as_secs());
    for told in [
        format!("takes less than {} KiB of what waits for it in {patience} seconds", least_progress / 1_024),
        format!("doesn't answer the relay's version in {version}, or leaves a frame unfinished for {frame}."),
        format!("has {last_words} seconds to be written"),
        format!("can't be opened in {open} for want of allowance"),
        format!("stood still for {standstill} seconds itself judges nobody for {standstill} more"),
        format!("How long leases last, {} to {}", LeaseTerm::USUAL.seconds(), LeaseTerm::LONGEST.seconds()),
    ] {
        assert!(help.contains(&told), "{told}: {help}");
    }
    assert!(number == Duration::from_millis(100) && help.contains("waits a tenth of a second for a number"));
}
