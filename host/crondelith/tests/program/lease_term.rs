//! How long leases last: the option, the state file's own term, and what the log says.

use std::fs;
use std::path::{Path, PathBuf};
use std::time::{SystemTime, UNIX_EPOCH};

use peer::Peer;
use serde_json::{json, Value};

use crate::support::{folder, run, text, Relay};

/// Where a state file has the term, counted from its end: before the clock, its last number.
const TERM_PLACE: usize = 16;
/// So many seconds the machine's time and the relay's may be apart.
const SLACK: u64 = 2;

/// Starts a relay. Gives it, and its line about the term, which may come before the others or after.
fn start(options: &[&str]) -> (Relay, String) {
    let mut relay = Relay::start(options);
    let is_about_term = |line: &&str| line.contains("leases last");
    if !relay.first_lines.lines().any(|line| is_about_term(&line)) {
        relay.first_lines += &relay.program.await_line("leases last").expect("a line about the term");
    }
    let lines: Vec<_> = relay.first_lines.lines().filter(is_about_term).collect();
    assert_eq!(lines.len(), 1, "{}", relay.first_lines);
    let line = lines[0].to_owned();
    (relay, line)
}

fn now() -> u64 {
    SystemTime::now().duration_since(UNIX_EPOCH).expect("a time").as_secs()
}

/// Leases an id, which the relay has to do for so many seconds.
fn assert_lasts(relay: &Relay, seconds: u64) {
    let (before, mut peer) = (now(), Peer::connect(("127.0.0.1", relay.base_port)).expect("a handshake"));
    let expiration = peer.lease_again(None).expect("a lease").expiration;
    let range = before + seconds - SLACK..=now() + seconds + SLACK;
    assert!(range.contains(&expiration), "{expiration} isn't in {range:?}");
}

fn end(relay: Relay) {
    relay.program.signal("TERM");
    assert_eq!(relay.program.end().status, Some(0));
}

#[test]
fn leases_last_600_seconds_unless_another_term_is_named() {
    for (options, seconds) in [
        (&[][..], 600),
        (&["--lease-term", "600"], 600),
        (&["--lease-term", "1200"], 1_200),
        (&["--lease-term=86400"], 86_400),
    ] {
        let (relay, line) = start(options);
        assert_lasts(&relay, seconds);
        assert!(line.ends_with(&format!(" the relay: leases last {seconds} seconds")), "{line}");
    }
}

#[test]
fn another_term_is_a_wrong_argument_that_names_the_range() {
    // The last two are 600 beyond what 32 and 64 bits hold.
    for term in ["0", "599", "86401", "ten", "-600", " 600", "600s", "4294967896", "18446744073709552216"] {
        let ended = run(&["serve", "--lease-term", term]);
        assert_eq!((ended.status, &*ended.stdout), (Some(2), ""), "{term}");
        let reason = format!("'{term}' for '--lease-term <SECONDS>': a lease's term is 600 to 86400 seconds");
        assert!(ended.stderr.contains(&reason), "{}", ended.stderr);
    }
}

fn term_in(state: &Path) -> u64 {
    let bytes = fs::read(state).expect("a state");
    u64::from_be_bytes(*bytes[bytes.len() - TERM_PLACE..].first_chunk().expect("a number"))
}

/// A state file of a relay that has ended, with this number for its term.
fn state_with(folder: &Path, number: u64) -> PathBuf {
    let state = folder.join("state");
    end(start(&["--state", text(&state), "--lease-term", "1200"]).0);
    assert_eq!(term_in(&state), 1_200);
    let mut bytes = fs::read(&state).expect("a state");
    let place = bytes.len() - TERM_PLACE;
    bytes[place..][..8].copy_from_slice(&number.to_be_bytes());
    fs::write(&state, bytes).expect("a state");
    state
}

/// Relays with this number in their state file, whose log is text and JSON, and to which a term of 7,200 is named or none.
fn assert_kept(name: &str, number: u64, seconds: u64, why: &str) {
    let folder = folder(name);
    let state = state_with(&folder, number);
    let unused = "; the 7200 named now aren't used: the state file keeps its term, and only a fresh relay is given one";
    for (options, unused) in [(&[][..], ""), (&["--lease-term", "7200"], unused)] {
        let told = format!("leases last {seconds} seconds{why}{unused}");
        let options = [&["--state", text(&state)], options].concat();
        let (relay, line) = start(&options);
        assert_lasts(&relay, seconds);
        assert!(line.ends_with(&format!(" the relay: {told}")), "{line}");
        end(relay);
        let (relay, line) = start(&[&options[..], &["--log", "json"]].concat());
        let mut event: Value = serde_json::from_str(&line).expect("an object");
        event.as_object_mut().expect("an object").remove("time").expect("a time");
        assert_eq!(event, json!({ "event": "lease term", "seconds": seconds, "text": told }));
        end(relay);
        assert_eq!(term_in(&state), number, "a relay doesn't change it");
    }
}

#[test]
fn a_state_file_keeps_its_term() {
    assert_kept("term_kept", 1_200, 1_200, "");
}

#[test]
fn a_state_file_of_an_older_relay_keeps_an_hour() {
    assert_kept("term_older", 0, 3_600, ", since an older relay made the state file");
}

#[test]
fn a_term_that_is_out_of_range_reads_as_600_seconds() {
    for number in [599, 86_401] {
        let why = format!(", since the state file's term of {number} is out of range");
        assert_kept(&format!("term_{number}"), number, 600, &why);
    }
}

#[test]
fn explanations_go_by_the_term_of_the_file() {
    for (number, seconds) in [(1_200, 1_200), (0, 3_600), (599, 600)] {
        let state = state_with(&folder(&format!("term_explained_{number}")), number);
        let mut bytes = fs::read(&state).expect("a state");
        // The first connection is open.
        bytes[0] = 2;
        fs::write(&state, bytes).expect("a state");
        let ended = run(&["explain", text(&state), "message", "--connection", "0", "--hex", "0200", "--json"]);
        let told: Value = serde_json::from_str(&ended.stdout).expect("an object");
        assert_eq!(told["expiration"].as_u64().zip(told["time"].as_u64()).map(|(end, time)| end - time), Some(seconds));
    }
}
