//! What decides a lease and a session.

use std::fs;

use codec::Message;
use serde_json::json;

use super::{
    assert_has, assert_lacks, await_saved, establish, explain_message, hex, lease, peer, relay, Session, FIRST,
    KEEPALIVE, SECOND, THIRD,
};

/// The random bytes that have this cookie, and this number for every id.
fn random(cookie: &[u8], id: u32) -> String {
    hex(cookie) + &hex(&id.to_be_bytes()).repeat(14)
}

#[test]
fn the_random_bytes_of_a_lease_decide_as_the_relay_would() {
    let (relay, state) = relay("explain_random");
    let mut holder = peer(&relay);
    let (id, own) = lease(&mut holder);
    let _second = peer(&relay);
    await_saved(|| explain_message(&state, SECOND, KEEPALIVE, &[])["check"] == 0);
    let new = [0xab; 24];
    for (connection, cookie, candidate, condition) in [
        (FIRST, &own[..], id, 1),
        (SECOND, &own, id, 3),
        (SECOND, &new, id, 4),
        // Ids have 26 bits.
        (SECOND, &new, id | 1 << 26, 4),
        (SECOND, &new, id ^ 1, 0),
    ] {
        // A request's cookie, the lease's own or any, changes no condition.
        for request in ["0200".to_owned(), "0201".to_owned() + &hex(&own), "0201".to_owned() + &"cd".repeat(24)] {
            let object = explain_message(&state, connection, &request, &["--random", &random(cookie, candidate)]);
            let (length, reply) = (request.len() / 2, if condition == 0 { 38 } else { 2 });
            assert_has(&object, json!({ "check": 0, "message_length": length, "cost": 32 + length + reply }));
            assert_has(&object, json!({ "request": "lease", "condition": condition }));
        }
    }
}

/// Though the relay would renew the lease of the one, and not of the other.
#[test]
fn a_cookie_of_zeros_is_explained_as_that_of_a_lease() {
    let (relay, state) = relay("explain_cookie");
    let mut holder = peer(&relay);
    let (id, own) = lease(&mut holder);
    let _second = peer(&relay);
    drop(holder);
    let check = |connection| explain_message(&state, connection, KEEPALIVE, &[])["check"].clone();
    await_saved(|| check(FIRST) == 4 && check(SECOND) == 0);
    for (cookie, candidate, condition) in [(&own[..], id, 3), (&[0xab; 24], id, 4), (&[0xab; 24], id ^ 1, 0)] {
        let explain = |asked: &[u8]| {
            let request = "0201".to_owned() + &hex(asked);
            let options = ["--random", &random(cookie, candidate)];
            explain_message(&state, SECOND, &request, &options)
        };
        let cost = if condition == 0 { 96 } else { 60 };
        assert_has(&explain(&own), json!({ "request": "lease", "condition": condition, "cost": cost }));
        assert_eq!(explain(&[0; 24]), explain(&own));
    }
}

#[test]
fn random_bytes_that_are_not_given_are_fresh() {
    let (relay, state) = relay("explain_fresh");
    let mut holder = peer(&relay);
    let (id, cookie) = lease(&mut holder);
    let _second = peer(&relay);
    await_saved(|| explain_message(&state, SECOND, KEEPALIVE, &[])["check"] == 0);
    // A lease of id 0 whose cookie is zeros: it would stop one that came with zeros.
    let mut bytes = fs::read(&state).expect("a state");
    let row = [&id.to_be_bytes()[..], &[FIRST as u8, 0, 0, 0], &cookie].concat();
    let place = bytes.windows(row.len()).position(|bytes| bytes == row).expect("the lease");
    let (id, cookie) = (place..place + 4, place + 8..place + row.len());
    bytes[id].fill(0);
    bytes[cookie].fill(0);
    let copy = state.with_extension("copy");
    fs::write(&copy, bytes).expect("a copy");
    assert_eq!(explain_message(&copy, SECOND, "0200", &["--random", &"00".repeat(80)])["condition"], 3);
    assert_eq!(explain_message(&copy, SECOND, "0200", &[])["condition"], 0);
}

#[test]
fn every_row_of_a_partner_in_use() {
    let (relay, state) = relay("explain_rows");
    let _first = peer(&relay);
    let granted = || {
        let mut one = peer(&relay);
        one.send(&Message::LeaseRequest).expect("sent");
        let granted = matches!(one.receive().expect("an answer"), Message::LeaseGranted { .. });
        one.finish().expect("an end in order");
        granted
    };
    // Each lease runs on when its holder has gone.
    assert!((0..100).any(|_| !granted()), "no end of leases");
    await_saved(|| explain_message(&state, FIRST, "0200", &[])["condition"] == 2);
}

#[test]
fn a_session_that_runs() {
    let Session { state, id, lost_id, .. } = &Session::start("explain_session");
    for (connection, id, status) in [(SECOND, id, 4), (FIRST, id, 4), (THIRD, id, 3), (THIRD, lost_id, 2)] {
        assert_has(&explain_message(state, connection, &establish(*id), &[]), json!({ "check": 0, "status": status }));
    }
    let data = explain_message(state, FIRST, "0b 01 02", &[]);
    assert_has(&data, json!({ "check": 0, "done": true, "free": false, "cost": 38 }));
    assert_lacks(&data, &["request", "condition", "status", "decision", "shortfall"]);
    let end = explain_message(state, SECOND, "09", &[]);
    assert_has(&end, json!({ "check": 0, "done": true, "free": true }));
    assert_lacks(&end, &["cost", "level", "headroom", "left"]);
}

#[test]
fn the_relay_then_does_what_is_told() {
    let (relay, state) = relay("explain_then");
    let (mut holder, mut other) = (peer(&relay), peer(&relay));
    let (id, _) = lease(&mut holder);
    await_saved(|| explain_message(&state, FIRST, "0200", &[])["condition"] == 1);
    await_saved(|| explain_message(&state, SECOND, KEEPALIVE, &[])["check"] == 0);
    holder.send(&Message::LeaseRequest).expect("sent");
    assert_eq!(holder.receive().expect("an answer"), Message::LeaseRefused);
    for (connection, peer, id) in [(FIRST, &mut holder, id), (SECOND, &mut other, id ^ 1)] {
        let status = explain_message(&state, connection, &establish(id), &[])["status"].as_u64().expect("a status");
        peer.send(&Message::EstablishRequest { id }).expect("sent");
        assert_eq!(peer.receive().expect("an answer"), Message::EstablishRefused { id, status: status as u8 });
    }
    assert_eq!(explain_message(&state, SECOND, &establish(id), &[])["status"], 0);
    other.establish(id).expect("a session");
}
