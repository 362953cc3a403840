//! Which check stops a call.

use std::fs;

use serde_json::{json, Value};
use server::{CONNECTIONS_EACH, PARTNERS};

use super::{
    assert_has, assert_lacks, clock, establish, explain, explain_message, hex, told, Scene, FIRST, KEEPALIVE, SECOND,
    THIRD,
};

/// Bytes of a connection's record.
const CONNECTION_RECORD: usize = 64;

/// An extension request as hex.
fn extension(cookie: &[u8]) -> String {
    "04".to_owned() + &hex(cookie)
}

#[test]
fn messages_to_a_relay_that_runs() {
    let scene = Scene::start("explain_messages");
    let with_cookie = format!("0201{}", "77".repeat(24));
    let cases = [
        (FIRST, "0200", json!({ "check": 0, "request": "lease", "condition": 1, "cost": 36 })),
        (SECOND, "02 00", json!({ "check": 0, "request": "lease", "condition": 0, "cost": 72 })),
        (FIRST, &with_cookie, json!({ "check": 0, "request": "lease", "condition": 1, "cost": 60 })),
        (SECOND, &with_cookie, json!({ "check": 0, "request": "lease", "condition": 0, "cost": 96 })),
        (FIRST, &extension(&scene.cookie), json!({ "check": 0, "message_type": 4, "cost": 67 })),
        (SECOND, &extension(&scene.cookie), json!({ "check": 0, "message_type": 4, "cost": 59 })),
        (FIRST, &establish(scene.id), json!({ "check": 0, "request": "establish", "status": 5, "cost": 43 })),
        (SECOND, &establish(scene.id), json!({ "check": 0, "request": "establish", "status": 0, "cost": 140 })),
        (SECOND, &establish(scene.id ^ 1), json!({ "check": 0, "request": "establish", "status": 1, "cost": 43 })),
        (SECOND, KEEPALIVE, json!({ "check": 0, "message_type": 13, "cost": 33 })),
        (THIRD, "01:01", json!({ "check": 0, "message_type": 1, "cost": 34 })),
        (THIRD, "01:00", json!({ "check": 0, "message_type": 1, "cost": 34 })),
        (FIRST + 3, KEEPALIVE, json!({ "check": 4, "done": false })),
        (SECOND, "0202", json!({ "check": 6, "message_type": 2, "follows": "the connection is closed" })),
        (SECOND, "", json!({ "check": 6, "message_length": 0 })),
        (SECOND, "03", json!({ "check": 6, "message_type": 3 })),
        (SECOND, "0101", json!({ "check": 7, "follows": "the connection is closed" })),
        (SECOND, "0b00", json!({ "check": 8, "follows": "the message is dropped" })),
        (SECOND, "09", json!({ "check": 8, "reason": "there is no session" })),
        (CONNECTIONS_EACH * PARTNERS, KEEPALIVE, json!({ "check": 3, "connection": CONNECTIONS_EACH * PARTNERS })),
    ];
    for (connection, hex, expected) in cases {
        let object = explain_message(&scene.state, connection, hex, &[]);
        assert_has(&object, expected);
        let refused = object["check"] != 0;
        assert!(!refused || object["meaning"].is_string() && object["reason"].is_string(), "{object}");
        assert!(!refused || object.get("cost").is_none() && object.get("free").is_none(), "{object}");
    }
}

#[test]
fn opens_and_closes_of_a_relay_that_runs() {
    let Scene { state, .. } = &Scene::start("explain_opens");
    let (first, fourth) = (&FIRST.to_string()[..], &(FIRST + 3).to_string()[..]);
    let cases: [(&[&str], Value); 6] = [
        (&["open", "--connection", first], json!({ "check": 4 })),
        (&["open", "--connection", fourth], json!({ "check": 0, "free": false, "cost": 45 })),
        (&["open", "--connection", fourth, "--reply-length", "63"], json!({ "check": 5 })),
        (&["close", "--connection", first], json!({ "check": 0, "free": true, "done": true })),
        (&["close", "--connection", fourth], json!({ "check": 4 })),
        (&["close", "--connection", first, "--relay-length", "63"], json!({ "check": 5 })),
    ];
    for (call, expected) in cases {
        assert_has(&explain(state, call), expected);
    }
    assert_lacks(&explain(state, &["close", "--connection", first]), &["cost", "level", "headroom", "left"]);
}

#[test]
fn keepalive_checks_of_a_relay_that_runs() {
    let Scene { state, .. } = &Scene::start("explain_checks");
    let (first, third, fourth) = (&FIRST.to_string()[..], &THIRD.to_string()[..], &(FIRST + 3).to_string()[..]);
    let later = (clock(state) + 30).to_string();
    let cases: [(&[&str], Value); 7] = [
        (&[first], json!({ "call": "keepalive", "check": 0, "done": true, "free": true })),
        (&[first, "--time", &later], json!({ "check": 0, "follows": "a Keepalive is sent to the peer" })),
        // Whether it has answered the version or not.
        (&[third, "--time", &later], json!({ "check": 0, "follows": "a Keepalive is sent to the peer" })),
        (&[fourth], json!({ "check": 4, "done": false })),
        (&[first, "--reply-length", "63"], json!({ "check": 5 })),
        (&[first, "--relay-length", "63"], json!({ "check": 5 })),
        (&[first, "--time", "5"], json!({ "check": 2 })),
    ];
    for (options, expected) in cases {
        let object = explain(state, &[&["keepalive", "--connection"], options].concat());
        assert_has(&object, expected);
        assert_lacks(&object, &["cost", "level", "headroom", "left", "request"]);
        assert!(object["check"] == 0 || object.get("follows").is_none(), "{object}");
    }
}

#[test]
fn a_keepalive_that_is_unanswered() {
    let Scene { state, .. } = &Scene::start("explain_unanswered");
    let asked = clock(state);
    let mut bytes = fs::read(state).expect("a state");
    let record = &mut bytes[FIRST * CONNECTION_RECORD..];
    // Unanswered, and since when: five bytes.
    record[2] = 1;
    record[9..14].copy_from_slice(&asked.to_be_bytes()[3..]);
    let copy = state.with_extension("copy");
    fs::write(&copy, bytes).expect("a copy");
    for (time, words) in [(asked + 59, "nothing, "), (asked + 60, "the connection is closed, ")] {
        let call = ["keepalive", "--connection", &FIRST.to_string(), "--time", &time.to_string()];
        let object = explain(&copy, &call);
        assert!(
            object["check"] == 0 && object["follows"].as_str().is_some_and(|told| told.starts_with(words)),
            "{object}"
        );
        let text = told(&copy, &call);
        assert!(text.contains(&format!("Follows:    {words}")), "{text}");
    }
}

#[test]
fn times_lengths_and_random_bytes_of_any_kind() {
    let Scene { state, .. } = &Scene::start("explain_lengths");
    let (random_79, random_81) = ("00".repeat(79), "00".repeat(81));
    let cases: [(&[&str], u64); 11] = [
        (&["--time", "5"], 2),
        (&["--time", "1099511627776"], 2),
        (&["--time", "18446744073709551615"], 2),
        (&["--time", "1099511627775"], 0),
        (&["--random", ""], 5),
        (&["--random", &random_79], 5),
        (&["--random", &random_81], 5),
        (&["--reply-length", "63"], 5),
        (&["--relay-length", "63"], 5),
        (&["--reply-length", "64", "--relay-length", "64"], 0),
        (&["--reply-length", "18446744073709551615", "--relay-length", "18446744073709551615"], 0),
    ];
    for (options, check) in cases {
        let object = explain_message(state, SECOND, KEEPALIVE, options);
        assert_eq!(object["check"], check, "{options:?}: {object}");
    }
    let short = explain_message(state, SECOND, KEEPALIVE, &["--relay-length", "63"]);
    let meaning =
        "there must be 80 random bytes and there are 80; the reply buffer needs 64 bytes or more and has 64; \
                   the relay buffer needs 64 bytes or more and has 63";
    assert_has(&short, json!({ "meaning": meaning }));
    // The first check that applies is named.
    let last = explain(state, &["open", "--connection", "18446744073709551615", "--reply-length", "0"]);
    assert_has(&last, json!({ "check": 3, "connection": u64::MAX }));
    assert_lacks(&last, &["partner"]);
}
