//! What a partner has, what is left, and what is missing.

use std::fs;
use std::io::Write;
use std::path::Path;

use serde_json::json;
use server::{CONNECTIONS_EACH, PARTNERS};

use super::{
    assert_has, assert_lacks, await_saved, clock, end, establish, explain, explain_message, explain_open, level, peer,
    relay, told, with_allowance, Scene, Session, FIRST, KEEPALIVE, LONGEST, PARTNER, RECORD, SECOND, THIRD,
};
use crate::support::text;

#[test]
fn what_a_partner_has_is_that_of_the_tables() {
    let scene = Scene::start("explain_level");
    let now = clock(&scene.state);
    for (time, options) in [(now, &[][..]), (now + 1, &["--time", &(now + 1).to_string()])] {
        let has = level(&scene.state, PARTNER, time);
        let expected = json!({
            "call": "message", "connection": SECOND, "partner": PARTNER, "time": time, "clock": now,
            "message_length": 1, "message_type": 13, "check": 0, "done": true,
            "free": false, "cost": 33, "level": has, "headroom": has - 33, "left": has - 33,
        });
        assert_eq!(explain_message(&scene.state, SECOND, KEEPALIVE, options), expected);
    }
    // Another partner's is its own.
    assert_has(&explain_open(&scene.state, 0), json!({ "partner": 0, "level": 262_144, "left": 262_099 }));
}

#[test]
fn what_is_missing_to_the_unit_and_when_it_can_be_paid() {
    let Session { state, .. } = &Session::start("explain_missing");
    let now = clock(state);
    let data = state.with_extension("data");
    fs::write(&data, [11; LONGEST]).expect("a message");
    let data = ["message", "--connection", &FIRST.to_string(), "--file", text(&data)];
    let cost = 32 + 2 * LONGEST as i64;
    // A level, and after how many seconds the longest message can be paid, if not now.
    let cases = [(0, 3), (27, 3), (28, 2), (65_563, 2), (65_564, 1), (cost - 1, 1), (cost, 0)];
    for (level, seconds) in cases {
        let object = explain(&with_allowance(state, level as u64, now), &data);
        let headroom = level - cost;
        assert_has(&object, json!({ "cost": cost, "level": level, "headroom": headroom }));
        match seconds {
            0 => {
                assert_has(&object, json!({ "check": 0, "left": 0 }));
                assert_lacks(&object, &["shortfall", "payable_after", "payable_at"]);
            }
            after => {
                let expected = json!({
                    "check": 9, "shortfall": -headroom, "payable_after": after, "payable_at": now + after,
                    "follows": "the message waits", "done": false,
                });
                assert_has(&object, expected);
                assert_lacks(&object, &["left", "request"]);
            }
        }
    }
}

/// The cost is that of what would be decided, which isn't told.
#[test]
fn a_request_that_cannot_be_paid_is_not_decided() {
    let Scene { state, id, .. } = &Scene::start("explain_undecided");
    let now = clock(state);
    // A request, what it costs, and less than that.
    let cases = [
        (FIRST, "0200".into(), 36, 10),
        (SECOND, "0200".into(), 72, 50),
        (FIRST, establish(*id), 43, 0),
        (SECOND, establish(*id), 140, 43),
        (SECOND, establish(*id), 140, 139),
    ];
    for (connection, request, cost, level) in cases {
        let told = explain_message(&with_allowance(state, level, now), connection, &request, &[]);
        let (cost, level) = (cost as i64, level as i64);
        assert_has(&told, json!({ "check": 9, "cost": cost, "level": level, "headroom": level - cost }));
        assert_has(&told, json!({ "shortfall": cost - level, "payable_after": 1, "follows": "the message waits" }));
        assert_lacks(&told, &["request", "condition", "status", "decision", "left"]);
        // With so much it is.
        let told = explain_message(&with_allowance(state, cost as u64, now), connection, &request, &[]);
        assert_has(&told, json!({ "check": 0, "cost": cost, "left": 0 }));
        assert!(told["decision"].is_string(), "{told}");
    }
}

/// When the lease in the partner's first row ends: the number that the row begins with.
fn first_expiry(state: &Path) -> u64 {
    let bytes = fs::read(state).expect("a state");
    u64::from_be_bytes(*bytes[4_096 + PARTNER * 16 * 40..].first_chunk().expect("a row"))
}

/// While the time of update is to come there is no refill, and the lease ends before: then less is sent.
#[test]
fn a_request_can_come_to_cost_less_before_it_can_be_paid() {
    let Scene { state, id, .. } = &Scene::start("explain_cheaper");
    let (later, end) = (clock(state) + 10_000, first_expiry(state));
    let told = explain_message(&with_allowance(state, 139, later), SECOND, &establish(*id), &[]);
    assert_has(&told, json!({ "check": 9, "cost": 140, "shortfall": 1, "payable_at": end }));
    let told = explain_message(&with_allowance(state, 42, later), SECOND, &establish(*id), &[]);
    assert_has(&told, json!({ "check": 9, "cost": 140, "shortfall": 98, "payable_at": later + 1 }));
}

/// Three rows with the id, as no run leaves them: the first to end has a holder, and so has the last; the one between has
/// none. So a session can be established, then not, and then again; and there is no refill all the while.
#[test]
fn a_request_can_come_to_cost_more_again_before_there_is_a_refill() {
    let (relay, state) = relay("explain_dearer");
    end(relay);
    let now = clock(&state);
    let mut bytes = fs::read(&state).expect("a state");
    [FIRST, SECOND, THIRD].iter().for_each(|connection| bytes[64 * connection] = 2);
    for (row, (expiry, holder)) in
        [(now + 10, SECOND as u8), (now + 20, 255), (now + 1_000, THIRD as u8)].iter().enumerate()
    {
        let row = &mut bytes[4_096 + (PARTNER * 16 + row) * 40..][..40];
        row[..8].copy_from_slice(&expiry.to_be_bytes());
        row[8..13].copy_from_slice(&[0, 0, 0, 7, *holder]);
    }
    fs::write(&state, bytes).expect("a state");
    let copy = with_allowance(&state, 50, now + 100_000);
    let at = |time: u64| explain_message(&copy, FIRST, &establish(7), &["--time", &time.to_string()]);
    assert_has(&at(now), json!({ "check": 9, "cost": 140, "payable_at": now + 10, "payable_after": 10 }));
    assert_has(&at(now + 9), json!({ "check": 9, "cost": 140, "payable_at": now + 10, "payable_after": 1 }));
    for paid in [now + 10, now + 19] {
        assert_has(&at(paid), json!({ "check": 0, "cost": 43, "left": 7, "status": 2 }));
    }
    assert_has(&at(now + 20), json!({ "check": 9, "cost": 140, "payable_at": now + 1_000 }));
    assert_has(&at(now + 1_000), json!({ "check": 0, "cost": 43, "left": 7, "status": 1 }));
}

#[test]
fn each_partner_s_level_is_its_own() {
    let (relay, state) = relay("explain_partners");
    end(relay);
    let now = clock(&state);
    let mut bytes = fs::read(&state).expect("a state");
    let start = bytes.len() - RECORD * (PARTNERS + 1);
    let level = |partner| 1_000 + 111 * partner as u64;
    for partner in 0..PARTNERS {
        bytes[start + RECORD * partner..][..8].copy_from_slice(&level(partner).to_be_bytes());
        bytes[start + RECORD * partner + 8..][..8].copy_from_slice(&now.to_be_bytes());
    }
    fs::write(&state, bytes).expect("a state");
    for partner in 0..PARTNERS {
        let told = explain_open(&state, partner * CONNECTIONS_EACH);
        let has = level(partner);
        assert_has(&told, json!({ "partner": partner, "cost": 45, "level": has, "left": has - 45 }));
    }
}

#[test]
fn allowances_from_anywhere() {
    let (relay, state) = relay("explain_anywhere");
    end(relay);
    let now = clock(&state);
    let open = |level, updated| explain_open(&with_allowance(&state, level, updated), FIRST);
    // Equal cost and level passes; a level is at most the capacity.
    assert_has(&open(45, now), json!({ "check": 0, "cost": 45, "headroom": 0, "left": 0 }));
    assert_has(&open(44, now), json!({ "check": 9, "cost": 45, "headroom": -1, "shortfall": 1 }));
    assert_has(&open(u64::MAX, now), json!({ "check": 0, "cost": 45, "level": 262_144 }));
    assert_has(&open(0, now - 1), json!({ "check": 0, "cost": 45, "level": 65_536 }));
    assert_has(&open(1, now - 4), json!({ "check": 0, "cost": 45, "level": 262_144 }));
    // There is no refill before a time of update that is to come.
    assert_has(&open(0, now + 10), json!({ "check": 9, "shortfall": 45, "payable_after": 11, "payable_at": now + 11 }));
    // The last second that the clock can have is one to pay in.
    let last = (1u64 << 40) - 1;
    assert_has(&open(0, last - 1), json!({ "check": 9, "payable_after": last - now, "payable_at": last }));
    for updated in [last, u64::MAX] {
        let never = open(0, updated);
        assert_has(&never, json!({ "check": 9, "shortfall": 45 }));
        assert_lacks(&never, &["payable_after", "payable_at"]);
    }
}

#[test]
fn the_seconds_until_a_call_can_be_paid_are_those_after_its_own_time() {
    let (relay, state) = relay("explain_later");
    end(relay);
    let now = clock(&state);
    let copy = with_allowance(&state, 0, now + 10);
    let open = ["open", "--connection", &FIRST.to_string(), "--time", &(now + 3).to_string()];
    assert_has(&explain(&copy, &open), json!({ "check": 9, "clock": now, "payable_after": 8, "payable_at": now + 11 }));
    let words = told(&copy, &open);
    assert!(words.contains(&format!("Payable:    in 8 seconds, at {} (", now + 11)), "{words}");
}

#[test]
fn an_allowance_that_a_flood_has_used_up() {
    let (mut relay, state) = relay("explain_flood");
    let flood = peer(&relay);
    // They are more than the allowance pays for in three seconds.
    flood.stream().write_all(&[0, 2, 1, 13].repeat(15_000)).expect("the kernel takes it");
    let copy = state.with_extension("copy");
    await_saved(|| fs::copy(&state, &copy).is_ok() && level(&copy, PARTNER, clock(&copy)) < 33);
    let has = level(&copy, PARTNER, clock(&copy));
    let expected = json!({ "check": 9, "level": has, "shortfall": 45 - has, "payable_after": 1 });
    assert_has(&explain_open(&copy, SECOND), expected);
    assert_has(&explain_message(&copy, FIRST, KEEPALIVE, &[]), json!({ "check": 9, "shortfall": 33 - has }));
    // A second later it is paid, as the relay then does.
    let later = (clock(&copy) + 1).to_string();
    let paid = explain(&copy, &["open", "--connection", &SECOND.to_string(), "--time", &later]);
    assert_has(&paid, json!({ "check": 0, "left": has + 65_536 - 45 }));
    // The log of the relay has a shortfall, too.
    let lines = relay.program.await_line("the partner's allowance is used up (").expect("a line");
    let short = lines.rsplit("used up (").next().and_then(|rest| rest.split_once(" unit")).expect("a shortfall").0;
    assert!(short.parse::<u64>().is_ok_and(|units| (1..=33).contains(&units)), "{lines}");
}
