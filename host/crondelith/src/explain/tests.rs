//! The engine's reasons as they are told.

use std::collections::BTreeSet;

use codec::Message;
use engine::reasons::{Reason, ESTABLISH, LEASE};
use engine::relay::{self, BUFFER, RANDOM};
use serde_json::{json, Value};
use server::{Tables, CLOCK_LIMIT, CONNECTIONS_EACH};

use super::call::{Action, Call, Due, CONNECTIONS};
use super::explanation::Explanation;
use super::DETAILS;

const CLOCK: u64 = 1_794_812_909;
const NOW: &str = "Time:       1794812909 (2026-11-16T07:08:29Z), the file's clock";
/// The second of partner 1.
const CONNECTION: u64 = CONNECTIONS_EACH as u64 + 1;
const FULL: u64 = 262_144;
/// Bytes of the longest message.
const LONGEST: usize = 65_534;
const NOT_CHARGED: &str = "Cost:       nothing, a call refused so isn't charged";

const OPEN: Action = Action::Open { reply_length: 64 };
const CLOSE: Action = Action::Close { relay_length: 64 };
const CHECK: Action = Action::Keepalive { reply_length: 64, relay_length: 64 };

fn message(message: &[u8]) -> Action {
    Action::Message { message: message.to_vec(), random: vec![0; 80], reply_length: 64, relay_length: 64 }
}

/// A message that isn't one of each type that peers send, and what one has.
const MALFORMED: [(&[u8], &str); 7] = [
    (&[1, 2], "a message of type 1 (version answer) has 2 bytes, 1 and then 0 or 1"),
    (&[2, 2], "a message of type 2 (lease request) has 2 bytes, 2 and 0, or 26: 2, 1 and a cookie"),
    (&[4], "a message of type 4 (lease extension request) has 25 bytes, 4 and a cookie"),
    (&[6], "a message of type 6 (establish request) has 5 bytes, 6 and an id"),
    (&[9, 0], "a message of type 9 (session end) has 1 byte"),
    (&[11; LONGEST + 1], "a message of type 11 (data) has at most 65,534 bytes"),
    (&[13, 0], "a message of type 13 (keepalive) has 1 byte"),
];

/// A call of the connection, at the clock's time, when the partner has all that it can have.
fn explanation(action: Action, reason: Reason) -> Explanation {
    let call = Call { connection: CONNECTION, time: CLOCK, action };
    Explanation { call, clock: CLOCK, reason, level: Some(FULL), payable_at: None, due: None, expiration: None }
}

/// Likewise one that its partner has so many units for, and is short of some.
fn short(action: Action, level: u64, shortfall: u64) -> Explanation {
    let payable_at = Some(CLOCK + shortfall.div_ceil(65_536));
    Explanation { level: Some(level), payable_at, ..explanation(action, charged(9, -(shortfall as i64))) }
}

fn refused(check: u32) -> Reason {
    Reason { check, request: 0, condition: 0, charged: 0, headroom: 0 }
}

fn charged(check: u32, headroom: i64) -> Reason {
    Reason { check, request: 0, condition: 0, charged: 1, headroom }
}

fn decided(request: u32, condition: u32) -> Reason {
    Reason { check: 0, request, condition, charged: 1, headroom: 1_000 }
}

/// The line with this label.
fn line(explanation: &Explanation, label: &str) -> Option<String> {
    let text = explanation.to_string();
    let found = text.lines().find_map(|line| line.strip_prefix(label)).map(|rest| rest.trim().to_owned());
    found
}

fn assert_text(explanation: &Explanation, lines: &[&str]) {
    assert_eq!(explanation.to_string().lines().collect::<Vec<_>>(), lines);
}

#[test]
fn a_call_that_is_done_has_its_cost_and_what_is_left() {
    let told = explanation(OPEN, charged(0, 262_099));
    assert_text(
        &told,
        &[
            &format!("Call:       open of connection {CONNECTION} of partner 1"),
            NOW,
            "Answer:     0, it would be done",
            "Cost:       45 units",
            "Allowance:  the partner has 262,144 units and keeps 262,099",
        ],
    );
    let expected = json!({
        "call": "open", "connection": CONNECTION, "partner": 1, "time": CLOCK, "clock": CLOCK, "check": 0, "done": true,
        "free": false, "cost": 45, "level": FULL, "headroom": 262_099, "left": 262_099,
    });
    assert_eq!(told.to_json(), expected);
    // Equal cost and level passes.
    let told = Explanation { level: Some(33), ..explanation(message(&[13]), charged(0, 0)) };
    assert_eq!(line(&told, "Cost:").expect("a cost"), "33 units");
    assert_eq!(line(&told, "Allowance:").expect("a level"), "the partner has 33 units and keeps 0");
    assert_eq!((&told.to_json()["left"], told.to_json().get("shortfall")), (&json!(0), None));
}

#[test]
fn what_is_missing_is_told_with_the_time_when_it_is_there() {
    let told = short(OPEN, 20, 25);
    assert_text(
        &told,
        &[
            &format!("Call:       open of connection {CONNECTION} of partner 1"),
            NOW,
            "Answer:     9, it would be refused: the partner's allowance is used up",
            "Meaning:    the call costs more than the partner has at that time",
            "Cost:       45 units",
            "Allowance:  the partner has 20 units, 25 too few",
            "Payable:    in 1 second, at 1794812910 (2026-11-16T07:08:30Z), if the partner makes no charged call meanwhile",
        ],
    );
    let expected = json!({
        "call": "open", "connection": CONNECTION, "partner": 1, "time": CLOCK, "clock": CLOCK, "check": 9, "done": false,
        "reason": "the partner's allowance is used up",
        "meaning": "the call costs more than the partner has at that time",
        "free": false, "cost": 45, "level": 20, "headroom": -25, "shortfall": 25,
        "payable_at": CLOCK + 1, "payable_after": 1,
    });
    assert_eq!(told.to_json(), expected);
    let told = short(message(&[11; LONGEST]), 0, 131_100);
    let payable = line(&told, "Payable:").expect("a time");
    assert!(payable.starts_with("in 3 seconds, at 1794812912 ("), "{payable}");
    assert_eq!(line(&told, "Cost:").expect("a cost"), "131,100 units");
    assert_eq!(line(&told, "Allowance:").expect("a level"), "the partner has 0 units, 131,100 too few");
    assert_eq!(line(&told, "Follows:").expect("what the relay does"), "the message waits");
    let late = Explanation { payable_at: Some(CLOCK + 1_234), ..told };
    let payable = line(&late, "Payable:").expect("a time");
    assert!(payable.starts_with("in 1,234 seconds, at 1794814143 ("), "{payable}");
    let never = Explanation { payable_at: None, ..late };
    assert_eq!(line(&never, "Payable:").expect("words"), "at no time that the relay's clock can have");
    assert_eq!(never.to_json().get("payable_after"), None);
}

#[test]
fn a_free_call_costs_nothing() {
    for action in [CLOSE, CHECK, message(&[9])] {
        let told = explanation(action, Reason { charged: 0, ..charged(0, 0) });
        assert_eq!(line(&told, "Cost:").expect("a cost"), "nothing, the call is free");
        assert_eq!(line(&told, "Allowance:"), None);
        assert_eq!((&told.to_json()["free"], told.to_json().get("cost")), (&json!(true), None));
    }
}

#[test]
fn each_check_has_words_for_the_call() {
    let cases: [(u32, Action, &str); 16] = [
        (2, OPEN, "the relay's clock is at 1794812909 already, and doesn't go back"),
        (3, OPEN, &format!("connections have the numbers 0 to {}", CONNECTIONS - 1)),
        (4, OPEN, "the connection isn't closed, and only a closed one can be opened"),
        (4, CLOSE, "the connection is closed, as all are when a relay has ended or starts"),
        (4, CHECK, "the connection is closed, as all are when a relay has ended or starts"),
        (5, Action::Open { reply_length: 63 }, "the reply buffer needs 64 bytes or more and has 63"),
        (5, Action::Close { relay_length: 0 }, "the relay buffer needs 64 bytes or more and has 0"),
        (
            5,
            Action::Keepalive { reply_length: 63, relay_length: 1_000 },
            "the reply buffer needs 64 bytes or more and has 63; the relay buffer needs 64 bytes or more and has 1,000",
        ),
        (6, message(&[]), "it is empty, and a message begins with its type"),
        (6, message(&[2, 2]), MALFORMED[1].1),
        (6, message(&[3, 0]), "it has type 3, and peers send types 1, 2, 4, 6, 9, 11, 13"),
        (6, message(&[200]), "it has type 200, and peers send types 1, 2, 4, 6, 9, 11, 13"),
        (7, message(&[1, 1]), "the connection has answered the relay's version already"),
        (7, message(&[13]), "the connection hasn't answered the relay's version yet, and nothing else may come before"),
        (8, message(&[9]), "data and the end of a session are for a connection in session, and this one is in none"),
        (
            8,
            message(&[11, 1]),
            "data and the end of a session are for a connection in session, and this one is in none",
        ),
    ];
    for (check, action, meaning) in cases {
        let told = explanation(action, refused(check));
        assert_eq!(line(&told, "Meaning:").as_deref(), Some(meaning));
        assert!(
            line(&told, "Answer:").is_some_and(|answer| answer.starts_with(&format!("{check}, it would be refused: ")))
        );
        assert!(told.to_string().lines().any(|line| line == NOT_CHARGED), "{told}");
        let json = told.to_json();
        assert!(json["check"] == check && json["done"] == false && json["meaning"] == meaning, "{json}");
        assert!(json.get("free").is_none() && json.get("headroom").is_none(), "{json}");
    }
}

#[test]
fn each_type_has_words_for_what_is_malformed() {
    for (bytes, meaning) in MALFORMED {
        assert!(codec::decode(bytes).is_none(), "{meaning}");
        assert_eq!(line(&explanation(message(bytes), refused(6)), "Meaning:").as_deref(), Some(meaning));
    }
}

#[test]
fn each_type_but_the_version_answer_s_comes_after_that() {
    for (bytes, _) in &MALFORMED[1..] {
        let meaning = line(&explanation(message(&bytes[..1]), refused(7)), "Meaning:").expect("words");
        assert!(meaning.starts_with("the connection hasn't answered the relay's version yet"), "{bytes:?}: {meaning}");
    }
}

#[test]
fn a_message_s_buffers_are_all_told() {
    let mut long = message(&[11; 1_000]);
    if let Action::Message { random, relay_length, .. } = &mut long {
        random.truncate(79);
        *relay_length = u64::MAX;
    }
    assert_eq!(
        line(&explanation(long, refused(5)), "Meaning:").expect("words"),
        "there must be 80 random bytes and there are 79; the reply buffer needs 64 bytes or more and has 64; \
         the relay buffer needs 1,000 bytes or more and has 18,446,744,073,709,551,615"
    );
}

#[test]
fn what_a_running_relay_does_is_told_of_messages_that_peers_can_send() {
    let follows = |action, check| line(&explanation(action, refused(check)), "Follows:");
    for (check, what) in
        [(6, "the connection is closed"), (7, "the connection is closed"), (8, "the message is dropped")]
    {
        assert_eq!(follows(message(&[11]), check).as_deref(), Some(what));
        assert_eq!(explanation(message(&[11]), refused(check)).to_json()["follows"], what);
    }
    for check in 2..=5 {
        assert_eq!(follows(message(&[11]), check), None);
    }
    assert_eq!(follows(OPEN, 4), None);
    assert_eq!(line(&short(OPEN, 44, 1), "Follows:"), None);
    // The longest message that a frame holds, and one that none does.
    assert_eq!(follows(message(&[3; LONGEST]), 6).as_deref(), Some("the connection is closed"));
    assert_eq!(follows(message(&[3; LONGEST + 1]), 6), None);
}

#[test]
fn what_a_keepalive_check_does_has_words() {
    let done = Reason { charged: 0, ..charged(0, 0) };
    let told = Explanation { due: Some(Due::Keepalive), ..explanation(CHECK, done) };
    assert_text(
        &told,
        &[
            &format!("Call:       keepalive check of connection {CONNECTION} of partner 1"),
            NOW,
            "Answer:     0, it would be done",
            "Follows:    a Keepalive is sent to the peer",
            "Cost:       nothing, the call is free",
        ],
    );
    let expected = json!({
        "call": "keepalive", "connection": CONNECTION, "partner": 1, "time": CLOCK, "clock": CLOCK, "check": 0,
        "done": true, "follows": "a Keepalive is sent to the peer", "free": true,
    });
    assert_eq!(told.to_json(), expected);
    let follows = |due| line(&Explanation { due: Some(due), ..explanation(CHECK, done) }, "Follows:");
    let others = [
        (Due::Nothing, "nothing, there is no need to ask the peer yet, or time left for its answer"),
        (Due::Close, "the connection is closed, since its peer hasn't answered a Keepalive in time"),
    ];
    for (due, words) in others {
        assert_eq!(follows(due).as_deref(), Some(words));
    }
    assert_eq!(line(&explanation(CHECK, refused(4)), "Follows:"), None);
}

#[test]
fn each_condition_of_a_lease_has_words() {
    let words = ["accepted", "holds a live lease already", "no row left", "the cookie of a live lease", "every id"];
    for (condition, words) in (0..).zip(words) {
        let told = explanation(message(&[2, 0]), decided(LEASE, condition));
        let lease = line(&told, "Lease:").expect("a decision");
        assert!(lease.contains(words) && lease.starts_with("not") == (condition != 0), "{lease}");
        assert!(condition == 0 || lease.contains(&format!("(condition {condition})")), "{lease}");
        let json = told.to_json();
        assert!(json["request"] == "lease" && json["condition"] == condition && json["decision"] == lease, "{json}");
        assert!(json.get("status").is_none(), "{json}");
    }
}

/// What a call does doesn't depend on the map, which these tests don't keep.
const NO_MAP: u64 = 0;

/// The tables of a fresh relay with this term, on which the connection is open.
fn fresh(term: u64) -> Tables {
    let mut tables = Tables::from_bytes(&[0; Tables::SIZE]).expect("tables");
    let (mut reply, mut relayed) = ([0; BUFFER], [0; BUFFER]);
    let answers = [
        relay::fresh(tables.lend(), NO_MAP, CLOCK, term),
        relay::open(tables.lend(), NO_MAP, CLOCK, CONNECTION, &mut reply),
        relay::message(tables.lend(), NO_MAP, CLOCK, CONNECTION, &[1, 1], &[0; RANDOM], &mut reply, &mut relayed),
    ];
    assert!(answers.iter().all(|answer| answer.number == 0), "{answers:?}");
    tables
}

/// What a lease's reply has, at a time.
fn engine_expiration(tables: &mut Tables, time: u64) -> Option<u64> {
    let (mut reply, mut relayed) = ([0; BUFFER], [0; BUFFER]);
    let answer =
        relay::message(tables.lend(), NO_MAP, time, CONNECTION, &[2, 0], &[0; RANDOM], &mut reply, &mut relayed);
    match codec::decode(&reply[..answer.reply as usize]) {
        Some(Message::LeaseGranted { expiration, .. }) => Some(expiration),
        _ => None,
    }
}

#[test]
fn the_end_of_a_lease_is_what_the_relay_would_tell() {
    for (term, time) in [(0, CLOCK), (600, CLOCK + 7), (1_200, CLOCK), (86_400, CLOCK_LIMIT - 1)] {
        let mut tables = fresh(term);
        let explain =
            |tables: &Tables| Explanation::new(Call { connection: CONNECTION, time, action: message(&[2, 0]) }, tables);
        let told = explain(&tables);
        assert!(told.expiration.is_some());
        assert_eq!(told.expiration, engine_expiration(&mut tables, time), "{term} at {time}");
        // The connection holds a lease now, and gets no other.
        assert_eq!(explain(&tables).expiration, None);
    }
}

#[test]
fn a_session_has_no_end() {
    let mut tables = fresh(0);
    let other = CONNECTION + 1;
    let (mut reply, mut relayed) = ([0; BUFFER], [0; BUFFER]);
    relay::open(tables.lend(), NO_MAP, CLOCK, other, &mut reply);
    relay::message(tables.lend(), NO_MAP, CLOCK, other, &[1, 1], &[0; RANDOM], &mut reply, &mut relayed);
    engine_expiration(&mut tables, CLOCK).expect("a lease");
    // The id of random bytes that are zero.
    let establish = Call { connection: other, time: CLOCK, action: message(&[6, 0, 0, 0, 0]) };
    let told = Explanation::new(establish, &tables);
    assert!(line(&told, "Session:").is_some_and(|words| words.contains("established (status 0)")));
    assert_eq!(told.expiration, None);
}

#[test]
fn the_end_of_a_lease_has_words() {
    let told = Explanation { expiration: Some(CLOCK + 1_200), ..explanation(message(&[2, 0]), decided(LEASE, 0)) };
    assert_text(
        &told,
        &[
            &format!("Call:       message from connection {CONNECTION} of partner 1: 2 bytes, type 2 (lease request)"),
            NOW,
            "Answer:     0, it would be done",
            "Lease:      accepted, all four conditions hold",
            "Until:      1794814109 (2026-11-16T07:28:29Z), 1,200 seconds later, unless it is extended",
            "Cost:       261,144 units",
            "Allowance:  the partner has 262,144 units and keeps 1,000",
        ],
    );
    assert_eq!(told.to_json()["expiration"], CLOCK + 1_200);
    // The seconds are from the call on, whatever the file's clock says.
    let later = Explanation { clock: CLOCK - 50, ..told };
    assert!(line(&later, "Until:").is_some_and(|words| words.contains(" 1,200 seconds later")));
}

#[test]
fn each_status_has_words() {
    let words =
        ["established (status 0)", "no id 5", "offline", "another session", "a session already", "this peer's own"];
    for (status, words) in (0..).zip(words) {
        let told = explanation(message(&[6, 0, 0, 0, 5]), decided(ESTABLISH, status));
        let session = line(&told, "Session:").expect("a decision");
        assert!(session.contains(words) && session.contains(&format!("(status {status})")), "{session}");
        let json = told.to_json();
        assert!(json["request"] == "establish" && json["status"] == status && json["decision"] == session, "{json}");
        assert!(json.get("condition").is_none(), "{json}");
    }
}

#[test]
fn any_numbers_have_words() {
    let call = Call { connection: u64::MAX, time: u64::MAX, action: OPEN };
    let told =
        Explanation { call, clock: 0, reason: refused(2), level: None, payable_at: None, due: None, expiration: None };
    assert_eq!(line(&told, "Call:").expect("a call"), "open of connection 18446744073709551615");
    assert_eq!(line(&told, "Time:").expect("a time"), "18446744073709551615; the file's clock is at 0");
    assert_eq!(line(&told, "Meaning:").expect("words"), "times are below 1,099,511,627,776");
    let json = told.to_json();
    assert_eq!((&json["connection"], &json["time"], json.get("partner")), (&json!(u64::MAX), &json!(u64::MAX), None));
}

#[test]
fn the_help_names_every_field() {
    let short = short(message(&[2, 0]), 71, 1);
    let lease = Explanation { expiration: Some(CLOCK), ..explanation(message(&[2, 0]), decided(LEASE, 0)) };
    let session = explanation(message(&[6, 0, 0, 0, 5]), decided(ESTABLISH, 1));
    let objects = [short, lease, session].map(|told| told.to_json());
    let told: BTreeSet<_> = objects.iter().flat_map(|object| object.as_object().expect("an object").keys()).collect();
    let (_, named) = DETAILS.split_once("what applies of these: ").expect("names");
    let (named, _) = named.split_once('.').expect("their end");
    let named: BTreeSet<_> = named.split([',', ';', ' ', '\n']).filter(|name| !name.is_empty()).collect();
    assert_eq!(told.iter().map(|name| name.as_str()).collect::<BTreeSet<_>>(), named);
}

#[test]
fn numbers_at_their_limits_have_words() {
    let told = |connection, time| {
        let call = Call { connection, time, action: OPEN };
        Explanation { call, clock: 0, reason: refused(2), level: None, payable_at: None, due: None, expiration: None }
    };
    assert_eq!(line(&told(0, CLOCK_LIMIT), "Meaning:").expect("words"), "times are below 1,099,511,627,776");
    let last = told(CONNECTIONS - 1, 0);
    assert_eq!(line(&last, "Call:").expect("a call"), "open of connection 63 of partner 7");
    assert_eq!(last.to_json()["partner"], 7);
    let beyond = told(CONNECTIONS, 0);
    assert_eq!(line(&beyond, "Call:").expect("a call"), "open of connection 64");
    assert_eq!(beyond.to_json().get("partner"), None);
    // The last second whose year has four digits, and the next.
    for (time, words) in [(253_402_300_799, "(9999-12-31T23:59:59Z)"), (253_402_300_800, "253402300800;")] {
        let told = told(0, time);
        assert!(line(&told, "Time:").is_some_and(|line| line.contains(words)), "{told}");
    }
}

#[test]
fn a_message_is_described_by_its_length_and_type() {
    let cases: [(&[u8], &str); 4] = [
        (&[], "0 bytes"),
        (&[9], "1 byte, type 9 (session end)"),
        (&[7; 1_000], "1,000 bytes, type 7"),
        (&[2, 0], "2 bytes, type 2 (lease request)"),
    ];
    for (bytes, words) in cases {
        let told = explanation(message(bytes), refused(4));
        assert_eq!(
            line(&told, "Call:").expect("a call"),
            format!("message from connection {CONNECTION} of partner 1: {words}")
        );
        let json = told.to_json();
        assert_eq!(json["message_length"], bytes.len());
        assert_eq!(json.get("message_type").and_then(Value::as_u64), bytes.first().map(|kind| u64::from(*kind)));
    }
}
