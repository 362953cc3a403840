//! "Find dead connections": the request's examples, and each of its sentences.

use model::{close, keepalive, open, reasons};
use model::{Answer, Entry, Relay, State, StoredTerm, Tables, CONNECTIONS, LEVEL_LIMIT, NOBODY, TIME_LIMIT};

use crate::support::{establish_with_id_1, relay, relay_in_session, relay_with, send, set_allowance, Sent};

const RECORD: usize = 64;
const LAST_TIME: u64 = TIME_LIMIT - 1;
const NO_CONNECTION: u64 = CONNECTIONS as u64;
const CLOSE: u8 = 2;
const KEEPALIVE: u8 = 3;

/// Done, and nothing is sent.
fn nothing(now: u64, connection: u64, call: u8) -> Answer {
    let record = Entry { time: now, connection: connection as u8, call, kind: 0, answer: 0, charge: 0 }.bytes();
    Answer { number: 0, reply: 0, relay: 0, destination: NOBODY.into(), disconnect: false, map: 0, record }
}

/// The call for a connection, with what it sends.
fn find_out(tables: &mut Tables, now: u64, connection: u64) -> Sent {
    let (mut reply, mut relay) = (vec![200; 64], vec![200; 64]);
    let answer = keepalive(tables, 0, now, connection, &mut reply, &mut relay);
    assert_eq!(&reply[answer.reply..], &vec![200; 64 - answer.reply], "further bytes stay");
    assert_eq!(&relay[answer.relay..], &vec![200; 64 - answer.relay], "further bytes stay");
    reply.truncate(answer.reply);
    relay.truncate(answer.relay);
    Sent { answer, reply, relay }
}

/// Nothing is sent, and of the tables only the clock changes.
fn assert_quiet(tables: &mut Tables, now: u64, connection: u64) {
    let mut expected = decoded(tables);
    expected.set_clock(now);
    assert_eq!(find_out(tables, now, connection).answer, nothing(now, connection, KEEPALIVE));
    assert_eq!(*tables, expected.encode());
}

/// A Keepalive is sent, and the record says so; else only the clock changes.
fn assert_asked(tables: &mut Tables, now: u64, connection: u64) {
    let mut expected = decoded(tables);
    expected.set_clock(now);
    let record = &mut expected.connections[connection as usize];
    (record.unanswered, record.sent, record.asked) = (1, now, now);
    let sent = find_out(tables, now, connection);
    assert_eq!(sent.answer, Answer { reply: 1, ..nothing(now, connection, KEEPALIVE) });
    assert_eq!(sent.reply, [13]);
    assert_eq!(*tables, expected.encode());
}

/// The connection, in no session, is closed.
fn assert_closed(tables: &mut Tables, now: u64, connection: u64) {
    let mut expected = tables.clone();
    assert_eq!(close(&mut expected, 0, now, connection, &mut [0; 64]), nothing(now, connection, CLOSE));
    let closed = Answer { disconnect: true, ..nothing(now, connection, KEEPALIVE) };
    assert_eq!(find_out(tables, now, connection).answer, closed);
    assert_eq!(*tables, expected);
}

fn decoded(tables: &Tables) -> Relay {
    Relay::decode(tables).expect("tables of the right sizes")
}

/// Bytes 2 to 15 of a connection's record.
fn record(tables: &Tables, connection: usize) -> [u8; 14] {
    tables.connections[RECORD * connection + 2..][..14].try_into().expect("fourteen bytes")
}

/// Connection 0 is open, and its record has these.
fn with_record(unanswered: u8, sent: u64, asked: u64) -> Tables {
    let mut relay = Relay::fresh(0, StoredTerm::default());
    relay.connections[0].set_state(State::Open);
    (relay.connections[0].unanswered, relay.connections[0].sent, relay.connections[0].asked) =
        (unanswered, sent, asked);
    relay.encode()
}

/// The bytes of the worked examples' times.
const AT_1_000: [u8; 5] = [0, 0, 0, 3, 232];
const AT_1_030: [u8; 5] = [0, 0, 0, 4, 6];
const AT_1_085: [u8; 5] = [0, 0, 0, 4, 61];
const NEVER: [u8; 5] = [0; 5];

/// Bytes 2 to 15.
fn bytes(unanswered: u8, sent: [u8; 5], asked: [u8; 5]) -> [u8; 14] {
    [&[unanswered, 0], &sent[..], &asked, &[0, 0]].concat().try_into().expect("fourteen bytes")
}

#[test]
fn where_the_fields_are() {
    let numbers: Vec<u8> = (0..RECORD as u8).collect();
    let mut tables = relay(0);
    tables.connections[..RECORD].copy_from_slice(&numbers);
    let relay = decoded(&tables);
    let connection = &relay.connections[0];
    assert_eq!((connection.peer, connection.unanswered), (1, 2));
    assert_eq!((connection.sent, connection.asked), (0x04_0506_0708, 0x09_0a0b_0c0d));
    assert_eq!(connection.session.id, numbers[16..32]);
    assert_eq!(relay.encode(), tables);
}

#[test]
fn opened_at_1_000() {
    let mut tables = relay(900);
    assert_eq!(record(&tables, 0), [0; 14]);
    assert_eq!(open(&mut tables, 0, 1_000, 0, &mut [0; 64]).reply, 13);
    assert_eq!(record(&tables, 0), bytes(0, AT_1_000, NEVER));
    assert_eq!(record(&tables, 1), [0; 14]);
}

/// Asked at 1,030 and not before, closed at 1,090 and not before.
fn assert_asked_and_closed(mut tables: Tables) {
    assert_quiet(&mut tables, 1_029, 0);
    assert_asked(&mut tables, 1_030, 0);
    assert_eq!(record(&tables, 0), bytes(1, AT_1_030, AT_1_030));
    assert_quiet(&mut tables, 1_030, 0);
    assert_quiet(&mut tables, 1_089, 0);
    assert_closed(&mut tables, 1_090, 0);
    assert_eq!(record(&tables, 0), [0; 14]);
    assert_eq!(find_out(&mut tables, 1_090, 0).answer.number, 4);
}

#[test]
fn asked_after_30_seconds_and_closed_after_60() {
    assert_asked_and_closed(relay_with(1_000, &[0]));
}

#[test]
fn one_that_never_answered_the_version_is_found_too() {
    let mut awaiting = relay(1_000);
    assert_eq!(open(&mut awaiting, 0, 1_000, 0, &mut [0; 64]).number, 0);
    assert_asked_and_closed(awaiting);
}

#[test]
fn the_other_of_a_session_is_told() {
    let mut tables = relay_in_session(1_000);
    assert_asked(&mut tables, 1_030, 1);
    assert_quiet(&mut tables, 1_089, 1);
    let mut expected = tables.clone();
    let told = |call| Answer { relay: 1, destination: 0, ..nothing(1_090, 1, call) };
    assert_eq!(close(&mut expected, 0, 1_090, 1, &mut [0; 64]), told(CLOSE));
    let sent = find_out(&mut tables, 1_090, 1);
    assert_eq!(sent.answer, Answer { disconnect: true, ..told(KEEPALIVE) });
    assert_eq!(sent.relay, [10]);
    assert_eq!(tables, expected);
    let relay = decoded(&tables);
    assert_eq!((relay.connections[0].peer, relay.connections[0].sent), (NOBODY, 1_090));
    assert_eq!((relay.connections[1].state(), relay.leases[0].holder), (State::Closed, NOBODY));
    assert_eq!(relay.leases[0].expiry, 1_600);
}

#[test]
fn a_later_message_to_it_does_not_prolong_its_time() {
    let mut tables = relay_in_session(1_000);
    assert_asked(&mut tables, 1_030, 1);
    assert_eq!(send(&mut tables, 1_085, 0, &[11]).answer.destination, 1);
    assert_eq!(record(&tables, 1), bytes(1, AT_1_085, AT_1_030));
    assert_quiet(&mut tables, 1_089, 1);
    assert!(find_out(&mut tables, 1_090, 1).answer.disconnect);
}

#[test]
fn an_answer_at_1_040() {
    let mut tables = relay_with(1_000, &[0]);
    assert_asked(&mut tables, 1_030, 0);
    let sent = send(&mut tables, 1_040, 0, &[13]).answer;
    assert_eq!(sent, Answer { record: sent.record, ..nothing(1_040, 0, KEEPALIVE) });
    assert_eq!(record(&tables, 0), bytes(0, AT_1_030, AT_1_030));
    assert_quiet(&mut tables, 1_059, 0);
    assert_asked(&mut tables, 1_060, 0);
}

#[test]
fn byte_2_other_than_1_says_that_none_is_unanswered() {
    for unanswered in [0, 2, 3, 128, 254, 255] {
        assert_asked(&mut with_record(unanswered, 970, 0), 1_000, 0);
        assert_quiet(&mut with_record(unanswered, 971, 0), 1_000, 0);
    }
    assert_closed(&mut with_record(1, 970, 0), 1_000, 0);
}

#[test]
fn tables_from_before_are_due_from_30_on() {
    assert_quiet(&mut with_record(0, 0, 0), 29, 0);
    for now in [30, 31, 1_000_000, LAST_TIME] {
        assert_asked(&mut with_record(0, 0, 0), now, 0);
    }
}

#[test]
fn unanswered_for_less_than_60_seconds_however_long_nothing_was_sent() {
    for sent in [0, 500, 970, 1_000, 1_001, LAST_TIME] {
        assert_quiet(&mut with_record(1, sent, 941), 1_000, 0);
        assert_closed(&mut with_record(1, sent, 940), 1_000, 0);
    }
}

#[test]
fn a_time_to_come_counts_as_no_time_passed() {
    for later in [1_001, 1_060, 1 << 39, LAST_TIME] {
        assert_quiet(&mut with_record(0, later, 0), 1_000, 0);
        assert_quiet(&mut with_record(1, 0, later), 1_000, 0);
        assert_asked(&mut with_record(0, 0, later), 1_000, 0);
        assert_closed(&mut with_record(1, later, 0), 1_000, 0);
    }
}

#[test]
fn up_to_the_last_time() {
    assert_asked(&mut with_record(0, LAST_TIME - 30, 0), LAST_TIME, 0);
    assert_quiet(&mut with_record(0, LAST_TIME - 29, 0), LAST_TIME, 0);
    assert_closed(&mut with_record(1, 0, LAST_TIME - 60), LAST_TIME, 0);
    assert_eq!(find_out(&mut with_record(0, 0, 0), TIME_LIMIT, 0).answer.number, 2);
}

/// Two connections in session with bytes 2 to 15 that are nobody's, and a third that is open.
fn marked() -> Tables {
    let mut tables = relay_in_session(100);
    for connection in [0, 1, 2] {
        tables.connections[RECORD * connection] = 2;
        let marks: Vec<u8> = (1..15).map(|number| 16 * connection as u8 + number).collect();
        tables.connections[RECORD * connection + 2..][..14].copy_from_slice(&marks);
    }
    tables
}

/// Bytes 2 to 15 of the three afterwards: of a caller byte 2 is zero, of a receiver 4 to 8 are the time.
fn assert_marks(tables: &Tables, cleared: &[usize], receivers: &[usize]) {
    for connection in [0, 1, 2] {
        let mut expected = record(&marked(), connection);
        if cleared.contains(&connection) {
            expected[0] = 0;
        }
        if receivers.contains(&connection) {
            expected[2..7].copy_from_slice(&[0, 0, 0, 0, 200]);
        }
        assert_eq!(record(tables, connection), expected, "of connection {connection}");
    }
}

#[test]
fn a_message_answers_for_its_sender_and_is_sent_to_its_receiver() {
    let cookie = |kind: &[u8]| [kind, &[9; 24]].concat();
    let messages: [(usize, &[u8], &[usize]); 10] = [
        (2, &[2, 0], &[2]),
        (1, &cookie(&[2, 1]), &[1]),
        (1, &cookie(&[4]), &[1]),
        (0, &cookie(&[4]), &[0]),
        (0, &[6, 0, 0, 0, 1], &[0]),
        (2, &[6, 0, 0, 0, 5], &[2]),
        (1, &[9], &[0]),
        (0, &[11], &[1]),
        (1, &[11, 5], &[0]),
        (2, &[13], &[]),
    ];
    for (caller, message, receivers) in messages {
        let mut tables = marked();
        assert_eq!(send(&mut tables, 200, caller as u64, message).answer.number, 0);
        assert_marks(&tables, &[caller], receivers);
    }
}

#[test]
fn both_are_sent_something_where_a_session_is_made() {
    let mut tables = marked();
    assert_eq!(send(&mut tables, 150, 1, &[9]).answer.number, 0);
    let before = decoded(&tables);
    assert_eq!(establish_with_id_1(&mut tables, 200, 2), 0);
    let after = decoded(&tables);
    for connection in [1, 2] {
        assert_eq!(after.connections[connection].sent, 200);
        assert_eq!(after.connections[connection].asked, before.connections[connection].asked);
    }
    assert_eq!((after.connections[1].unanswered, after.connections[2].unanswered), (0, 0));
    assert_eq!(after.connections[0], before.connections[0]);
}

#[test]
fn the_holder_s_keepalive_stays_unanswered_where_a_session_is_made() {
    let mut tables = relay_with(100, &[0, 1]);
    assert_eq!(send(&mut tables, 100, 1, &[2, 0]).answer.number, 0);
    assert_asked(&mut tables, 130, 1);
    assert_eq!(establish_with_id_1(&mut tables, 140, 0), 0);
    let holder = &decoded(&tables).connections[1];
    assert_eq!((holder.unanswered, holder.sent, holder.asked), (1, 140, 130));
}

#[test]
fn the_version_s_answer() {
    for (ok, left) in [(1, bytes(0, AT_1_030, AT_1_030)), (0, [0; 14])] {
        let mut tables = relay(1_000);
        assert_eq!(open(&mut tables, 0, 1_000, 0, &mut [0; 64]).number, 0);
        assert_asked(&mut tables, 1_030, 0);
        assert_eq!(send(&mut tables, 1_031, 0, &[1, ok]).answer.reply, 0);
        assert_eq!(record(&tables, 0), left);
    }
}

#[test]
fn a_close_is_sent_to_the_other() {
    let mut tables = marked();
    assert_eq!(close(&mut tables, 0, 200, 0, &mut [0; 64]).destination, 1);
    assert_eq!(record(&tables, 0), [0; 14]);
    tables.connections[..RECORD].copy_from_slice(&marked().connections[..RECORD]);
    assert_marks(&tables, &[], &[1]);
}

#[test]
fn a_refused_call_is_no_answer_and_sends_nothing() {
    let longer = [&[11][..], &[0; 70]].concat();
    let mut tables = marked();
    set_allowance(&mut tables, 100, 200);
    let before = tables.clone();
    for (caller, message, number) in [(2, &[][..], 6), (2, &[1, 1], 7), (2, &[9], 8), (0, &longer, 9)] {
        assert_eq!(send(&mut tables, 200, caller, message).answer.number, number);
        assert_eq!(tables, before);
    }
    assert_eq!(open(&mut tables, 0, 200, 0, &mut [0; 64]).number, 4);
    assert_eq!(close(&mut tables, 0, 200, 0, &mut [0; 63]).number, 5);
    assert_eq!(tables, before);
}

#[test]
fn the_checks_are_those_of_close_with_both_buffers() {
    let mut tables = relay_with(100, &[0]);
    let before = tables.clone();
    let mut number = |now, connection, reply, relay| {
        let number = keepalive(&mut tables, 0, now, connection, &mut vec![0; reply], &mut vec![0; relay]).number;
        assert!(number == 0 || tables == before);
        number
    };
    assert_eq!([number(99, 0, 64, 64), number(TIME_LIMIT, 0, 64, 64), number(u64::MAX, NO_CONNECTION, 0, 0)], [2; 3]);
    assert_eq!([number(130, NO_CONNECTION, 64, 64), number(130, u64::MAX, 0, 0)], [3; 2]);
    assert_eq!([number(130, 1, 64, 64), number(130, NO_CONNECTION - 1, 0, 0)], [4; 2]);
    assert_eq!([number(130, 0, 63, 64), number(130, 0, 64, 63), number(130, 0, 0, 0)], [5; 3]);
    assert_eq!(number(130, 0, 64, 64), 0);
    let mut small = relay_with(100, &[0]);
    small.connections.pop();
    assert_eq!(find_out(&mut small, 130, 0).answer.number, 1);
}

#[test]
fn it_is_free_whatever_it_finds() {
    for (record, level) in [(1, 0), (1, LEVEL_LIMIT), (0, 0), (0, 31)] {
        for sent in [0, 1_000] {
            let mut tables = with_record(record, sent, sent);
            set_allowance(&mut tables, level, 1_000);
            let before = decoded(&tables).allowances[0].clone();
            assert_eq!(find_out(&mut tables, 1_000, 0).answer.number, 0);
            assert_eq!(decoded(&tables).allowances[0], before);
        }
    }
}

#[test]
fn its_explanation_is_the_check_alone() {
    let mut tables = relay_with(100, &[0]);
    set_allowance(&mut tables, 0, 100);
    let explained =
        |now, connection, reply, relay| reasons::keepalive(&tables, now, connection, reply, relay).numbers();
    for now in [100, 129, 130, LAST_TIME] {
        assert_eq!(explained(now, 0, 64, u64::MAX), ([0; 4], 0));
    }
    let refused = [
        (2, TIME_LIMIT, 0, 64, 64),
        (3, 130, NO_CONNECTION, 64, 64),
        (4, 130, 1, 64, 64),
        (5, 130, 0, 63, 64),
        (5, 130, 0, 64, 63),
    ];
    for (number, now, connection, reply, relay) in refused {
        assert_eq!(explained(now, connection, reply, relay), ([number, 0, 0, 0], 0));
    }
}
