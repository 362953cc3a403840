//! The scope's twelve worked examples, by their numbers there, the sixth as request 6 restates it and the eighth as request 5
//! does, through the calls.

use model::{close, fresh, open, Answer, LEVEL_LIMIT, NOBODY, TIME_LIMIT};

use crate::support::{establish_with_id_1, level, relay, relay_in_session, relay_of_term, relay_with, send};
use crate::support::{set_allowance, with_open};

#[test]
fn case_1_empty_message() {
    assert_eq!(send(&mut relay_with(100, &[0]), 100, 0, &[]).answer.number, 6);
}

#[test]
fn case_2_has_cookie_0_in_26_bytes() {
    let mut bytes = [0; 26];
    bytes[0] = 2;
    assert_eq!(send(&mut relay_with(100, &[0]), 100, 0, &bytes).answer.number, 6);
}

#[test]
fn case_3_has_cookie_2() {
    assert_eq!(send(&mut relay_with(100, &[0]), 100, 0, &[2, 2]).answer.number, 6);
}

#[test]
fn case_4_type_11_alone_in_session() {
    let sent = send(&mut relay_in_session(100), 100, 0, &[11]);
    let record = [0, 0, 0, 0, 0, 0, 0, 100, 0, 1, 11, 0, 0, 0, 0, 34];
    let relayed = Answer { number: 0, reply: 0, relay: 1, destination: 1, disconnect: false, map: 0, record };
    assert_eq!(sent.answer, relayed);
    assert_eq!(sent.relay, [12]);
}

#[test]
fn case_5_a_candidate_is_taken_modulo_2_to_the_26() {
    let granted = send(&mut relay_with(100, &[0]), 100, 0, &[2, 0]);
    assert_eq!(granted.reply[..6], [3, 1, 0, 0, 0, 1]);
}

#[test]
fn case_6_a_lease_is_live_for_the_term() {
    for (term, last) in [(0, 699), (600, 699), (3_600, 3_699), (86_400, 86_499)] {
        for (now, status) in [(last, 5), (last + 1, 1)] {
            let mut tables = with_open(relay_of_term(100, term), 100, &[0]);
            send(&mut tables, 100, 0, &[2, 0]);
            assert_eq!(establish_with_id_1(&mut tables, now, 0), status);
        }
    }
}

#[test]
fn case_7_refill() {
    for (now, refilled) in [(13, 196_608), (14, 262_144), (15, 262_144)] {
        let mut tables = relay_with(10, &[0]);
        set_allowance(&mut tables, 0, 10);
        assert_eq!(send(&mut tables, now, 0, &[13]).answer.number, 0);
        assert_eq!(level(&tables), refilled - 33);
    }
}

#[test]
fn case_8_the_longest_send() {
    let longest = [11; 65_534];
    for (before, number, after) in [(131_099, 9, 131_099), (131_100, 0, 0)] {
        let mut tables = relay_in_session(100);
        set_allowance(&mut tables, before, 100);
        assert_eq!(send(&mut tables, 100, 0, &longest).answer.number, number);
        assert_eq!(level(&tables), after);
    }
}

#[test]
fn case_9_the_latest_time() {
    for (now, number) in [(TIME_LIMIT - 1, 0), (TIME_LIMIT, 2)] {
        assert_eq!(fresh(&mut relay(0), 0, now, 0).number, number);
        assert_eq!(open(&mut relay(0), 0, now, 0, &mut [0; 64]).number, number);
        assert_eq!(send(&mut relay_with(0, &[0]), now, 0, &[13]).answer.number, number);
        assert_eq!(close(&mut relay_with(0, &[0]), 0, now, 0, &mut [0; 64]).number, number);
    }
}

#[test]
fn case_10_the_opening_reply() {
    let mut reply = [200; 64];
    let answer = open(&mut relay(100), 0, 100, 63, &mut reply);
    let nobody = usize::from(NOBODY);
    let (map, record) = (1 << 63, [0, 0, 0, 0, 0, 0, 0, 100, 63, 0, 0, 0, 0, 0, 0, 45]);
    let opened = Answer { number: 0, reply: 13, relay: 0, destination: nobody, disconnect: false, map, record };
    assert_eq!(answer, opened);
    assert_eq!(reply[..14], [0, 83, 86, 83, 67, 32, 48, 48, 49, 46, 48, 48, 48, 200]);
}

#[test]
fn case_11_an_id_leased_to_nobody() {
    let sent = send(&mut relay_with(100, &[0]), 100, 0, &[6, 0, 0, 0, 5]);
    assert_eq!(sent.reply, [7, 0, 0, 0, 5, 1]);
}

#[test]
fn case_12_the_own_id() {
    let mut tables = relay_with(100, &[1]);
    send(&mut tables, 100, 1, &[2, 0]);
    assert_eq!(establish_with_id_1(&mut tables, 100, 1), 5);
    assert_eq!(establish_with_id_1(&mut relay_in_session(100), 100, 1), 4);
}

#[test]
fn a_refused_call_alters_no_byte() {
    let mut tables = relay_with(100, &[0]);
    set_allowance(&mut tables, LEVEL_LIMIT, 100);
    let before = tables.clone();
    assert_eq!(send(&mut tables, 101, 0, &[9]).answer.number, 8);
    assert_eq!(tables, before);
}
