//! "A journal we can argue over": the records of calls, and a journal for each clause of what contradicts.

use model::{close, fresh, keepalive, message, open, replay, replay_plain};
use model::{Contradiction, Entry, Refusal, Relay, Replayed, StoredTerm, LEVEL_LIMIT, TIME_LIMIT};

use crate::support::{relay, relay_in_session, relay_with, send, set_allowance, RANDOM};

const START: u64 = 100;

/// A done open of connection 5 at the start, which costs nothing.
const FREE: Entry = Entry { time: START, connection: 5, call: 0, kind: 0, answer: 0, charge: 0 };

/// The rest of a record that begins with the time 100.
fn at_100(rest: [u8; 8]) -> [u8; 16] {
    let mut record = [0; 16];
    record[..8].copy_from_slice(&START.to_be_bytes());
    record[8..].copy_from_slice(&rest);
    record
}

#[test]
fn records_of_each_call() {
    let mut tables = relay(START);
    assert_eq!(open(&mut tables, 0, START, 5, &mut [0; 64]).record, at_100([5, 0, 0, 0, 0, 0, 0, 45]));
    assert_eq!(send(&mut tables, START, 5, &[]).answer.record, at_100([5, 1, 0, 6, 0, 0, 0, 0]));
    assert_eq!(send(&mut tables, START, 5, &[1, 1]).answer.record, at_100([5, 1, 1, 0, 0, 0, 0, 34]));
    assert_eq!(send(&mut tables, START, 5, &[2, 0]).answer.record, at_100([5, 1, 2, 0, 0, 0, 0, 72]));
    let checked = keepalive(&mut tables, 0, START, 5, &mut [0; 64], &mut [0; 64]);
    assert_eq!(checked.record, at_100([5, 3, 0, 0, 0, 0, 0, 0]));
    assert_eq!(close(&mut tables, 0, START, 5, &mut [0; 64]).record, at_100([5, 2, 0, 0, 0, 0, 0, 0]));
}

#[test]
fn sends_and_a_session_s_end() {
    let mut tables = relay_in_session(START);
    assert_eq!(send(&mut tables, START, 0, &[11, 7, 8]).answer.record, at_100([0, 1, 11, 0, 0, 0, 0, 38]));
    assert_eq!(send(&mut tables, START, 0, &[9]).answer.record, at_100([0, 1, 9, 0, 0, 0, 0, 0]));
}

#[test]
fn the_type_byte_of_a_refused_message() {
    let mut tables = relay_with(START, &[0]);
    let mut closed = relay(START);
    assert_eq!(send(&mut closed, START, 0, &[200]).answer.record, at_100([0, 1, 200, 4, 0, 0, 0, 0]));
    let (mut reply, mut relay) = ([0; 63], [0; 64]);
    let short = message(&mut tables, 0, START, 0, &[255], &RANDOM, &mut reply, &mut relay);
    assert_eq!(short.record, at_100([0, 1, 255, 5, 0, 0, 0, 0]));
    assert_eq!(send(&mut tables, START, 0, &[14]).answer.record, at_100([0, 1, 14, 6, 0, 0, 0, 0]));
    assert_eq!(send(&mut tables, START, 0, &[1, 1]).answer.record, at_100([0, 1, 1, 7, 0, 0, 0, 0]));
    assert_eq!(send(&mut tables, START, 0, &[9]).answer.record, at_100([0, 1, 9, 8, 0, 0, 0, 0]));
}

#[test]
fn the_price_that_was_too_high() {
    let mut tables = relay_with(START, &[0]);
    set_allowance(&mut tables, 71, START);
    assert_eq!(send(&mut tables, START, 0, &[2, 0]).answer.record, at_100([0, 1, 2, 9, 0, 0, 0, 72]));
    set_allowance(&mut tables, 44, START);
    assert_eq!(open(&mut tables, 0, START, 7, &mut [0; 64]).record, at_100([7, 0, 0, 9, 0, 0, 0, 45]));
}

#[test]
fn no_record() {
    let mut tables = relay(START);
    for (now, connection, number) in [(START - 1, 5, 2), (TIME_LIMIT, 5, 2), (START, 64, 3), (START, u64::MAX, 3)] {
        let answer = open(&mut tables, 0, now, connection, &mut [0; 64]);
        assert_eq!((answer.number, answer.record), (number, [0; 16]));
    }
    let mut short = tables.clone();
    short.leases.pop();
    assert_eq!(open(&mut short, 0, START, 5, &mut [0; 64]).record, [0; 16]);
    assert_eq!(fresh(&mut short, 0, START, 0).record, [0; 16]);
    for (now, term, number) in [(START, 0, 0), (TIME_LIMIT, 0, 2), (START, 599, 6)] {
        let answer = fresh(&mut tables, 0, now, term);
        assert_eq!((answer.number, answer.record), (number, [0; 16]));
    }
}

fn journal(entries: &[Entry]) -> Vec<u8> {
    entries.iter().flat_map(Entry::bytes).collect()
}

/// What both ways say, from a start at 100, and what the first of them writes.
fn replayed(journal: &[u8]) -> (Replayed, Vec<u8>) {
    let (mut allowances, mut plain) = (vec![7; 144], vec![7; 144]);
    let verdict = replay(&mut allowances, journal, START, 0);
    assert_eq!(replay_plain(&mut plain, journal, START, 0), verdict);
    if verdict != Replayed::Agrees {
        assert_eq!((&allowances, &plain), (&vec![7; 144], &vec![7; 144]), "nothing is written");
    }
    (verdict, allowances)
}

/// Each clause alone, in a record behind one that is free, with a place before and behind where there is no contradiction.
#[test]
fn each_clause() {
    use Contradiction::*;
    let level = LEVEL_LIMIT as u32;
    let clauses = [
        (Connection, Entry { connection: 64, ..FREE }, Entry { connection: 63, ..FREE }),
        (Call, Entry { call: 4, ..FREE }, Entry { call: 3, ..FREE }),
        (Answer, Entry { answer: 1, ..FREE }, FREE),
        (Answer, Entry { answer: 3, ..FREE }, Entry { answer: 4, ..FREE }),
        (Answer, Entry { answer: 10, ..FREE }, Entry { answer: 8, ..FREE }),
        (TooLate, Entry { time: TIME_LIMIT, ..FREE }, Entry { time: TIME_LIMIT - 1, ..FREE }),
        (BelowLatest, Entry { time: START - 1, ..FREE }, Entry { time: START, ..FREE }),
        (BelowLatest, Entry { time: START - 1, answer: 4, ..FREE }, Entry { answer: 4, ..FREE }),
        (ChargeForFree, Entry { call: 2, charge: 1, ..FREE }, Entry { call: 2, ..FREE }),
        (ChargeForFree, Entry { call: 3, charge: 1, ..FREE }, Entry { call: 0, charge: 1, kind: 9, ..FREE }),
        (ChargeForFree, Entry { call: 1, kind: 9, charge: 1, ..FREE }, Entry { call: 1, kind: 8, charge: 1, ..FREE }),
        (ChargeWithAnswer, Entry { answer: 4, charge: 1, ..FREE }, Entry { charge: 1, ..FREE }),
        (AboveLevel, Entry { charge: level + 1, ..FREE }, Entry { charge: level, ..FREE }),
        (NotAboveLevel, Entry { answer: 9, charge: level, ..FREE }, Entry { answer: 9, charge: level + 1, ..FREE }),
        (NotAboveLevel, Entry { answer: 9, ..FREE }, Entry { answer: 9, charge: u32::MAX, ..FREE }),
    ];
    for (clause, wrong, right) in clauses {
        let contradicted = Replayed::Contradicted { place: 16, by: vec![clause] };
        assert_eq!(replayed(&journal(&[FREE, wrong, FREE])).0, contradicted, "{}: {wrong:?}", clause.words());
        assert_eq!(replayed(&journal(&[FREE, right])).0, Replayed::Agrees, "{}: {right:?}", clause.words());
    }
}

#[test]
fn what_is_left_at_the_end() {
    for left in 1..16 {
        let bytes = [&journal(&[FREE, FREE])[..], &vec![0; left]].concat();
        let by = vec![Contradiction::ShortTail];
        assert_eq!(replayed(&bytes).0, Replayed::Contradicted { place: 32, by }, "{left}");
    }
}

#[test]
fn what_is_written() {
    let (verdict, allowances) = replayed(&[]);
    assert_eq!(verdict, Replayed::Agrees);
    assert_eq!(allowances, Relay::fresh(START, StoredTerm(600)).encode().allowances);
    let entries = [Entry { charge: 45, ..FREE }, Entry { time: 102, answer: 4, ..FREE }, Entry { time: 101, ..FREE }];
    let mut expected = Relay::fresh(START, StoredTerm(600));
    expected.allowances[0].level -= 45;
    expected.set_clock(101);
    assert_eq!(replayed(&journal(&entries)), (Replayed::Agrees, expected.encode().allowances));
}

/// The plain way fills levels once for each second, but not for all the seconds that there are.
#[test]
fn times_far_apart() {
    let spend = Entry { charge: LEVEL_LIMIT as u32, ..FREE };
    let entries: Vec<Entry> =
        (0..40).map(|place| Entry { time: START + (TIME_LIMIT - START - 1) / 40 * place, ..spend }).collect();
    let last = Entry { time: TIME_LIMIT - 1, ..spend };
    assert_eq!(replayed(&journal(&[&entries[..], &[last]].concat())).0, Replayed::Agrees);
}

#[test]
fn starts_refused_before_the_journal_is_looked_at() {
    let refused = [
        (143, TIME_LIMIT, 1, Refusal::TableSize),
        (145, START, 0, Refusal::TableSize),
        (144, TIME_LIMIT, 1, Refusal::Time),
        (144, START, 1, Refusal::Invalid),
        (144, START, 86_401, Refusal::Invalid),
    ];
    for (length, start, term, refusal) in refused {
        for replay in [replay, replay_plain] {
            let mut allowances = vec![7; length];
            assert_eq!(replay(&mut allowances, &[255; 17], start, term), Replayed::Refused(refusal));
            assert_eq!(allowances, vec![7; length]);
        }
    }
}
