//! The monitor of the allowances: it accepts the runs of both relays, and notices wrong histories and wrong relays.

use compare::relay::boundary::{Boundary, Call, Kind, Lent, Proved, Second};
use compare::relay::calls::Calls;
use compare::relay::monitor::{assert_retries, Entry, Fault, Monitor};
use compare::relay::runs::{decoded, follow, Followed};
use compare::{amount, forms};
use engine::relay::{Answer, NOBODY, RECORD};
use model::{partner_of, Relay, StoredTerm, LEVEL_LIMIT};

/// Runs of the proved relay and of others, and the calls of each.
const RUNS_OF_PROVED: u64 = 1_000;
const RUNS: u64 = 200;
const CALLS_OF_EACH: usize = 400;

/// Follows runs of the relay until the monitor finds a fault.
fn follow_runs(subject: &impl Boundary, runs: u64) -> Result<Followed, Fault> {
    let mut random = amount::random();
    let pool = forms::pool(&mut random);
    let mut calls = Calls { random: &mut random, pool: &pool };
    let mut followed = Followed::default();
    (0..amount::rounds(runs)).try_for_each(|_| follow(subject, &mut calls, CALLS_OF_EACH, &mut followed))?;
    Ok(followed)
}

fn assert_followed(followed: &Followed, calls: u64) {
    println!("{} calls followed, of these again\n{}", followed.calls, followed.retries);
    assert!(followed.calls >= calls);
    assert_retries(&followed.retries);
    followed.prices.assert_rows();
}

#[test]
fn runs_of_the_proved_relay() -> Result<(), Fault> {
    let followed = follow_runs(&Proved, RUNS_OF_PROVED)?;
    assert_followed(&followed, 400_000);
    followed.prices.assert_at_the_price();
    Ok(())
}

#[test]
fn runs_of_the_second_relay() -> Result<(), Fault> {
    assert_followed(&follow_runs(&Second, RUNS)?, 80_000);
    Ok(())
}

/// A relay that treats the caller's allowance wrongly: given the call, its answer, and the relay before and after.
struct Wrong(fn(&Call, &mut Answer, &Relay, &mut Relay));

impl Boundary for Wrong {
    fn call(&self, call: &Call, lent: &mut Lent) -> Answer {
        let before = decoded(&lent.tables());
        let mut answer = Second.call(call, lent);
        let mut after = decoded(&lent.tables());
        (self.0)(call, &mut answer, &before, &mut after);
        lent.set_tables(&after.encode());
        answer
    }
}

const OPEN_PRICE: u64 = 45;

/// The caller's partner.
fn partner(call: &Call) -> usize {
    call.caller().map_or(0, partner_of)
}

/// Whether it is a keepalive call that is accepted.
fn finds_out(call: &Call, answer: &Answer) -> bool {
    answer.number == 0 && matches!(call.kind, Kind::Keepalive { .. })
}

const WRONG_RELAYS: [Wrong; 10] = [
    // Nothing is charged.
    Wrong(|call, _, before, after| after.allowances[partner(call)] = before.allowances[partner(call)].clone()),
    // One less than the cost is charged.
    Wrong(|call, answer, _, after| {
        if answer.number == 0 && call.is_charged() {
            after.allowances[partner(call)].level += 1;
        }
    }),
    // The session's end is charged.
    Wrong(|call, answer, _, after| {
        if answer.number == 0 && call.message() == [9] {
            let level = &mut after.allowances[partner(call)].level;
            *level = level.saturating_sub(1);
        }
    }),
    // The keepalive call is charged.
    Wrong(|call, answer, _, after| {
        if finds_out(call, answer) {
            let level = &mut after.allowances[partner(call)].level;
            *level = level.saturating_sub(1);
        }
    }),
    // The keepalive call is refused where an open would be.
    Wrong(|call, answer, before, after| {
        if finds_out(call, answer) && before.allowances[partner(call)].level_at(call.now) < OPEN_PRICE {
            answer.number = 9;
            *after = before.clone();
        }
    }),
    // The cookie of a lease request is free.
    Wrong(|call, answer, _, after| {
        if answer.number == 0 && call.message().starts_with(&[2, 1]) {
            after.allowances[partner(call)].level += 24;
        }
    }),
    // A renewal is free.
    Wrong(|call, answer, before, after| {
        let mut rows = before.leases.iter().zip(&after.leases);
        let renewed = rows.any(|(old, new)| old.expiry != new.expiry && old.cookie == new.cookie && old.id == new.id);
        if answer.number == 0 && call.message().starts_with(&[2, 1]) && renewed {
            after.allowances[partner(call)] = before.allowances[partner(call)].clone();
        }
    }),
    // A refused call stores its time without the refill.
    Wrong(|call, answer, _, after| {
        if answer.number == 9 {
            after.allowances[partner(call)].updated = call.now;
        }
    }),
    // A neighbour is charged.
    Wrong(|call, answer, before, after| {
        if answer.number == 0 && call.is_charged() {
            after.allowances[(partner(call) + 1) % 8] = after.allowances[partner(call)].clone();
            after.allowances[partner(call)] = before.allowances[partner(call)].clone();
        }
    }),
    // Every charged call that would be accepted is refused.
    Wrong(|call, answer, before, after| {
        if answer.number == 0 && call.is_charged() {
            answer.number = 9;
            *after = before.clone();
        }
    }),
];

#[test]
fn wrong_relays_are_noticed() {
    for (number, wrong) in WRONG_RELAYS.iter().enumerate() {
        match follow_runs(wrong, RUNS) {
            Ok(_) => panic!("wrong relay {number} is not noticed"),
            Err(fault) => println!("wrong relay {number}: {fault:?}"),
        }
    }
}

/// A send of so many bytes by partner 2, answered with this number.
fn send(now: u64, length: usize, number: u32) -> Entry {
    let (relay, destination) = if number == 0 { (length as u32, 17) } else { (0, NOBODY) };
    let price = Some(32 + 2 * length as u64);
    let answer = Answer { number, reply: 0, relay, destination, disconnect: 0, map: 0, record: [0; RECORD] };
    Entry { now, partner: Some(2), charged: true, price, message: vec![11; length], answer }
}

const LONGEST: usize = 65_534;

/// Partner 2 spends all at 10, is refused, and spends again when it can.
fn history() -> Vec<Entry> {
    vec![
        send(10, LONGEST, 0),
        send(10, LONGEST, 9), // 131,044 are left
        send(10, 65_506, 0),
        send(10, 1, 9),
        send(11, 32_753, 9),  // 65,538, where 65,536 are left
        send(12, LONGEST, 9), // 131,072 are left
        send(13, LONGEST, 0),
    ]
}

/// Checks a history that left partner 2 with this level, and the others with all.
fn check(history: &[Entry], left: u64) -> Result<(), Fault> {
    let mut monitor = Monitor::new(10);
    for entry in history {
        monitor.record(entry)?;
    }
    let mut relay = Relay::fresh(13, StoredTerm::default());
    relay.allowances[2].level = left;
    monitor.check_levels(&relay)
}

const LEFT: u64 = 65_508;

/// The same calls, one thing of them changed.
const WRONG_HISTORIES: [fn(&mut Vec<Entry>); 19] = [
    |history| history[0].answer.number = 9,
    |history| history[1].answer.number = 0,
    |history| history[1].answer.number = 8,
    |history| history[2].answer.number = 9,
    |history| history[3].answer.number = 0,
    |history| history[1].price = None,
    |history| history[5].price = Some(131_072),
    |history| history[0].price = Some(131_099),
    |history| history[0].price = None,
    |history| history[0].answer.relay -= 1,
    |history| history[0].answer.reply += 1,
    |history| history[0].message.push(11),
    |history| history[0].charged = false,
    |history| history[6].now = 12,
    |history| history[4].now = 12,
    |history| history[5].now = 13,
    |history| history[0].partner = Some(3),
    |history| drop(history.remove(2)),
    // What a call cost is what stands in its answer, and not by what it was judged.
    |history| (history[6].price, history[6].answer.relay) = (None, 65_533),
];

#[test]
fn wrong_histories_are_noticed() {
    check(&history(), LEFT).expect("the right history");
    for wrong_level in [LEFT - 1, LEFT + 1, LEVEL_LIMIT] {
        check(&history(), wrong_level).expect_err("a wrong level");
    }
    for (number, change) in WRONG_HISTORIES.iter().enumerate() {
        let mut history = history();
        change(&mut history);
        check(&history, LEFT).expect_err(&format!("wrong history {number}"));
    }
}

#[test]
fn more_than_the_bound_is_noticed() {
    let mut monitor = Monitor::new(10);
    for entry in &history()[..3] {
        monitor.record(entry).expect("the right history");
    }
    // Not one of those that 9 is for, so that the bound alone speaks.
    let more = Entry { price: None, ..send(10, 1, 0) };
    let fault = monitor.record(&more).expect_err("34 more than the bound");
    assert_eq!(format!("{fault:?}"), "partner 2 spent 262178 from 10 to 10");
}

#[test]
fn a_refusal_three_seconds_later_is_noticed() {
    // A price that no call has, so that 9 is right each time and the retry alone speaks.
    let refused = |now| Entry { price: Some(LEVEL_LIMIT + 1), ..send(now, LONGEST, 9) };
    let mut monitor = Monitor::new(10);
    for now in [10, 11, 12] {
        monitor.record(&refused(now)).expect("not yet three seconds later");
    }
    let fault = monitor.record(&refused(13)).expect_err("three seconds later");
    assert!(format!("{fault:?}").starts_with("refused at 10 and still"));
}
