//! What a call costs, to the unit: 32, the bytes received and the bytes sent.

use std::fs;

use codec::{encode, Message};
use tempfile::TempDir;

use crate::allowance::{session, waits};
use crate::clocks::Standing;
use crate::support::{Relay, Socket};

/// The most data that a message has. It costs 131,100.
pub static LONGEST: [u8; 65_533] = [7; 65_533];
/// What two connections cost, of which one has a lease: opens (45 each), answers (34) and the lease (72).
const HOLDER: u64 = 2 * (45 + 34) + 72;
/// Likewise two in session, which is established for 140.
pub const SESSION: u64 = HOLDER + 140;

/// A relay that has begun with so many units for partner 0, by its state, and whose clock stands.
struct Poor {
    clock: Standing,
    relay: Relay,
    _folder: TempDir,
}

impl Poor {
    fn start(level: u64) -> Self {
        let (clock, folder) = (Standing::from(1_000), tempfile::tempdir().expect("a folder"));
        let file = folder.path().join("state");
        let start = || Relay::with_settings(clock.clone(), |settings| settings.state = Some(file.clone()));
        start().stop();
        let mut tables = fs::read(&file).expect("a state");
        // The allowances are the last table.
        let place = tables.len() - 144;
        tables[place..][..8].copy_from_slice(&level.to_be_bytes());
        fs::write(&file, tables).expect("a state");
        Self { relay: start(), clock, _folder: folder }
    }

    /// Nothing is left to partner 0, whose first connection this is.
    fn assert_used_up(&self, first: &mut Socket) {
        first.send(Message::Keepalive);
        self.relay.await_line(&waits(0, 33));
    }
}

#[test]
fn the_longest_message_needs_its_last_unit() {
    for missing in [1, 0] {
        let poor = Poor::start(SESSION + 131_100 - missing);
        let (mut caller, mut holder) = session(&poor.relay);
        caller.send(Message::DataSend { data: &LONGEST });
        if missing > 0 {
            poor.relay.await_line(&waits(0, missing));
            assert!(holder.is_quiet());
            poor.clock.advance(1);
        }
        assert_eq!(holder.receive(), encode(&Message::DataReceive { data: &LONGEST }));
        if missing == 0 {
            poor.assert_used_up(&mut caller);
        }
    }
}

#[test]
fn three_seconds_pay_for_the_longest_message() {
    let poor = Poor::start(SESSION);
    let (mut caller, mut holder) = session(&poor.relay);
    caller.send(Message::DataSend { data: &LONGEST });
    poor.relay.await_line(&waits(0, 131_100));
    for _ in 0..2 {
        poor.clock.pass(1);
        assert!(holder.is_quiet());
    }
    poor.clock.pass(1);
    assert_eq!(holder.receive(), encode(&Message::DataReceive { data: &LONGEST }));
    // They leave 65,508.
    let rest = &LONGEST[..65_476 / 2 - 1];
    caller.send(Message::DataSend { data: rest });
    assert_eq!(holder.receive(), encode(&Message::DataReceive { data: rest }));
    poor.assert_used_up(&mut caller);
}

#[test]
fn a_session_that_is_refused_costs_less_than_one_that_is_established() {
    let poor = Poor::start(HOLDER + 2 * 43);
    let (mut caller, mut holder) = (poor.relay.peer(0), poor.relay.peer(0));
    let id = holder.lease();
    caller.send(Message::EstablishRequest { id: id ^ 1 });
    assert_eq!(caller.receive(), encode(&Message::EstablishRefused { id: id ^ 1, status: 1 }));
    // What is left would pay for another.
    caller.send(Message::EstablishRequest { id });
    poor.relay.await_line(&waits(0, 140 - 43));
    assert!(caller.is_quiet() && holder.is_quiet());
    poor.clock.advance(1);
    assert_eq!(caller.receive().expect("an answer")[..6], [&[7][..], &id.to_be_bytes(), &[0]].concat());
    assert_eq!(holder.receive().expect("a notification").len(), 49);
}

#[test]
fn a_session_is_paid_to_the_unit() {
    let poor = Poor::start(SESSION);
    let (mut caller, _holder) = session(&poor.relay);
    poor.assert_used_up(&mut caller);
}

#[test]
fn a_lease_that_is_refused_costs_less_than_one_that_is_granted() {
    let poor = Poor::start(HOLDER + 36 + 50);
    let (mut caller, mut holder) = (poor.relay.peer(0), poor.relay.peer(0));
    holder.lease();
    holder.send(Message::LeaseRequest);
    assert_eq!(holder.receive(), encode(&Message::LeaseRefused), "it has one");
    caller.send(Message::LeaseRequest);
    poor.relay.await_line(&waits(0, 72 - 50));
    assert!(caller.is_quiet());
    poor.clock.advance(1);
    assert_eq!(caller.receive().map(|answer| answer.len()), Some(38));
}
