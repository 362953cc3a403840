//! The comparison of explanations can fail: wrong reasons are noticed, and the right ones aren't.

use compare::difference::Difference;
use compare::reasons::boundary::Explain;
use compare::reasons::{agree, truth};
use compare::relay::boundary::{Call, Kind, Lent, Second};
use compare::relay::calls::Calls;
use compare::relay::leases::Asked;
use compare::relay::prices::{row_of, Row};
use compare::relay::runs::decoded;
use compare::relay::single;
use compare::relay::spoiled::SPOILED_BYTES;
use compare::{amount, forms};
use engine::reasons::{Reason, ESTABLISH, LEASE};
use engine::relay::BUFFER;
use model::{partner_of, Condition, Lease, RandomBytes, Relay, State, StoredTerm, Tables, LEVEL_LIMIT, TIME_LIMIT};

/// Explains as the second implementation does, and then spoils something.
#[derive(Clone, Copy)]
struct Spoiled {
    reason: fn(&mut Reason),
    lent: fn(&mut Lent),
}

const UNSPOILED: Spoiled = Spoiled { reason: |_| {}, lent: |_| {} };

impl Explain for Spoiled {
    fn explain(&self, call: &Call, lent: &mut Lent) -> Reason {
        let mut reason = Second.explain(call, lent);
        (self.reason)(&mut reason);
        (self.lent)(lent);
        reason
    }
}

const SPOILED_REASONS: [fn(&mut Reason); 19] = [
    |reason| reason.check += 1,
    |reason| reason.check ^= 9,
    |reason| reason.request ^= 1,
    |reason| reason.condition ^= 1,
    |reason| reason.condition += 1,
    |reason| reason.charged ^= 1,
    |reason| reason.headroom += 1,
    |reason| reason.headroom -= 1,
    |reason| reason.headroom ^= 1 << 32,
    // Fields exchanged.
    |reason| (reason.request, reason.condition) = (reason.condition, reason.request),
    |reason| (reason.check, reason.charged) = (reason.charged, reason.check),
    // The shortfall without its sign, as 32 bits, or cut off at 0.
    |reason| reason.headroom = reason.headroom.abs(),
    |reason| reason.headroom = i64::from(reason.headroom as u32),
    |reason| reason.headroom = reason.headroom.max(0),
    // A headroom of calls that have none, and none of those that can't be paid.
    |reason| {
        if reason.charged == 0 {
            (reason.charged, reason.headroom) = (1, LEVEL_LIMIT as i64);
        }
    },
    |reason| {
        if reason.check == 9 {
            (reason.charged, reason.headroom) = (0, 0);
        }
    },
    // A lease or an establish that can't be paid is decided all the same.
    |reason| {
        if reason.check == 9 {
            reason.request = LEASE;
        }
    },
    |reason| {
        if reason.check == 9 {
            reason.request = ESTABLISH;
        }
    },
    |reason| {
        if reason.check == 9 {
            reason.condition = 1;
        }
    },
];

/// Calls of partner 0 at 100 that are explained in different ways. Of its connections 0 and 1 are in a session, 2 holds
/// id 1, 3 holds nothing, and the others are closed.
fn scenes() -> Vec<(Tables, Call)> {
    let open = |connection| Kind::Open { connection, reply: 64 };
    let close = |connection| Kind::Close { connection, relay: 64 };
    let keepalive = |connection| Kind::Keepalive { connection, reply: 64, relay: 64 };
    let (lease, establish) = ([2, 0], [6, 0, 0, 0, 1]);
    let calls = [
        (LEVEL_LIMIT, open(4)),
        (20, open(4)),
        (LEVEL_LIMIT, open(3)),
        (LEVEL_LIMIT, message(3, &lease)),
        (LEVEL_LIMIT, message(2, &lease)),
        (10, message(3, &lease)),
        (50, message(3, &lease)),
        (50, message(2, &lease)),
        (LEVEL_LIMIT, message(3, &establish)),
        (LEVEL_LIMIT, message(2, &establish)),
        (139, message(3, &establish)),
        (33, message(3, &[13])),
        (0, message(0, &[9])),
        (0, message(3, &[9])),
        (0, close(3)),
        (0, close(4)),
        (0, keepalive(3)),
        (0, keepalive(4)),
    ];
    calls.map(|(level, kind)| (tables_at(level), Call { now: 100, kind })).into()
}

fn message(connection: u64, bytes: &[u8]) -> Kind {
    Kind::Message { connection, message: bytes.to_vec(), random: vec![9; 80], reply: 64, relay: 64 }
}

fn tables_at(level: u64) -> Tables {
    let mut relay = Relay::fresh(100, StoredTerm::default());
    for connection in &mut relay.connections[..4] {
        connection.set_state(State::Open);
    }
    (relay.connections[0].peer, relay.connections[1].peer) = (1, 0);
    (relay.leases[0].expiry, relay.leases[0].id, relay.leases[0].holder) = (101, 1, 2);
    relay.allowances[0].level = level;
    relay.encode()
}

/// What the relay's replies show of a reason: of a lease's condition only whether there is one that fails.
fn shown(mut reason: Reason) -> Reason {
    if reason.request == LEASE {
        reason.condition = reason.condition.min(1);
    }
    reason
}

#[test]
fn a_wrong_reason() {
    for (number, spoil) in SPOILED_REASONS.into_iter().enumerate() {
        let mut noticed = 0;
        for (tables, call) in scenes() {
            let right = agree::explain(&UNSPOILED, &tables, &call).expect("the right reason");
            let mut wrong = right;
            spoil(&mut wrong);
            let told = agree::explain(&Spoiled { reason: spoil, ..UNSPOILED }, &tables, &call);
            assert_eq!(told.is_err(), wrong != right, "way {number}: {wrong:?} for {right:?}");
            let made = truth::check(&Second, &tables, &call, &wrong);
            assert_eq!(made.is_err(), shown(wrong) != shown(right), "way {number}: {wrong:?} for {right:?}");
            noticed += u32::from(made.is_err());
        }
        assert!(noticed > 0, "way {number} spoils nothing");
    }
}

#[test]
fn a_wrong_byte_of_anything_lent() {
    let call = Call { now: 100, kind: message(3, &[13]) };
    for lent in SPOILED_BYTES {
        assert!(agree::explain(&Spoiled { lent, ..UNSPOILED }, &tables_at(33), &call).is_err());
    }
}

/// Explains a call as if it, or the relay, were another: so it overlooks something.
struct Overlooking(Overlook);

type Overlook = fn(&mut Relay, &mut Call);

impl Explain for Overlooking {
    fn explain(&self, call: &Call, lent: &mut Lent) -> Reason {
        let Some(mut relay) = Relay::decode(&lent.tables()) else {
            return Second.explain(call, lent);
        };
        let mut call = call.clone();
        (self.0)(&mut relay, &mut call);
        Second.explain(&call, &mut Lent::new(&relay.encode(), 0, &call))
    }
}

const OVERLOOKED: [(&str, Overlook); 27] = [
    ("what is sent out", |relay, call| misprice(relay, call, |_, received| 32 + received)),
    ("what is received", |relay, call| misprice(relay, call, |row, received| row.price - received)),
    ("that the random bytes aren't received", |relay, call| misprice(relay, call, |row, _| row.price + 80)),
    ("the version message", |relay, call| misprice_row(relay, call, "open", 32)),
    ("that a granted lease is dearer", |relay, call| misprice_row(relay, call, "lease granted", 36)),
    ("that a refused lease is cheaper", |relay, call| misprice_row(relay, call, "lease refused", 72)),
    ("that a renewed lease is granted", |relay, call| misprice_row(relay, call, "lease renewed", 60)),
    ("that a session is dearer", |relay, call| misprice_row(relay, call, "established", 43)),
    ("that a holder is told", |relay, call| misprice_row(relay, call, "established", 91)),
    ("that an extension is dearer", |relay, call| misprice_row(relay, call, "extended", 59)),
    ("the refill", |relay, call| relay.allowances[partner(call)].updated = call.now),
    ("whose allowance it is", |relay, call| relay.allowances[partner(call)] = relay.allowances[0].clone()),
    ("that time doesn't go back", |relay, _| relay.set_clock(0)),
    ("the limit of times", |_, call| call.now = call.now.min(TIME_LIMIT - 1)),
    ("the high bits of a connection", |_, call| cut_connection(&mut call.kind)),
    ("the high bits of a length", |_, call| cut_lengths(&mut call.kind)),
    ("that the relay buffer holds the message", |_, call| hold_message(&mut call.kind)),
    ("how many random bytes there are", |_, call| resize_random(&mut call.kind)),
    ("the last candidate", |_, call| repeat_candidate(&mut call.kind)),
    ("which cookie has to be new", |_, call| draw_the_cookie(&mut call.kind)),
    ("that a lease ends at its expiry", |relay, _| relay.leases.iter_mut().for_each(prolong)),
    ("ids live under another partner", |relay, call| end_leases_but_of(relay, partner(call))),
    ("that both name each other in a session", |relay, call| name_back(relay, call)),
    ("the reply buffer of a keepalive call", |_, call| lengthen_keepalive(&mut call.kind, true)),
    ("the relay buffer of a keepalive call", |_, call| lengthen_keepalive(&mut call.kind, false)),
    ("that no closed connection is asked", |relay, call| change_state(relay, call, State::Closed, State::Open)),
    ("that awaiting connections are asked", |relay, call| change_state(relay, call, State::Awaiting, State::Closed)),
];

/// Takes the call for one of another price, by giving its partner so much more or less.
fn misprice(relay: &mut Relay, call: &Call, price: impl Fn(Row, u64) -> u64) {
    if let (Some(row), true) = (row_of(relay, call), call.now < TIME_LIMIT) {
        let allowance = &mut relay.allowances[partner(call)];
        let wrong = price(row, call.message().len() as u64);
        allowance.level = (allowance.level_at(call.now) + row.price).saturating_sub(wrong);
        allowance.updated = call.now;
    }
}

/// The same, of one outcome alone.
fn misprice_row(relay: &mut Relay, call: &Call, name: &str, wrong: u64) {
    misprice(relay, call, |row, _| if row.name == name { wrong } else { row.price });
}

/// The caller's partner.
fn partner(call: &Call) -> usize {
    call.caller().map_or(0, partner_of)
}

fn cut_connection(kind: &mut Kind) {
    if let Some(connection) = kind.connection_mut() {
        *connection &= 0xffff_ffff;
    }
}

fn cut_lengths(kind: &mut Kind) {
    kind.rooms_mut().into_iter().for_each(|length| *length &= 0xffff_ffff);
}

fn hold_message(kind: &mut Kind) {
    if let Kind::Message { message, relay, .. } = kind {
        *relay = message.len().max(*relay);
    }
}

fn resize_random(kind: &mut Kind) {
    if let Kind::Message { random, .. } = kind {
        random.resize(80, 0);
    }
}

fn repeat_candidate(kind: &mut Kind) {
    if let Kind::Message { random, .. } = kind {
        if random.len() == 80 {
            random.copy_within(72..76, 76);
        }
    }
}

/// Takes the cookie that a lease is asked for with, if there is one, for the drawn one.
fn draw_the_cookie(kind: &mut Kind) {
    if let Kind::Message { message, random, .. } = kind {
        if let ([2, 1, cookie @ ..], Some(drawn)) = (&message[..], random.get_mut(..24)) {
            if cookie.len() == drawn.len() {
                drawn.copy_from_slice(cookie);
            }
        }
    }
}

fn prolong(lease: &mut Lease) {
    lease.expiry = lease.expiry.saturating_add(1);
}

fn end_leases_but_of(relay: &mut Relay, partner: usize) {
    for (row, lease) in relay.leases.iter_mut().enumerate() {
        if row / 16 != partner {
            lease.expiry = 0;
        }
    }
}

fn name_back(relay: &mut Relay, call: &Call) {
    if let Some(caller) = call.caller() {
        let peer = usize::from(relay.connections[caller].peer);
        if let Some(other) = relay.connections.get_mut(peer) {
            other.peer = caller as u8;
        }
    }
}

fn lengthen_keepalive(kind: &mut Kind, the_reply: bool) {
    if let Kind::Keepalive { reply, relay, .. } = kind {
        *(if the_reply { reply } else { relay }) = BUFFER;
    }
}

/// Takes the connection of a keepalive call for one in another state.
fn change_state(relay: &mut Relay, call: &Call, from: State, to: State) {
    if let (Kind::Keepalive { .. }, Some(caller)) = (&call.kind, call.caller()) {
        let record = &mut relay.connections[caller];
        if record.state() == from {
            record.set_state(to);
        }
    }
}

/// Names what is due for a connection as if it were a condition.
struct TellsDue;

impl Explain for TellsDue {
    fn explain(&self, call: &Call, lent: &mut Lent) -> Reason {
        let mut reason = Second.explain(call, lent);
        if let (0, Kind::Keepalive { .. }, Some(caller)) = (reason.check, &call.kind, call.caller()) {
            reason.condition = decoded(&lent.tables()).connections[caller].due(call.now) as u32;
        }
        reason
    }
}

/// Names the last condition of a lease that fails, and not the first.
struct LastCondition;

impl Explain for LastCondition {
    fn explain(&self, call: &Call, lent: &mut Lent) -> Reason {
        let mut reason = Second.explain(call, lent);
        if reason.request == LEASE {
            let relay = decoded(&lent.tables());
            let random = RandomBytes::new(lent.random.lend()).expect("a done lease");
            let offer = relay.offer(call.caller().expect("a done lease"), random, call.now);
            reason.condition = offer.failed().last().map_or(0, |condition| condition as u32);
        }
        reason
    }
}

/// Names no condition of a lease where this one is the first that fails and a row could be renewed.
struct NotToRenew(Condition);

impl Explain for NotToRenew {
    fn explain(&self, call: &Call, lent: &mut Lent) -> Reason {
        let mut reason = Second.explain(call, lent);
        if reason.request == LEASE && reason.condition == self.0 as u32 {
            let relay = decoded(&lent.tables());
            let asked = Asked::new(&relay, call).expect("a done lease");
            reason.condition *= u32::from(asked.row_to_renew().is_none());
        }
        reason
    }
}

/// Explains single calls, as many as the compiled functions do, until a reason is wrong.
fn explain_calls(subject: &impl Explain) -> Result<(), Difference> {
    let mut random = amount::random();
    let pool = forms::pool(&mut random);
    let mut calls = Calls { random: &mut random, pool: &pool };
    single::calls(&mut calls, amount::rounds(60_000), |calls, tables, mut call| {
        calls.lengthen(&mut call);
        agree::explain(subject, tables, &call).map(drop)
    })
}

#[test]
fn what_is_overlooked() {
    for (what, overlook) in OVERLOOKED {
        explain_calls(&Overlooking(overlook)).expect_err(what);
    }
    explain_calls(&LastCondition).expect_err("which condition is the first");
    explain_calls(&TellsDue).expect_err("that a keepalive call has no condition");
}

#[test]
fn conditions_that_a_renewal_could_do_without() {
    for condition in [Condition::HoldsNone, Condition::RowLeft, Condition::CookieIsNew, Condition::FreeId] {
        explain_calls(&NotToRenew(condition)).expect_err("that the conditions are those of any lease");
    }
}
