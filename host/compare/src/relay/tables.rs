//! Tables from anywhere: random bytes, and nearly valid ones whose fields stand at the edges.

use model::{Relay, Tables, ANSWER_TIMEOUT, CONNECTIONS, KEEPALIVE_TIMEOUT, LEASES, LEVEL_LIMIT, PARTNERS, TIME_LIMIT};

use super::prices::ROWS;
use super::terms;
use crate::random::Random;

const CONNECTION_LENGTH: usize = 64;
const LEASE_LENGTH: usize = 40;
const ALLOWANCE_LENGTH: usize = 16;

/// Levels that pay for nothing, and around the limit.
const LEVELS: [u64; 7] = [0, 31, 32, LEVEL_LIMIT - 1, LEVEL_LIMIT, LEVEL_LIMIT + 1, u64::MAX];

/// Ids that come again and again, some of them not below 2^26.
const IDS: [u32; 10] = [0, 1, 2, 3, 4, 5, (1 << 26) - 1, 1 << 26, (1 << 26) + 1, u32::MAX];

/// Tables of the right sizes.
pub fn any(random: &mut Random, now: u64) -> Tables {
    let mut tables = if random.one_in(6) { random_bytes(random) } else { nearly_valid(random, now) };
    // The record behind the partners' allowances.
    tables.allowances.extend(terms::any(random).to_be_bytes());
    tables.allowances.extend(clock_near(random, now).to_be_bytes());
    tables
}

fn random_bytes(random: &mut Random) -> Tables {
    let mut connections = random.bytes(CONNECTIONS * CONNECTION_LENGTH);
    // Else hardly one in a hundred connections were not closed.
    for record in connections.chunks_exact_mut(CONNECTION_LENGTH) {
        record[0] %= 5;
    }
    let leases = random.bytes(LEASES * LEASE_LENGTH);
    Tables { connections, leases, allowances: random.bytes(PARTNERS * ALLOWANCE_LENGTH) }
}

fn nearly_valid(random: &mut Random, now: u64) -> Tables {
    let mut connections: Vec<u8> = (0..CONNECTIONS).flat_map(|number| connection(random, number, now)).collect();
    for _ in 0..random.below(40) {
        name_each_other(random, &mut connections);
    }
    let cookies: [Vec<u8>; 4] = [0, 1, 2, 3].map(|_| random.bytes(24));
    let mut leases: Vec<u8> = (0..PARTNERS).flat_map(|partner| leases_of(random, partner, now, &cookies)).collect();
    repeat_ids(random, &mut leases);
    let allowances = (0..PARTNERS).flat_map(|_| allowance(random, now)).collect();
    Tables { connections, leases, allowances }
}

fn connection(random: &mut Random, number: usize, now: u64) -> Vec<u8> {
    let state = random.mostly(2, &[0, 1, 1, 3, 255]);
    let peer = match random.below(4) {
        0 => 255,
        1 => random.choice(&[number as u8, 64, 254]),
        2 => connection_near(random, number / 8),
        _ => random.byte(),
    };
    let mut record = vec![state, peer];
    record.extend(keepalive_bytes(random, now));
    record.extend(zeros_or_bytes(random, 48));
    record
}

/// Bytes 2 to 15: whether a keepalive is unanswered, and when the connection was last sent something and asked.
fn keepalive_bytes(random: &mut Random, now: u64) -> Vec<u8> {
    let any = random.byte();
    let mut bytes = vec![random.choice(&[0, 0, 1, 1, 1, 2, 255, any])];
    bytes.extend(zeros_or_bytes(random, 1));
    for (limit, other) in [(KEEPALIVE_TIMEOUT, ANSWER_TIMEOUT), (ANSWER_TIMEOUT, KEEPALIVE_TIMEOUT)] {
        let limit = random.mostly(limit, &[other]);
        bytes.extend(&time_near(random, now, limit).to_be_bytes()[3..]);
    }
    bytes.extend(zeros_or_bytes(random, 2));
    bytes
}

/// A time below the limit of times: mostly as long ago as this limit is, or a second more or less; else not so long ago, now
/// or later, longer ago, or any.
fn time_near(random: &mut Random, now: u64, limit: u64) -> u64 {
    let ago = |seconds: u64| now.saturating_sub(seconds);
    let later = [now.saturating_add(1), now.saturating_add(limit), TIME_LIMIT - 1];
    let time = match random.below(9) {
        0..4 => ago(random.choice(&[limit - 1, limit, limit + 1])),
        4 => ago(1 + random.below(limit as usize - 2) as u64),
        5 => now,
        6 => random.choice(&later),
        7 => random.choice(&[0, now / 2, now ^ (1 << 32), ago(2 * limit)]),
        _ => random.number() % TIME_LIMIT,
    };
    time.min(TIME_LIMIT - 1)
}

/// Makes two connections name each other: mostly two of one partner, at times one and the same.
fn name_each_other(random: &mut Random, connections: &mut [u8]) {
    let one = random.below(CONNECTIONS);
    let other = usize::from(connection_near(random, one / 8));
    connections[one * CONNECTION_LENGTH + 1] = other as u8;
    connections[other * CONNECTION_LENGTH + 1] = one as u8;
}

/// A connection, mostly of this partner.
fn connection_near(random: &mut Random, partner: usize) -> u8 {
    let partner = if random.one_in(6) { random.below(PARTNERS) } else { partner };
    (partner * 8 + random.below(8)) as u8
}

/// The partner's rows: none live, some, most or all; and of the others none that was never leased, some or all.
fn leases_of(random: &mut Random, partner: usize, now: u64, cookies: &[Vec<u8>]) -> Vec<u8> {
    let live_percent = random.choice(&[0, 50, 90, 100]);
    let never_leased_percent = random.choice(&[0, 0, 30, 100]);
    let mut rows = Vec::new();
    for _ in 0..LEASES / PARTNERS {
        let live = random.below(100) < live_percent;
        let never_leased = random.below(100) < never_leased_percent;
        rows.extend(expiry(random, now, live, never_leased).to_be_bytes());
        // Half of them stand in one row alone, so that overlooking this row shows; some are not below 2^26.
        let unused_bits = random.choice(&[0, 6, 6, 6]);
        let id = if random.one_in(2) { random.number() as u32 >> unused_bits } else { random.choice(&IDS) };
        rows.extend(id.to_be_bytes());
        rows.push(match random.below(4) {
            0 => 255,
            1 => random.choice(&[64, 128, 254]),
            _ => connection_near(random, partner),
        });
        rows.extend(zeros_or_bytes(random, 3));
        rows.extend(match random.below(3) {
            0 => random.bytes(24),
            _ => cookies[random.below(cookies.len())].clone(),
        });
    }
    rows
}

/// An expiry, mostly near the time; of rows that aren't live several have the same.
fn expiry(random: &mut Random, now: u64, live: bool, never_leased: bool) -> u64 {
    if live {
        let later = [1, 600, 3_600].map(|seconds| now.saturating_add(seconds));
        random.choice(&[later[0], later[1], later[2], TIME_LIMIT + 3_600, u64::MAX])
    } else if never_leased {
        0
    } else {
        random.choice(&[now, now, now.saturating_sub(1), now.saturating_sub(3_600), now / 2])
    }
}

/// Gives rows, some or many, the id of another one, half of these of the same partner. So there are ids that just two
/// rows have.
fn repeat_ids(random: &mut Random, leases: &mut [u8]) {
    let each = LEASES / PARTNERS;
    for _ in 0..random.below(LEASES / 2) {
        let one = random.below(LEASES);
        let partner = if random.one_in(2) { random.below(PARTNERS) } else { one / each };
        let other = partner * each + random.below(each);
        let id = one * LEASE_LENGTH + 8..one * LEASE_LENGTH + 12;
        leases.copy_within(id, other * LEASE_LENGTH + 8);
    }
}

fn allowance(random: &mut Random, now: u64) -> Vec<u8> {
    let level = match random.below(8) {
        0..2 => random.below(300_000) as u64,
        2..5 => random.choice(&ROWS).price + random.below(3) as u64 - 1,
        _ => random.choice(&LEVELS),
    };
    let updated = match random.below(8) {
        0..3 => now,
        3..6 => now.saturating_sub(1 + random.below(5) as u64),
        6 => random.choice(&[0, now.saturating_add(1), now.saturating_add(5)]),
        _ => random.choice(&[TIME_LIMIT, 1 << 63, u64::MAX]),
    };
    [level.to_be_bytes(), updated.to_be_bytes()].concat()
}

/// A latest time at or around this one, mostly not after it.
fn clock_near(random: &mut Random, now: u64) -> u64 {
    let later = [now.saturating_add(1), TIME_LIMIT - 1, TIME_LIMIT, u64::MAX];
    match random.below(12) {
        0 => random.choice(&later),
        1..4 => random.choice(&[0, now.saturating_sub(1), now.saturating_sub(3_600), now / 2]),
        _ => now,
    }
}

fn zeros_or_bytes(random: &mut Random, length: usize) -> Vec<u8> {
    if random.one_in(2) {
        vec![0; length]
    } else {
        random.bytes(length)
    }
}

/// Brings a partner's level at this time to the price, or to one more or less, mostly as far as it can by seconds that
/// have passed.
pub fn set_level_near(random: &mut Random, tables: &mut Tables, partner: usize, now: u64, price: u64) {
    let mut relay = Relay::decode(tables).expect("tables of the right sizes");
    let allowance = &mut relay.allowances[partner];
    let seconds = random.mostly((price - 1) / model::REFILL, &[0]).min(now);
    allowance.level = random.choice(&[price - 1, price, price, price + 1]) - seconds * model::REFILL;
    allowance.updated = now - seconds;
    *tables = relay.encode();
}

/// Gives one of the tables another size.
pub fn resize_one(random: &mut Random, tables: &mut Tables) {
    let table = match random.below(3) {
        0 => &mut tables.connections,
        1 => &mut tables.leases,
        _ => &mut tables.allowances,
    };
    let right = table.len();
    let wrong = [0, 1, right / 2, right - 1, right + 1, 2 * right, right + 16];
    table.resize(random.choice(&wrong), 0);
}
