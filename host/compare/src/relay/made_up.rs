//! Made-up journals: records that no relay need have made, but that don't contradict, and single ones that do in one way.

use model::{partner_of, Contradiction, Entry, Ledger, CONNECTIONS, LEVEL_LIMIT, PARTNERS, TIME_LIMIT};

use super::journals::Journal;
use super::terms;
use crate::random::Random;

/// The most records.
const LONGEST: usize = 24;
/// What the longest send costs, and an open.
const PRICES: [u64; 3] = [1, 45, 131_100];
const STARTS: [u64; 7] = [0, 1, 10, 100, 1 << 32, TIME_LIMIT - 40, TIME_LIMIT - 1];
/// The first bytes of messages that aren't free.
const CHARGED_TYPES: [u8; 6] = [0, 1, 8, 10, 11, 255];

/// The call numbers with type bytes, of a free call and of others.
fn free_call(random: &mut Random) -> (u8, u8) {
    let any = random.byte();
    random.choice(&[(1, 9), (2, 0), (3, 0), (2, 9), (3, any)])
}

fn charged_call(random: &mut Random) -> (u8, u8) {
    let kind = random.choice(&CHARGED_TYPES);
    // The type byte of an open is not looked at.
    random.choice(&[(0, 0), (0, 9), (1, kind), (1, kind), (1, kind)])
}

/// A time from this one on: mostly the same or soon after, at times far later.
fn later(random: &mut Random, time: u64) -> u64 {
    let later = match random.below(12) {
        0 => time + random.number() % (TIME_LIMIT - time),
        1 => TIME_LIMIT - 1 - (random.number() % 4),
        2..6 => time + 1 + random.number() % 5,
        _ => time,
    };
    later.clamp(time, TIME_LIMIT - 1)
}

/// A record that the ledger takes, of one of so many partners.
pub fn right(random: &mut Random, ledger: &Ledger, partners: usize) -> Entry {
    let connection = random.below(partners * CONNECTIONS / PARTNERS) as u8;
    let time = later(random, ledger.latest());
    let level = ledger.level(partner_of(connection.into()), time);
    let is_free = random.one_in(4);
    let (call, kind) = if is_free { free_call(random) } else { charged_call(random) };
    let (answer, charge) = match random.below(8) {
        0 | 1 => (random.choice(&[4, 5, 6, 7, 8]), 0),
        2 | 3 if !is_free => (9, level + random.choice(&[1, 2, 65_536, 131_100])),
        _ if is_free => (0, 0),
        _ => (0, spent(random, level)),
    };
    Entry { time, connection, call, kind, answer, charge: charge as u32 }
}

/// A charge that the level allows, often all of it or nearly.
fn spent(random: &mut Random, level: u64) -> u64 {
    let price = random.choice(&PRICES);
    let charges = [0, price, level / 2, level.saturating_sub(1), level, level];
    random.choice(&charges).min(level)
}

/// A record that contradicts by this clause alone, behind what the ledger has taken. None where there is no such record.
pub fn wrong(random: &mut Random, ledger: &Ledger, clause: Contradiction) -> Option<Entry> {
    let entry = right(random, ledger, PARTNERS);
    let level = ledger.level(partner_of(entry.connection.into()), entry.time) as u32;
    let (call, kind) = charged_call(random);
    let charged = Entry { call, kind, ..entry };
    Some(match clause {
        Contradiction::Connection => Entry { connection: random.choice(&[64, 65, 72, 128, 255]), ..entry },
        Contradiction::Call => Entry { call: random.choice(&[4, 5, 128, 255]), ..entry },
        Contradiction::Answer => Entry { answer: random.choice(&[1, 2, 3, 10, 11, 255]), charge: 0, ..entry },
        Contradiction::TooLate => Entry { time: random.choice(&[TIME_LIMIT, TIME_LIMIT + 1, u64::MAX]), ..entry },
        Contradiction::BelowLatest => Entry { time: below(random, ledger.latest())?, ..entry },
        Contradiction::ChargeForFree => charge_for_free(random, entry, level),
        Contradiction::ChargeWithAnswer => {
            let (answer, charge) = (random.choice(&[4, 5, 6, 7, 8]), random.choice(&[1, 45, level.max(1), u32::MAX]));
            Entry { answer, charge, ..charged }
        }
        Contradiction::AboveLevel => {
            Entry { answer: 0, charge: random.choice(&[level + 1, level + 1, u32::MAX]), ..charged }
        }
        Contradiction::NotAboveLevel if random.one_in(4) => Entry { answer: 9, charge: 0, ..entry },
        Contradiction::NotAboveLevel => {
            Entry { answer: 9, charge: random.choice(&[level, level, level / 2]), ..charged }
        }
        Contradiction::ShortTail => return None,
    })
}

fn below(random: &mut Random, time: u64) -> Option<u64> {
    let last = time.checked_sub(1)?;
    Some(random.choice(&[last, last, time / 2, 0]))
}

/// A charge that the level allows, or one refused with 9 that it doesn't.
fn charge_for_free(random: &mut Random, entry: Entry, level: u32) -> Entry {
    let (call, kind) = free_call(random);
    let (answer, charge) = match level {
        1.. if random.one_in(2) => (0, random.choice(&[1, level])),
        _ => (9, level + random.choice(&[1, LEVEL_LIMIT as u32])),
    };
    Entry { call, kind, answer, charge, ..entry }
}

/// A journal that doesn't contradict.
pub fn journal(random: &mut Random) -> Journal {
    let mut journal = Journal::new(random.choice(&STARTS), terms::accepted(random));
    let mut ledger = Ledger::fresh(journal.start);
    let partners = random.choice(&[1, 1, 2, PARTNERS]);
    for _ in 0..random.below(LONGEST) {
        let entry = right(random, &ledger, partners);
        ledger.take(&entry);
        journal.bytes.extend(entry.bytes());
    }
    journal
}
