//! Journals that something has happened to.

use model::{Contradiction, Entry, Ledger, Record, PARTNERS, TIME_LIMIT};

use super::journals::Journal;
use super::made_up;
use crate::random::Random;

/// The bytes of a record.
pub const RECORD: usize = Entry::LENGTH;

/// Values that a byte is changed to as often as to any: those next to where fields are out of range.
const EDGES: [u8; 14] = [0, 1, 2, 3, 4, 8, 9, 10, 63, 64, 127, 128, 254, 255];

/// What happens to a journal, given another one.
pub type Damage = fn(&mut Random, &mut Journal, &Journal);

/// All that can happen, and which verdicts it must come to: 0 if it isn't contradicted, 1 if it is.
pub const DAMAGES: [(&str, &[u32], Damage); 15] = [
    ("nothing", &[0], |_, _, _| {}),
    ("a byte changed", &[0, 1], change_byte),
    ("a bit changed", &[0, 1], change_bit),
    ("several bytes changed", &[0, 1], |random, journal, _| {
        (0..1 + random.below(5)).for_each(|_| change(journal, random, |random, _| random.byte()))
    }),
    ("a time changed", &[0, 1], change_time),
    ("a charge changed by one", &[0, 1], change_charge),
    ("cut", &[0, 1], |random, journal, _| journal.bytes.truncate(random.below(journal.bytes.len() + 1))),
    ("bytes left at the end", &[1], |random, journal, _| leave_tail(random, journal)),
    ("bytes left out", &[0, 1], leave_out_bytes),
    ("two records swapped", &[0, 1], swap),
    ("a record left out", &[0, 1], leave_out),
    ("a record twice", &[0, 1], repeat),
    ("joined", &[0, 1], |_, journal, other| journal.bytes.extend(&other.bytes)),
    ("one inserted that is right", &[0, 1], |random, journal, _| {
        insert(random, journal, |random, ledger| Some(made_up::right(random, ledger, PARTNERS)));
    }),
    ("one inserted that is wrong", &[1], |random, journal, _| {
        let clause = random.choice(&Contradiction::ALL);
        insert(random, journal, |random, ledger| made_up::wrong(random, ledger, clause));
    }),
];

/// Appends fewer bytes than a record has.
fn leave_tail(random: &mut Random, journal: &mut Journal) {
    let length = 1 + random.below(RECORD - 1);
    journal.bytes.extend(random.bytes(length));
}

/// A place at which a record begins, if there is one.
fn record(random: &mut Random, journal: &Journal) -> Option<usize> {
    let records = journal.bytes.len() / RECORD;
    (records > 0).then(|| RECORD * random.below(records))
}

/// Changes any byte.
fn change(journal: &mut Journal, random: &mut Random, to: fn(&mut Random, u8) -> u8) {
    if let Some(place) = record(random, journal) {
        let byte = &mut journal.bytes[place + random.below(RECORD)];
        *byte = to(random, *byte);
    }
}

fn change_byte(random: &mut Random, journal: &mut Journal, _: &Journal) {
    change(journal, random, |random, _| if random.one_in(2) { random.byte() } else { random.choice(&EDGES) });
}

fn change_bit(random: &mut Random, journal: &mut Journal, _: &Journal) {
    change(journal, random, |random, byte| byte ^ 1 << random.below(8));
}

/// Changes a field of a record.
fn edit(random: &mut Random, journal: &mut Journal, change: impl FnOnce(&mut Random, &mut Entry)) {
    if let Some(place) = record(random, journal) {
        let bytes = &mut journal.bytes[place..][..RECORD];
        let mut entry = Entry::decode(bytes);
        change(random, &mut entry);
        bytes.copy_from_slice(&entry.bytes());
    }
}

fn change_time(random: &mut Random, journal: &mut Journal, _: &Journal) {
    edit(random, journal, |random, entry| {
        let time = entry.time;
        let after = |seconds| time.wrapping_add(seconds);
        entry.time = random.choice(&[after(u64::MAX), after(1), after(4), TIME_LIMIT - 1, TIME_LIMIT, time | 1 << 39]);
    });
}

fn change_charge(random: &mut Random, journal: &mut Journal, _: &Journal) {
    edit(random, journal, |random, entry| {
        entry.charge = random.choice(&[entry.charge.wrapping_sub(1), entry.charge.wrapping_add(1)]);
    });
}

/// Up to two records' bytes, from anywhere on.
fn leave_out_bytes(random: &mut Random, journal: &mut Journal, _: &Journal) {
    let from = random.below(journal.bytes.len() + 1);
    let until = journal.bytes.len().min(from + random.below(2 * RECORD + 1));
    journal.bytes.drain(from..until);
}

fn swap(random: &mut Random, journal: &mut Journal, _: &Journal) {
    if let (Some(one), Some(other)) = (record(random, journal), record(random, journal)) {
        (0..RECORD).for_each(|byte| journal.bytes.swap(one + byte, other + byte));
    }
}

fn leave_out(random: &mut Random, journal: &mut Journal, _: &Journal) {
    if let Some(place) = record(random, journal) {
        journal.bytes.drain(place..place + RECORD);
    }
}

/// Behind itself, or at the end.
fn repeat(random: &mut Random, journal: &mut Journal, _: &Journal) {
    if let Some(place) = record(random, journal) {
        let bytes = journal.bytes[place..][..RECORD].to_vec();
        let to = random.choice(&[place, journal.bytes.len()]);
        journal.bytes.splice(to..to, bytes);
    }
}

/// What the records before this place have come to, or before the first one that contradicts.
fn ledger_at(journal: &Journal, place: usize) -> Ledger {
    let mut ledger = Ledger::fresh(journal.start);
    for entry in journal.entries().take(place / RECORD) {
        if !ledger.contradictions(&entry).is_empty() {
            break;
        }
        ledger.take(&entry);
    }
    ledger
}

/// Inserts a record between others, or replaces one, or appends it. Where there is no such record, a tail is left instead.
fn insert(random: &mut Random, journal: &mut Journal, make: impl FnOnce(&mut Random, &Ledger) -> Option<Entry>) {
    let end = journal.bytes.len() / RECORD * RECORD;
    let place = record(random, journal).filter(|_| !random.one_in(3)).unwrap_or(end);
    let Some(entry) = make(random, &ledger_at(journal, place)) else {
        return leave_tail(random, journal);
    };
    let replaced = random.choice(&[0, RECORD]);
    journal.bytes.splice(place..(place + replaced).min(end), entry.bytes());
}
