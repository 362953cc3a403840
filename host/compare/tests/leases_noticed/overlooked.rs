//! What a relay could overlook that leases.

use model::{partner_of, Condition, Part, LEASES, NOBODY};

use crate::leasing::{ChooseRow, IsAccepted, IsRenewable, Spoil, RIGHT};

/// Something that a relay overlooks, whether runs from a fresh relay often come to where that shows, and what it does
/// instead.
pub type Overlooked<T> = (&'static str, bool, T);

pub const WRONG_RENEWABLE: [Overlooked<IsRenewable>; 20] = [
    ("the request's cookie", true, |_, _| false),
    ("a row's cookie", true, |asked, row| asked.lacks_at_most(row, Part::Cookie)),
    ("whose row it is", true, |asked, row| asked.failed_parts(row).is_empty()),
    ("that a row must have been leased", true, |asked, row| asked.lacks_at_most(row, Part::Expiry)),
    ("holders", true, |asked, row| asked.lacks_at_most(row, Part::Holder)),
    ("that not every holder counts", false, |asked, row| {
        asked.is_renewable(row) && !(asked.is_live(row) && asked.lease(row).holder != NOBODY)
    }),
    ("that a holder must be open", false, |asked, row| {
        let holder = usize::from(asked.lease(row).holder);
        asked.is_renewable(row) && !(asked.is_live(row) && partner_of(holder) == partner_of(asked.caller))
    }),
    ("that a holder must be of the partner", false, |asked, row| {
        let holder = usize::from(asked.lease(row).holder);
        asked.is_renewable(row) && !(asked.is_live(row) && asked.relay.is_open(holder))
    }),
    ("that a holder loses its row with the expiry", true, |asked, row| asked.is_renewable(row) && !asked.is_held(row)),
    ("that a holder has lost its row at the expiry", true, |asked, row| {
        asked.is_renewable(row) && !(asked.expires_in(row, 0) && asked.is_held(row))
    }),
    ("that a holder has its row up to the expiry", false, |asked, row| {
        asked.is_renewable(row) || (asked.lacks_at_most(row, Part::Holder) && asked.expires_in(row, 1))
    }),
    ("ids", true, |asked, row| asked.lacks_at_most(row, Part::Id)),
    ("ids of the partner's other rows", true, |asked, row| {
        asked.lacks_at_most(row, Part::Id) && asked.others_with_id(row).all(|other| asked.is_own(other))
    }),
    ("ids of other partners' rows", true, |asked, row| {
        asked.lacks_at_most(row, Part::Id) && !asked.others_with_id(row).any(|other| asked.is_own(other))
    }),
    ("that the row itself has its id", true, |asked, row| asked.is_renewable(row) && !asked.is_live(row)),
    ("that an id is free at the expiry", false, |asked, row| {
        let has_id = |other: &usize| *other != row && asked.lease(*other).id == asked.lease(row).id;
        asked.is_renewable(row) && !(0..LEASES).filter(has_id).any(|other| asked.expires_in(other, 0))
    }),
    ("that an id is taken up to the expiry", false, |asked, row| {
        asked.lacks_at_most(row, Part::Id) && asked.others_with_id(row).all(|other| asked.expires_in(other, 1))
    }),
    ("rows above one with the cookie", true, |asked, row| {
        asked.is_renewable(row) && !(0..row).any(|lower| asked.is_own(lower) && asked.has_cookie(lower))
    }),
    ("rows above one leased with the cookie", true, |asked, row| {
        let leased = |&lower: &usize| asked.is_own(lower) && asked.lease(lower).expiry > 0;
        asked.is_renewable(row) && !(0..row).filter(leased).any(|lower| asked.has_cookie(lower))
    }),
    ("ids that are not below 2^26", false, |asked, row| asked.is_renewable(row) && asked.lease(row).id < 1 << 26),
];

pub const WRONG_RENEWED: [Overlooked<ChooseRow>; 4] = [
    ("that the lowest is renewed and not the highest", true, |_, rows| *rows.last().expect("a row")),
    ("that the lowest is renewed, expired or not", false, |asked, rows| least(rows, |row| !asked.is_live(row))),
    ("that the lowest is renewed, live or not", false, |asked, rows| least(rows, |row| asked.is_live(row))),
    ("that the lowest is renewed and not the earliest", false, |asked, rows| {
        least(rows, |row| asked.lease(row).expiry)
    }),
];

pub const WRONG_ACCEPTED: [Overlooked<IsAccepted>; 6] = [
    ("who holds one already", true, |asked, renewed| asked.accepted_without(Condition::HoldsNone, renewed)),
    ("that a row must be left", true, |asked, renewed| asked.accepted_without(Condition::RowLeft, renewed)),
    ("that the drawn cookie must be new", true, |asked, renewed| {
        asked.accepted_without(Condition::CookieIsNew, renewed)
    }),
    ("that an id must be free", true, |asked, renewed| asked.accepted_without(Condition::FreeId, renewed)),
    ("that a cookie may be nobody's", true, |asked, renewed| {
        (RIGHT.accepted)(asked, renewed) && asked.cookie.is_some() == renewed.is_some()
    }),
    ("that a row may be live", true, |asked, renewed| {
        (RIGHT.accepted)(asked, renewed) && !renewed.is_some_and(|row| asked.is_live(row))
    }),
];

pub const WRONG_NEW: [Overlooked<ChooseRow>; 5] = [
    ("expiries", true, |_, rows| rows[0]),
    ("that the earliest is taken and not the latest", true, |asked, rows| {
        least(rows, |row| u64::MAX - asked.lease(row).expiry)
    }),
    ("that on a tie the lowest is taken", true, |asked, rows| {
        least(rows, |row| (asked.lease(row).expiry, LEASES - row))
    }),
    ("that rows never leased come first", true, |asked, rows| {
        least(rows, |row| asked.lease(row).expiry.wrapping_sub(1))
    }),
    ("that it is the same without a cookie", true, |asked, rows| match asked.cookie {
        Some(_) => (RIGHT.new)(asked, rows),
        None => rows[0],
    }),
];

/// The row with the least key, the lowest on a tie.
fn least<K: Ord>(rows: &[usize], key: impl Fn(usize) -> K) -> usize {
    *rows.iter().min_by_key(|&&row| key(row)).expect("a row")
}

pub const SPOILED_RENEWALS: [Overlooked<Spoil>; 13] = [
    ("that bytes 13 to 15 stay", false, |_, row, rows, _| rows[row][13..16].fill(0)),
    ("that the cookie stays", true, |asked, row, rows, reply| {
        rows[row][16..].copy_from_slice(&asked.random().cookie());
        reply[6..30].copy_from_slice(&asked.random().cookie());
    }),
    ("that the row's cookie stays", true, |asked, row, rows, _| {
        rows[row][16..].copy_from_slice(&asked.random().cookie())
    }),
    ("that the reply has the old cookie", true, |asked, _, _, reply| {
        reply[6..30].copy_from_slice(&asked.random().cookie())
    }),
    ("that the reply has the old id", true, |asked, _, _, reply| {
        reply[2..6].copy_from_slice(&asked.offer().id.expect("a free candidate").to_be_bytes());
    }),
    ("that an id of 2^26 or more stays", false, |_, row, rows, _| rows[row][8] &= 3),
    ("the new holder", true, |asked, row, rows, _| rows[row][12] = asked.lease(row).holder),
    ("the new expiry", true, |asked, row, rows, _| {
        rows[row][..8].copy_from_slice(&asked.lease(row).expiry.to_be_bytes())
    }),
    ("that the reply has the new expiry", true, |asked, row, _, reply| {
        reply[30..].copy_from_slice(&asked.lease(row).expiry.to_be_bytes());
    }),
    ("that the expiry is not added to", true, |asked, row, rows, _| {
        let left = asked.lease(row).expiry.saturating_sub(asked.now);
        rows[row][..8].copy_from_slice(&asked.expiry().wrapping_add(left).to_be_bytes());
    }),
    ("that no new row is used", true, |asked, _, rows, _| {
        let row = RIGHT.write_new(asked, rows);
        rows[row][..8].copy_from_slice(&asked.expiry().to_be_bytes());
    }),
    ("that the caller's other rows stay", true, |asked, row, rows, _| {
        let others = rows.iter_mut().enumerate().filter(|&(other, _)| other != row && asked.is_own(other));
        others.filter(|(_, bytes)| usize::from(bytes[12]) == asked.caller).for_each(|(_, bytes)| bytes[12] = NOBODY);
    }),
    ("that other rows with the cookie stay", true, |asked, row, rows, _| {
        let cookie = asked.lease(row).cookie;
        let others = rows.iter_mut().enumerate().filter(|&(other, _)| other != row && asked.is_own(other));
        others.filter(|(_, bytes)| bytes[16..] == cookie).for_each(|(_, bytes)| bytes[..8].fill(0));
    }),
];
