//! Numbers in words, as several commands print them.

use std::time::{Duration, UNIX_EPOCH};

use peer::grouped;

/// Seconds since 1970 at which years begin to have five digits.
const YEAR_10000: u64 = 253_402_300_800;

/// So many of something, which has an s unless it is one.
pub fn counted(count: u64, what: &str) -> String {
    match count {
        1 => format!("1 {what}"),
        count => format!("{} {what}s", grouped(count)),
    }
}

pub fn units(count: u64) -> String {
    counted(count, "unit")
}

/// A time in seconds and, if it has one, as a date.
pub fn date(time: u64) -> String {
    if time >= YEAR_10000 {
        return time.to_string();
    }
    format!("{time} ({})", humantime::format_rfc3339_seconds(UNIX_EPOCH + Duration::from_secs(time)))
}

/// A connection with its partner, if there is such a connection.
pub fn connection(number: u64, partner: Option<u64>) -> String {
    match partner {
        Some(partner) => format!("connection {number} of partner {partner}"),
        None => format!("connection {number}"),
    }
}
