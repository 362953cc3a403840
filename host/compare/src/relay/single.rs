//! Single calls, on tables from anywhere.

use model::{Relay, Tables};

use super::boundary::Call;
use super::calls::Calls;
use super::tables;
use crate::difference::Difference;

const CALLS_ON_EACH: u64 = 12;

/// Takes so many calls, at least, each with the tables that it is to be made on.
pub fn calls(
    calls: &mut Calls,
    number: u64,
    mut take: impl FnMut(&mut Calls, &Tables, Call) -> Result<(), Difference>,
) -> Result<(), Difference> {
    for _ in 0..number.div_ceil(CALLS_ON_EACH) {
        let now = calls.time();
        let tables = tables::any(calls.random, now);
        let relay = Relay::decode(&tables).expect("tables of the right sizes");
        for _ in 0..CALLS_ON_EACH {
            let call = calls.any(&relay, now);
            let varied = calls.varied(&tables, &relay, &call);
            take(calls, &varied, call)?;
        }
    }
    Ok(())
}
