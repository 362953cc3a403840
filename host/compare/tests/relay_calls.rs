//! The relay's functions, by single calls on tables from anywhere.

use compare::difference::Difference;
use compare::relay::boundary::Proved;
use compare::relay::calls::Calls;
use compare::relay::compared::CALLS;
use compare::relay::reached::Reached;
use compare::relay::{agree, keepalives, leases, maps, single};
use compare::{amount, forms};

#[test]
fn calls_on_tables_from_anywhere() -> Result<(), Difference> {
    let mut random = amount::random();
    let mut reached = Reached::default();
    let pool = forms::pool(&mut random);
    let mut calls = Calls { random: &mut random, pool: &pool };
    single::calls(&mut calls, amount::rounds(CALLS), |calls, tables, mut call| {
        calls.start_instead(&mut call);
        let map = maps::any(calls.random, tables);
        let outcome = agree::call(&Proved, tables, map, &call)?;
        reached.count(tables, &call, &outcome);
        Ok(())
    })?;
    let answers: [(_, &[u32]); 5] = [
        ("fresh", &[0, 1, 2, 6]),
        ("open", &[0, 1, 2, 3, 4, 5, 9]),
        ("message", &[0, 1, 2, 3, 4, 5, 6, 7, 8, 9]),
        ("close", &[0, 1, 2, 3, 4, 5]),
        ("keepalive", &[0, 1, 2, 3, 4, 5]),
    ];
    let keepalives = [&keepalives::CALLS_ON_ANY_TABLES[..], &keepalives::SENT_ON_ANY_TABLES].concat();
    reached.assert_all(&answers, &leases::ON_ANY_TABLES, &keepalives);
    reached.prices.assert_at_the_price();
    reached.terms.assert_starts();
    Ok(())
}
