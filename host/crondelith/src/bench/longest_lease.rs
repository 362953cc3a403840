//! The longest searches of a lease, each against a lease that hasn't got it.

use std::time::Duration;

use super::cases::{leases, Case};
use super::measure::{batch, Comparison};
use super::relays::{Engine, Lent};
use super::{compare, Aim, Limit, Row, Section};
use crate::Failure;

pub fn section() -> Result<Section, Failure> {
    let text = "the longest searches for a row at most 1.3 times a lease without";
    let aim = Aim { text, row: None, limit: Limit::Ratio(1.3) };
    rows(leases::longest()).map(|rows| Section { rows, aims: vec![aim] })
}

pub fn made_by_hand() -> Result<Section, Failure> {
    rows(leases::made_by_hand()).map(|rows| Section { rows, aims: Vec::new() })
}

fn rows<const N: usize>(cases: Option<[(Case, Case); N]>) -> Result<Vec<Row>, Failure> {
    cases.ok_or_else(super::unprepared)?.into_iter().map(row).collect()
}

fn row((longest, other): (Case, Case)) -> Result<Row, Failure> {
    let what = format!("{}, against {}", longest.what, other.what);
    compare(what, &mut Leases { longest: Side::new(longest), other: Side::new(other) })
}

/// Both sides are the engine's.
struct Leases {
    longest: Side,
    other: Side,
}

struct Side {
    case: Case,
    lent: Lent,
}

impl Comparison for Leases {
    fn engine(&mut self) -> Option<Duration> {
        self.longest.batch()
    }

    fn other(&mut self) -> Option<Duration> {
        self.other.batch()
    }
}

impl Side {
    fn new(case: Case) -> Self {
        Self { lent: case.prepared.clone(), case }
    }

    fn batch(&mut self) -> Option<Duration> {
        self.lent.clear();
        let time = batch(|| self.case.repeat::<Engine>(&mut self.lent))?;
        self.case.is_replied(&self.lent).then_some(time)
    }
}
