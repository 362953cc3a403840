//! Each call of the engine against the same call of the second implementation.

use std::time::Duration;

use super::cases::{self, Case};
use super::measure::{batch, Comparison};
use super::relays::{Engine, Lent, Second};
use super::{compare, Aim, Limit, Row, Section};
use crate::Failure;

pub fn section() -> Result<Section, Failure> {
    let cases = cases::all().ok_or_else(super::unprepared)?;
    let rows = cases.into_iter().map(row).collect::<Result<_, _>>()?;
    let aim = Aim { text: "no call slower than the second implementation", row: None, limit: Limit::Ratio(1.0) };
    Ok(Section { rows, aims: vec![aim] })
}

fn row(case: Case) -> Result<Row, Failure> {
    compare(case.what.to_owned(), &mut Calls::new(case))
}

/// A case with the memory of each side.
struct Calls {
    case: Case,
    engine: Lent,
    second: Lent,
}

impl Calls {
    fn new(case: Case) -> Self {
        let (engine, second) = (case.prepared.clone(), case.prepared.clone());
        Self { case, engine, second }
    }
}

impl Comparison for Calls {
    fn engine(&mut self) -> Option<Duration> {
        self.engine.clear();
        let time = batch(|| self.case.repeat::<Engine>(&mut self.engine))?;
        self.case.is_replied(&self.engine).then_some(time)
    }

    /// The second implementation follows the engine, so both have now made the same calls: every byte must be the same.
    fn other(&mut self) -> Option<Duration> {
        self.second.clear();
        let time = batch(|| self.case.repeat::<Second>(&mut self.second))?;
        (self.engine == self.second).then_some(time)
    }
}

#[cfg(test)]
mod tests {
    use super::{cases, Calls, Comparison};

    #[test]
    fn every_case_can_be_measured() {
        for case in cases::all().expect("cases") {
            let what = case.what;
            let mut calls = Calls::new(case);
            for _ in 0..2 {
                assert!(calls.engine().is_some(), "the engine: {what}");
                assert!(calls.other().is_some(), "the second implementation: {what}");
            }
        }
    }
}
