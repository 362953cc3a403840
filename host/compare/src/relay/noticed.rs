//! Relays that overlook something, which the comparison has to notice.

use model::Relay;

use super::boundary::{Boundary, Lent};
use super::compared;
use super::monitor::Fault;
use super::runs::decoded;

/// Where it shows that something is overlooked.
#[derive(Clone, Copy, PartialEq, Eq)]
pub enum Shows {
    /// On tables from anywhere alone: runs hardly or never come to it.
    OnTables,
    /// In runs too, but in nothing that the monitor judges.
    InRuns,
    /// And in what the monitor judges.
    InHistory,
}

/// Something that a relay overlooks, where that shows, and what it does instead.
pub type Overlooked<T> = (&'static str, Shows, T);

/// Each relay that overlooks one of these must differ from the right one in single calls, and in runs where it can; where
/// the monitor that follows its runs can notice it, it must alone, too.
pub fn assert_noticed<T: Copy, R: Boundary>(
    overlooked: &[Overlooked<T>],
    relay: fn(T) -> R,
    follow_runs: fn(&R) -> Result<(), Fault>,
) {
    for &(what, shows, instead) in overlooked {
        compared::calls(&relay(instead)).expect_err(what);
        if shows != Shows::OnTables {
            compared::runs(&relay(instead)).expect_err(what);
        }
        if shows == Shows::InHistory {
            follow_runs(&relay(instead)).expect_err(what);
        }
    }
}

/// Changes the tables, as a relay that overlooks something does.
pub fn edit(lent: &mut Lent, change: impl FnOnce(&mut Relay)) {
    let mut relay = decoded(&lent.tables());
    change(&mut relay);
    lent.set_tables(&relay.encode());
}
