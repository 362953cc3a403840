//! How long and how often is measured.

use std::time::Duration;

pub struct Effort {
    /// Runs of each relay, in turn. The median counts.
    pub runs: usize,
    /// Likewise of what a connection takes of memory, which varies less.
    pub memory_runs: usize,
    /// Bytes go through for so long in a run, after the warm-up.
    pub throughput: Duration,
    pub warm_up: Duration,
    /// Round trips in a run.
    pub round_trips: usize,
    /// How long all connections send at once.
    pub busy: Duration,
    /// Round trips of a quiet partner, with the flood and without.
    pub quiet_round_trips: usize,
}

pub const FULL: Effort = Effort {
    runs: 7,
    memory_runs: 1,
    throughput: Duration::from_millis(300),
    warm_up: Duration::from_millis(30),
    round_trips: 3_000,
    busy: Duration::from_secs(1),
    quiet_round_trips: 250,
};

/// For a test that everything is measured and printed, whatever the figures.
pub const BRIEF: Effort = Effort {
    runs: 1,
    memory_runs: 1,
    throughput: Duration::from_millis(20),
    warm_up: Duration::from_millis(2),
    round_trips: 20,
    busy: Duration::from_millis(50),
    quiet_round_trips: 10,
};
