//! The relay's clock: whole seconds.

use std::time::{Duration, Instant, SystemTime, UNIX_EPOCH};

/// Readings are below it.
pub const CLOCK_LIMIT: u64 = 1 << 40;

pub trait Clock: Send {
    /// Looks at the time, once in a turn of the loop.
    fn refresh(&mut self) {}
    /// Whole seconds. The relay takes the latest reading again if a clock goes back.
    fn now(&mut self) -> u64;
    /// How long until the next reading differs.
    fn until_next(&self) -> Duration;
    /// Goes on from this reading if it is later than the clock's own.
    fn start_from(&mut self, _least: u64) {}
    /// How far this clock is from the machine's, in whole seconds.
    fn drift(&self) -> u64 {
        0
    }
}

/// Seconds since 1970, as the paper's expirations are: the machine's time at the start and what has passed since then. A
/// machine whose time is set meanwhile would else stop every partner, or end every lease.
pub struct SystemClock {
    wall: Box<dyn Fn() -> Duration + Send>,
    /// The time at `started`.
    base: Duration,
    started: Instant,
    reading: u64,
}

impl SystemClock {
    pub fn new() -> Self {
        Self::with_wall(|| SystemTime::now().duration_since(UNIX_EPOCH).unwrap_or_default())
    }

    /// A clock that starts with the time that `wall` gives, since 1970.
    pub fn with_wall(wall: impl Fn() -> Duration + Send + 'static) -> Self {
        let base = wall();
        Self { wall: Box::new(wall), base, started: Instant::now(), reading: base.as_secs() }
    }

    fn time(&self) -> Duration {
        self.base + self.started.elapsed()
    }
}

impl Default for SystemClock {
    fn default() -> Self {
        Self::new()
    }
}

impl Clock for SystemClock {
    fn refresh(&mut self) {
        self.reading = self.time().as_secs();
    }

    fn now(&mut self) -> u64 {
        self.reading
    }

    fn until_next(&self) -> Duration {
        Duration::from_secs(1) - Duration::from_nanos(self.time().subsec_nanos().into())
    }

    fn start_from(&mut self, least: u64) {
        self.base = self.time().max(Duration::from_secs(least));
        self.started = Instant::now();
        self.refresh();
    }

    fn drift(&self) -> u64 {
        self.time().abs_diff((self.wall)()).as_secs()
    }
}

/// A clock on which no allowance is ever used up: each reading is four seconds after the last. For measuring and testing
/// what the relay does beside waiting. Its readings don't tell how long a peer was silent, so it has no next second for
/// long, with which the peers would be asked.
#[derive(Default)]
pub struct JumpingClock(u64);

impl Clock for JumpingClock {
    fn now(&mut self) -> u64 {
        self.0 += 4;
        self.0
    }

    fn until_next(&self) -> Duration {
        Duration::from_secs(3600)
    }
}
