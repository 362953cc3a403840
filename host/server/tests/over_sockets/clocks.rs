//! Clocks that a test moves.

use std::sync::atomic::{AtomicU64, Ordering};
use std::sync::{Arc, Mutex};
use std::thread;
use std::time::{Duration, Instant};

use server::Clock;

use crate::support::LIMIT;

/// How soon a message that waits is offered again.
const SOON: Duration = Duration::from_millis(2);

/// Stands until it is told to go on.
#[derive(Clone, Default)]
pub struct Standing {
    time: Arc<AtomicU64>,
    /// The time as it was looked at last.
    reading: u64,
    /// How often it was asked for the next second since it stands as it does: at each check of the peers, before it.
    asked: Arc<AtomicU64>,
}

impl Standing {
    pub fn from(now: u64) -> Self {
        Self { time: Arc::new(now.into()), reading: now, asked: Arc::default() }
    }

    pub fn advance(&self, seconds: u64) {
        self.time.fetch_add(seconds, Ordering::SeqCst);
    }

    /// Likewise, and waits until the relay has checked all its peers at the new time.
    pub fn pass(&self, seconds: u64) {
        self.advance(seconds);
        self.asked.store(0, Ordering::SeqCst);
        let end = Instant::now() + LIMIT;
        // With the next check the first is over, and what it sends is written. One may have begun before the count did.
        while self.asked.load(Ordering::SeqCst) < 3 {
            assert!(Instant::now() < end, "the peers aren't checked");
            thread::sleep(SOON / 2);
        }
    }
}

impl Clock for Standing {
    fn refresh(&mut self) {
        self.reading = self.time.load(Ordering::SeqCst);
    }

    fn now(&mut self) -> u64 {
        self.reading
    }

    fn until_next(&self) -> Duration {
        if self.reading == self.time.load(Ordering::SeqCst) {
            self.asked.fetch_add(1, Ordering::SeqCst);
        }
        SOON
    }
}

/// What happens while a relay stands still.
type Meanwhile = Box<dyn FnOnce() + Send>;

/// Stands too; and the whole relay does, within a turn, while something happens.
#[derive(Clone, Default)]
pub struct Halting {
    pub clock: Standing,
    meanwhile: Arc<Mutex<Option<Meanwhile>>>,
    /// What happens at a reading, after it was taken.
    later: Arc<Mutex<Option<(u64, Meanwhile)>>>,
}

impl Halting {
    /// Halts the relay at its next turn, after it was told what has come and before it looks at the time.
    pub fn halt(&self, meanwhile: impl FnOnce() + Send + 'static) {
        *self.meanwhile.lock().expect("no panic in a clock") = Some(Box::new(meanwhile));
    }

    /// Halts it at a time, after it has looked at it and before it checks its peers.
    pub fn halt_at(&self, time: u64, meanwhile: impl FnOnce() + Send + 'static) {
        *self.later.lock().expect("no panic in a clock") = Some((time, Box::new(meanwhile)));
    }
}

impl Clock for Halting {
    fn refresh(&mut self) {
        if let Some(meanwhile) = self.meanwhile.lock().expect("no panic in a clock").take() {
            meanwhile();
        }
        self.clock.refresh();
    }

    fn now(&mut self) -> u64 {
        self.clock.now()
    }

    fn until_next(&self) -> Duration {
        let mut later = self.later.lock().expect("no panic in a clock");
        if let Some((_, meanwhile)) = later.take_if(|(time, _)| *time == self.clock.reading) {
            meanwhile();
        }
        self.clock.until_next()
    }
}

/// Goes back by a second with each reading.
pub struct Backward(AtomicU64);

impl Backward {
    pub fn from(now: u64) -> Self {
        Self(now.into())
    }
}

impl Clock for Backward {
    fn now(&mut self) -> u64 {
        self.0.fetch_sub(1, Ordering::Relaxed)
    }

    fn until_next(&self) -> Duration {
        SOON
    }
}

/// Stands, has no next second for long, and counts how often it is read.
#[derive(Clone, Default)]
pub struct Counted(Arc<AtomicU64>);

impl Counted {
    pub fn readings(&self) -> u64 {
        self.0.load(Ordering::SeqCst)
    }
}

impl Clock for Counted {
    fn now(&mut self) -> u64 {
        self.0.fetch_add(1, Ordering::SeqCst);
        0
    }

    fn until_next(&self) -> Duration {
        Duration::from_secs(60)
    }
}
