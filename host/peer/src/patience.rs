//! How long a transfer may stand still.

use std::time::{Duration, Instant};

use crate::{Error, Progress};

/// What a transfer does while nothing moves: no count from the receiver, or no data from the sender.
#[derive(Clone, Copy, Debug, PartialEq, Eq)]
pub struct Patience {
    /// After so long it tells so, once until something moves again.
    pub notice: Duration,
    /// After so long it fails. None waits as long as the session lasts.
    pub limit: Option<Duration>,
}

impl Default for Patience {
    fn default() -> Self {
        Self { notice: Duration::from_secs(60), limit: None }
    }
}

/// How long a transfer has stood still.
pub(crate) struct Stall {
    patience: Patience,
    moved: Instant,
    told: bool,
}

impl Stall {
    pub fn new(patience: Patience) -> Self {
        Self { patience, moved: Instant::now(), told: false }
    }

    /// Something has moved.
    pub fn end(&mut self) {
        *self = Self::new(self.patience);
    }

    /// When to check next, if nothing moves until then.
    pub fn deadline(&self) -> Option<Instant> {
        let notice = (!self.told).then_some(self.patience.notice);
        let wait = notice.into_iter().chain(self.patience.limit).min()?;
        // A wait beyond all time has no end.
        self.moved.checked_add(wait)
    }

    pub fn check(&mut self, progress: &mut impl FnMut(Progress)) -> Result<(), Error> {
        let time = self.moved.elapsed();
        if let Some(limit) = self.patience.limit.filter(|limit| time >= *limit) {
            return Err(Error::Stalled(limit));
        }
        if !self.told && time >= self.patience.notice {
            self.told = true;
            progress(Progress::Stalled(time));
        }
        Ok(())
    }
}
