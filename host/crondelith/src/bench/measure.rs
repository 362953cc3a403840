//! Two sides timed in turn, batch by batch.

use std::time::{Duration, Instant};

/// How long one comparison goes on.
const TIME: Duration = Duration::from_millis(500);
/// Repetitions in a timed batch: so many that reading the clock hardly counts, and so few that most batches end before
/// the scheduler interrupts them, which happens to the slower side more often.
const REPETITIONS: u32 = 128;
/// Repetitions before them, untimed, which warm the caches.
const WARM_UP: u32 = 16;

/// The engine and what it is measured against. A batch gives the time it took, or None if it did anything wrong.
pub trait Comparison {
    fn engine(&mut self) -> Option<Duration>;
    fn other(&mut self) -> Option<Duration>;
}

/// Nanoseconds of one repetition.
pub struct Medians {
    pub engine: f64,
    pub other: f64,
}

/// Alternates the two sides, so that a change of the machine's pace meets both, and takes the median batch of each,
/// which an interrupted batch doesn't move.
pub fn in_turn(comparison: &mut impl Comparison) -> Option<Medians> {
    let (mut engine, mut other) = (Vec::new(), Vec::new());
    let start = Instant::now();
    while engine.is_empty() || start.elapsed() < TIME {
        engine.push(comparison.engine()?);
        other.push(comparison.other()?);
    }
    Some(Medians { engine: median(engine)?, other: median(other)? })
}

/// Times a batch. `once` says whether all went well; the first time it didn't ends the batch.
pub fn batch(mut once: impl FnMut() -> bool) -> Option<Duration> {
    let warm = (0..WARM_UP).all(|_| once());
    let start = Instant::now();
    let right = (0..REPETITIONS).all(|_| once());
    let time = start.elapsed();
    (warm && right).then_some(time)
}

fn median(mut batches: Vec<Duration>) -> Option<f64> {
    batches.sort_unstable();
    let middle = batches.get(batches.len() / 2)?;
    Some(middle.as_secs_f64() * 1e9 / f64::from(REPETITIONS))
}
