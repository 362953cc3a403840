//! A message there and another back, one under way at a time.

use std::io::{self, Read, Write};
use std::net::TcpStream;
use std::thread;
use std::time::{Duration, Instant};

use super::batch::Batch;
use super::effort::Effort;
use super::link::Link;
use super::relay::{started, Started};
use super::report::{Bound, Row};
use super::threads::joined;
use super::turns::{in_turn, median, Named};

const DATA_LENGTH: usize = 64;
const GREATEST_RATIO: f64 = 1.1;

/// The median, the 99th percentile and the worst, in microseconds.
pub type Percentiles = [f64; 3];

pub fn rows(relays: &[Named<Started>], effort: &Effort) -> Vec<Row> {
    let run = |relay: &Started| measure(&started(relay)?.link(0)?, effort.round_trips, Duration::ZERO);
    let outcomes = in_turn(relays, effort.runs, run);
    let row = |name: &str, place: usize, bound| Row {
        what: format!("round trip of {DATA_LENGTH} bytes, {name}, µs"),
        digits: 1,
        figures: outcomes.iter().map(|outcome| median(outcome.as_ref(), |run| run[place])).collect(),
        bound,
    };
    vec![row("p50", 0, Some(Bound::RatioAtMost(GREATEST_RATIO))), row("p99", 1, None)]
}

/// Makes so many round trips, one after the other or at this pace.
pub fn measure(link: &Link, count: usize, pace: Duration) -> io::Result<Percentiles> {
    let message = Batch::single(DATA_LENGTH, link.form)?;
    let times = thread::scope(|scope| {
        let echo = || (0..count).try_for_each(|_| take(&link.far, &message).and_then(|()| give(&link.far, &message)));
        let echo = thread::Builder::new().spawn_scoped(scope, echo)?;
        let start = Instant::now();
        let due = (0..count as u32).map(|number| start + pace * number);
        let times = due.map(|due| round_trip(link, &message, due)).collect::<io::Result<Vec<_>>>();
        if times.is_err() {
            link.shut_down();
        }
        let echoed = joined(echo);
        times.and_then(|times| echoed.map(|()| times))
    })?;
    percentiles(times).ok_or(io::ErrorKind::InvalidInput.into())
}

/// Not before it is due.
fn round_trip(link: &Link, message: &Batch, due: Instant) -> io::Result<Duration> {
    let wait = due.saturating_duration_since(Instant::now());
    if !wait.is_zero() {
        thread::sleep(wait);
    }
    let start = Instant::now();
    give(&link.near, message)?;
    take(&link.near, message)?;
    Ok(start.elapsed())
}

fn give(mut stream: &TcpStream, message: &Batch) -> io::Result<()> {
    stream.write_all(&message.sent)
}

fn take(mut stream: &TcpStream, message: &Batch) -> io::Result<()> {
    let mut received = vec![0; message.delivered.len()];
    stream.read_exact(&mut received)?;
    let right = received == message.delivered;
    right.then_some(()).ok_or_else(|| io::Error::other("another message came out than went in"))
}

fn percentiles(mut times: Vec<Duration>) -> Option<Percentiles> {
    times.sort_unstable();
    let microseconds = |place: usize| times.get(place).map(|time| time.as_secs_f64() * 1e6);
    let count = times.len();
    Some([microseconds(count / 2)?, microseconds(count * 99 / 100)?, microseconds(count.checked_sub(1)?)?])
}
