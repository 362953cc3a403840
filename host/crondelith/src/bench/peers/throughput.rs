//! Bytes through a relay in one direction, and what these cost it.

use std::io::{self, Read, Write};
use std::net::{Shutdown, TcpStream};
use std::sync::atomic::{AtomicU64, Ordering};
use std::thread;
use std::time::{Duration, Instant};

use peer::grouped;

use super::batch::Batch;
use super::effort::Effort;
use super::relay::{started, Relay, Started};
use super::report::{Bound, Row};
use super::threads::joined;
use super::turns::{in_turn, median, Named};

/// What the receiver reads at most with one call.
const BUFFER: usize = 262_144;
const GIGABYTE: f64 = 1e9;
const MEGABYTE: f64 = 1e6;

/// Messages of a size.
struct Size {
    data_length: usize,
    /// Of haproxy's bytes per second.
    least_ratio: f64,
    /// Whether what they cost is told.
    has_cost: bool,
}

const SIZES: [Size; 4] = [
    Size { data_length: 64, least_ratio: 0.4, has_cost: false },
    Size { data_length: 1_024, least_ratio: 1.0, has_cost: true },
    Size { data_length: 16_384, least_ratio: 1.0, has_cost: false },
    Size { data_length: 65_533, least_ratio: 1.0, has_cost: true },
];
const GREATEST_COST_RATIO: f64 = 1.2;

/// A run: its bytes, its time and the relay's CPU time.
struct Run {
    bytes: f64,
    seconds: f64,
    cpu_seconds: f64,
}

type Outcomes = Vec<Option<Vec<Run>>>;

pub fn rows(relays: &[Named<Started>], effort: &Effort) -> Vec<Row> {
    let measure = |size: &Size| in_turn(relays, effort.runs, |relay| run(started(relay)?, size, effort));
    let measured: Vec<_> = SIZES.iter().map(|size| (size, measure(size))).collect();
    let rates = measured.iter().map(|(size, outcomes)| rate(size, outcomes));
    let with_cost = measured.iter().filter(|(size, _)| size.has_cost);
    rates.chain(with_cost.map(|(size, outcomes)| cost(size, outcomes))).collect()
}

fn rate(size: &Size, outcomes: &Outcomes) -> Row {
    let figure = |outcome: &Option<Vec<Run>>| median(outcome.as_ref(), |run| run.bytes / run.seconds / MEGABYTE);
    Row {
        what: format!("MB/s, messages of {} bytes", grouped(size.data_length as u64)),
        digits: 0,
        figures: outcomes.iter().map(figure).collect(),
        bound: Some(Bound::RatioAtLeast(size.least_ratio)),
    }
}

/// Of all runs together: the system counts hundredths of a second, which is coarse for one.
fn cost(size: &Size, outcomes: &Outcomes) -> Row {
    let total = |runs: &[Run], figure: fn(&Run) -> f64| runs.iter().map(figure).sum::<f64>();
    let per_gigabyte = |runs: &Vec<Run>| total(runs, |run| run.cpu_seconds) / total(runs, |run| run.bytes) * GIGABYTE;
    Row {
        what: format!("CPU seconds per GB, messages of {} bytes", grouped(size.data_length as u64)),
        digits: 2,
        figures: outcomes.iter().map(|outcome| outcome.as_ref().map(per_gigabyte)).collect(),
        bound: Some(Bound::RatioAtMost(GREATEST_COST_RATIO)),
    }
}

fn run(relay: &Relay, size: &Size, effort: &Effort) -> io::Result<Run> {
    let link = relay.link(0)?;
    let batch = Batch::new(size.data_length, link.form)?;
    transfer(&link.near, &link.far, &batch, effort.warm_up)?;
    let before = relay.process.cpu_seconds()?;
    let (bytes, time) = transfer(&link.near, &link.far, &batch, effort.throughput)?;
    let cpu_seconds = relay.process.cpu_seconds()? - before;
    Ok(Run { bytes: bytes as f64, seconds: time.as_secs_f64(), cpu_seconds })
}

/// Sends the batch over and over for so long. Gives how many bytes came out, which is as many as went in, and the time
/// until the last of them had.
pub fn transfer(from: &TcpStream, to: &TcpStream, batch: &Batch, time: Duration) -> io::Result<(u64, Duration)> {
    let total = AtomicU64::new(u64::MAX);
    let start = Instant::now();
    thread::scope(|scope| {
        let sender = thread::Builder::new().spawn_scoped(scope, || send(from, batch, start + time, &total))?;
        let received = receive(to, batch, &total).map(|bytes| (bytes, start.elapsed()));
        if received.is_err() {
            // The sender may wait in a write.
            let _ = from.shutdown(Shutdown::Both);
        }
        let sent = joined(sender);
        received.and_then(|received| sent.map(|()| received))
    })
}

/// The total is told before the last batch is written: so the receiver knows it when it has that, and waits no longer.
fn send(mut from: &TcpStream, batch: &Batch, end: Instant, total: &AtomicU64) -> io::Result<()> {
    let mut bytes = batch.length();
    while Instant::now() < end {
        from.write_all(&batch.sent)?;
        bytes += batch.length();
    }
    total.store(bytes, Ordering::SeqCst);
    from.write_all(&batch.sent)
}

fn receive(mut to: &TcpStream, batch: &Batch, total: &AtomicU64) -> io::Result<u64> {
    let mut buffer = vec![0; BUFFER];
    let mut bytes = 0;
    while bytes < total.load(Ordering::SeqCst) {
        let count = to.read(&mut buffer)?;
        if count == 0 {
            return Err(io::ErrorKind::UnexpectedEof.into());
        }
        if !batch.agrees(&buffer[..count], bytes, total.load(Ordering::SeqCst)) {
            return Err(io::Error::other("other bytes came out than went in"));
        }
        bytes += count as u64;
    }
    let right = bytes == total.load(Ordering::SeqCst);
    right.then_some(bytes).ok_or_else(|| io::Error::other("more bytes came out than went in"))
}
