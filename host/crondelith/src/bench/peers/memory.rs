//! What a connection takes of a relay's memory: resident pages, beyond those of a relay that has just started.

use std::io;
use std::thread::{self, ScopedJoinHandle};
use std::time::Duration;

use server::{CONNECTIONS_EACH, PARTNERS};

use super::batch::Batch;
use super::effort::Effort;
use super::process::Process;
use super::programs::Program;
use super::relay::Relay;
use super::report::{Bound, Row};
use super::threads::joined;
use super::throughput::transfer;
use super::turns::{in_turn, median, Named};

const CONNECTIONS: usize = PARTNERS * CONNECTIONS_EACH;
const LINKS: usize = CONNECTIONS / 2;
/// What the busy ones send.
const DATA_LENGTH: usize = 16_384;
/// A relay may still be at work on a connection that is open already.
const SETTLE: Duration = Duration::from_millis(200);
const SAMPLE: Duration = Duration::from_millis(10);

const GREATEST_IDLE_KIB: f64 = 16.0;
const GREATEST_BUSY_KIB: f64 = 200.0;

/// KiB for each connection of a relay.
type Measure = fn(&Program, &Effort) -> io::Result<f64>;

pub fn rows(programs: &[Program], effort: &Effort) -> Vec<Row> {
    let subjects: Vec<Named<&Program>> = programs.iter().map(|program| (program.name(), program)).collect();
    let row = |what: String, bound, measure: Measure| {
        let outcomes = in_turn(&subjects, effort.memory_runs, |program| measure(program, effort));
        let figures = outcomes.iter().map(|outcome| median(outcome.as_ref(), |kib| *kib)).collect();
        Row { what, digits: 1, figures, bound: Some(Bound::AtMost(bound)) }
    };
    vec![
        row(format!("KiB for each of {CONNECTIONS} idle connections"), GREATEST_IDLE_KIB, idle),
        row(format!("KiB for each of {CONNECTIONS} busy ends of connections, at the peak"), GREATEST_BUSY_KIB, busy),
    ]
}

fn idle(program: &Program, _: &Effort) -> io::Result<f64> {
    let relay = Relay::start(program)?;
    let before = relay.process.resident_kib()?;
    let connections = (0..CONNECTIONS).map(|number| relay.connect(number)).collect::<io::Result<Vec<_>>>()?;
    thread::sleep(SETTLE);
    let after = relay.process.resident_kib()?;
    Ok((after - before) / connections.len() as f64)
}

/// Both ends of each link send as fast as they can, and receive.
fn busy(program: &Program, effort: &Effort) -> io::Result<f64> {
    let relay = Relay::start(program)?;
    let before = relay.process.resident_kib()?;
    let links = (0..LINKS).map(|number| relay.link(number)).collect::<io::Result<Vec<_>>>()?;
    let batches = links.iter().map(|link| Batch::new(DATA_LENGTH, link.form)).collect::<io::Result<Vec<_>>>()?;
    let both = links
        .iter()
        .zip(&batches)
        .flat_map(|(link, batch)| [(&link.near, &link.far, batch), (&link.far, &link.near, batch)]);
    let peak = thread::scope(|scope| {
        let start = |(from, to, batch)| {
            thread::Builder::new().spawn_scoped(scope, move || transfer(from, to, batch, effort.busy).map(|_| ()))
        };
        let transfers = both.map(start).collect::<io::Result<Vec<_>>>()?;
        let peak = peak(&relay.process, &transfers)?;
        transfers.into_iter().try_for_each(joined).map(|()| peak)
    })?;
    Ok((peak - before) / CONNECTIONS as f64)
}

/// The most that is resident while the transfers go on.
fn peak(process: &Process, transfers: &[ScopedJoinHandle<io::Result<()>>]) -> io::Result<f64> {
    let mut peak = process.resident_kib()?;
    while !transfers.iter().all(|transfer| transfer.is_finished()) {
        thread::sleep(SAMPLE);
        peak = peak.max(process.resident_kib()?);
    }
    Ok(peak)
}
