//! A journal replayed, by either replay, beside reading its file and adding up its bytes.

mod recorder;

use std::fs;
use std::hint::black_box;
use std::io;
use std::path::{Path, PathBuf};
use std::time::{Duration, Instant};

use engine::relay::{self, Replayed, ALLOWANCES, RECORD};
use peer::grouped;

use super::measure::Medians;
use super::{Row, Section};
use crate::Failure;
use recorder::Recorder;

/// Records of the journal.
const RECORDS: usize = 1_000_000;
/// Rounds of each side, in turn. The median counts.
const ROUNDS: usize = 7;

pub fn section() -> Result<Section, Failure> {
    let folder = tempfile::tempdir().map_err(|error| failed(&error))?;
    let times = Sample::new(RECORDS, folder.path())?.measure()?;
    Ok(Section { rows: times.rows(), aims: Vec::new() })
}

fn failed(error: &io::Error) -> Failure {
    Failure::Failed(format!("bench: a journal's file: {error}"))
}

/// A journal in memory and in a file, and what comes of it.
struct Sample {
    path: PathBuf,
    journal: Vec<u8>,
    start: u64,
    term: u64,
    sum: u64,
    /// The relay's own after the last call.
    allowances: [u8; ALLOWANCES],
    /// Those that the plain replay writes: the same levels, at a later time.
    plain: [u8; ALLOWANCES],
}

/// What each side took in every round.
#[derive(Default)]
struct Times {
    records: usize,
    replay: Vec<Duration>,
    plain: Vec<Duration>,
    read: Vec<Duration>,
}

impl Sample {
    fn new(records: usize, folder: &Path) -> Result<Self, Failure> {
        let Recorder { journal, allowances, .. } = Recorder::run(records).ok_or_else(super::unprepared)?;
        let path = folder.join("journal");
        fs::write(&path, &journal).map_err(|error| failed(&error))?;
        let (start, term, sum) = (recorder::START, recorder::TERM, sum(&journal));
        let mut plain = [0; ALLOWANCES];
        relay::replay_plain(&mut plain, &journal, start, term);
        Ok(Self { path, journal, start, term, sum, allowances, plain })
    }

    fn measure(&self) -> Result<Times, Failure> {
        let mut times = Times { records: self.journal.len() / RECORD, ..Times::default() };
        for _ in 0..ROUNDS {
            times.replay.push(self.replayed(relay::replay, &self.allowances)?);
            times.plain.push(self.replayed(relay::replay_plain, &self.plain)?);
            times.read.push(self.read()?);
        }
        Ok(times)
    }

    /// The time of a replay, which has to agree and to write these allowances.
    fn replayed(
        &self,
        replay: fn(&mut [u8], &[u8], u64, u64) -> Replayed,
        expected: &[u8],
    ) -> Result<Duration, Failure> {
        let mut allowances = [0; ALLOWANCES];
        let start = Instant::now();
        let replayed = replay(&mut allowances, black_box(&self.journal), self.start, self.term);
        let time = start.elapsed();
        match replayed == (Replayed { number: 0, contradicted: 0, place: 0 }) && allowances == expected {
            true => Ok(time),
            false => Err(Failure::Failed("bench: a journal isn't replayed to the relay's allowances".into())),
        }
    }

    /// The time in which the file comes to memory and its bytes are added up.
    fn read(&self) -> Result<Duration, Failure> {
        let start = Instant::now();
        let found = fs::read(&self.path).map(|bytes| sum(&bytes)).map_err(|error| failed(&error))?;
        let time = start.elapsed();
        match found == self.sum {
            true => Ok(time),
            false => Err(Failure::Failed("bench: a journal's file has other bytes".into())),
        }
    }
}

impl Times {
    fn rows(self) -> Vec<Row> {
        let of = grouped(self.records as u64);
        let [replay, plain, read] = [self.replay, self.plain, self.read].map(|times| nanoseconds(times, self.records));
        let row = |what: &str, engine, other| Row {
            what: format!("{what}, a record of {of}"),
            medians: Medians { engine, other },
        };
        vec![
            row("replay of a journal against reading its file and adding up the bytes", replay, read),
            row("plain replay of a journal against reading its file and adding up the bytes", plain, read),
            row("plain replay of a journal against the replay", plain, replay),
        ]
    }
}

fn sum(bytes: &[u8]) -> u64 {
    bytes.iter().map(|byte| u64::from(*byte)).sum()
}

/// Nanoseconds for a record, in the median round.
fn nanoseconds(mut rounds: Vec<Duration>, records: usize) -> f64 {
    rounds.sort_unstable();
    rounds[rounds.len() / 2].as_secs_f64() * 1e9 / records as f64
}

#[cfg(test)]
mod tests {
    use super::Sample;

    #[test]
    fn each_side_is_measured_and_a_wrong_one_is_not() {
        let folder = tempfile::tempdir().expect("a folder");
        let mut sample = Sample::new(20_000, folder.path()).ok().expect("a journal");
        let rows = sample.measure().ok().expect("times").rows();
        assert_eq!(rows.len(), 3);
        assert!(rows.iter().all(|row| row.medians.engine > 0.0 && row.medians.other > 0.0));
        sample.sum += 1;
        assert!(sample.read().is_err());
        sample.allowances[0] ^= 1;
        assert!(sample.measure().is_err());
    }
}
