//! Messages relayed over loopback TCP by two servers, of which one writes a journal.

use std::fs;
use std::io::{self, Read, Write};
use std::net::TcpStream;
use std::path::Path;
use std::thread::{self, JoinHandle};
use std::time::{Duration, Instant};

use codec::Message;
use engine::relay::RECORD;
use peer::Peer;
use rustix::process::{sched_getaffinity, sched_setaffinity, CpuSet};
use server::journal::Start;
use server::{bind_free, JumpingClock, Log, LogFormat, Server, Settings};

use super::loopback::{nanoseconds, round};
use super::measure::Medians;
use super::peers::session;
use super::{Aim, Limit, Row, Section};
use crate::Failure;

/// Bytes of data in a message: so few that what is done for each counts.
const DATA: usize = 64;
/// Messages that go through in a round one at a time: the next when the last has come out.
const SINGLE: usize = 200;
/// Those of a stream, and how many are written at once.
const STREAM: usize = 20_000;
const AT_ONCE: usize = 500;
/// Rounds of either side, in turn. The median counts.
const ROUNDS: usize = 201;
const GREATEST_RATIO: f64 = 1.1;

/// A server with a session that messages go through.
struct Side {
    server: Server,
    caller: Peer,
    holder: Peer,
}

pub fn section() -> Result<Section, Failure> {
    // Threads have the cores of the one that starts them.
    let measuring = thread::Builder::new().spawn(|| stay_on_one_core().and_then(|()| measure()));
    let rows = measuring.and_then(joined);
    let rows = rows.map_err(|error| Failure::Failed(format!("bench: with a journal: {error}")))?;
    let text = "a journal adds at most a tenth to a message's time over TCP";
    Ok(Section { rows, aims: vec![Aim { text, row: None, limit: Limit::Ratio(GREATEST_RATIO) }] })
}

fn joined<T>(thread: JoinHandle<io::Result<T>>) -> io::Result<T> {
    thread.join().unwrap_or(Err(io::ErrorKind::Other.into()))
}

/// On one core all that the journal's thread does takes time from the rest. With several, which threads share one counts for
/// more than a journal does: a message takes three times as long where its way leads over two.
fn stay_on_one_core() -> io::Result<()> {
    let allowed = sched_getaffinity(None)?;
    let mut one = CpuSet::new();
    (0..CpuSet::MAX_CPU).find(|core| allowed.is_set(*core)).into_iter().for_each(|core| one.set(core));
    Ok(sched_setaffinity(None, &one)?)
}

fn measure() -> io::Result<Vec<Row>> {
    let folder = tempfile::tempdir()?;
    let journal = folder.path().join("journal");
    let sides = [Side::start(Some(&journal))?, Side::start(None)?];
    let mut frame = Vec::new();
    let message = codec::encode(&Message::DataSend { data: &[7; DATA] });
    message.and_then(|message| frames::append(&message, &mut frame)).ok_or(io::ErrorKind::InvalidData)?;
    let several = frame.repeat(AT_ONCE);
    let rows = vec![
        row("one at a time", SINGLE, &sides, |from, to| singly(from, to, &frame))?,
        row("in a stream", STREAM, &sides, |from, to| round(from, to, &several, STREAM / AT_ONCE))?,
    ];
    sides.into_iter().try_for_each(|side| side.server.stop().map(drop))?;
    // What isn't written costs nothing.
    let least = (ROUNDS * (SINGLE + STREAM) * RECORD) as u64;
    let is_whole = fs::metadata(&journal)?.len() >= least && !Start::read(&journal)?.ended;
    is_whole.then_some(rows).ok_or_else(|| io::Error::other("the journal has ended before"))
}

impl Side {
    fn start(journal: Option<&Path>) -> io::Result<Self> {
        let settings = Settings::new(JumpingClock::default(), Log::new(LogFormat::Text, |_| ()));
        let settings = Settings { journal: journal.map(Path::to_owned), ..settings };
        let server = bind_free().and_then(|listeners| Server::start(listeners, settings))?;
        let (caller, holder) = session(server.addresses()[0]).map_err(io::Error::other)?;
        Ok(Self { server, caller, holder })
    }
}

/// Measures rounds of so many messages, the one side's and the other's in turn.
fn row(
    how: &str,
    messages: usize,
    sides: &[Side; 2],
    time: impl Fn(&TcpStream, &TcpStream) -> io::Result<Duration>,
) -> io::Result<Row> {
    let mut rounds = [Vec::new(), Vec::new()];
    for place in (0..2 * ROUNDS).map(|round| round % 2) {
        let Side { caller, holder, .. } = &sides[place];
        rounds[place].push(time(caller.stream(), holder.stream())?);
    }
    let [engine, other] = rounds.map(|rounds| nanoseconds(rounds, messages));
    let what = format!("message of {DATA} bytes over TCP, {how}, with a journal against none");
    Ok(Row { what, medians: Medians { engine, other } })
}

/// The time that the messages take one after the other.
fn singly(mut from: &TcpStream, mut to: &TcpStream, frame: &[u8]) -> io::Result<Duration> {
    let mut received = vec![0; frame.len()];
    let start = Instant::now();
    for _ in 0..SINGLE {
        from.write_all(frame)?;
        to.read_exact(&mut received)?;
    }
    Ok(start.elapsed())
}
