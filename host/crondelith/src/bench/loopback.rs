//! Bytes relayed over loopback TCP: by the server, and by a plain loop that copies from one socket to another.

use std::io::{self, Read, Write};
use std::net::{Ipv4Addr, Shutdown, TcpListener, TcpStream};
use std::thread;
use std::time::{Duration, Instant};

use codec::{Message, DATA_LIMIT};
use server::{bind_free, JumpingClock, Log, LogFormat, Server, Settings};

use super::measure::Medians;
use super::peers::session;
use super::{Row, Section};
use crate::Failure;

/// Frames of the largest size that go through in a round.
const FRAMES: usize = 1_000;
/// Rounds of either side, in turn. The median counts.
const ROUNDS: usize = 7;
/// What the plain loop copies at a time.
const BLOCK: usize = 65_536;

pub fn section() -> Result<Section, Failure> {
    let row = measure().map_err(|error| Failure::Failed(format!("bench: over TCP: {error}")))?;
    Ok(Section { rows: vec![row], aims: Vec::new() })
}

fn measure() -> io::Result<Row> {
    let frame = largest_frame().ok_or(io::ErrorKind::InvalidData)?;
    let settings = Settings::new(JumpingClock::default(), Log::new(LogFormat::Text, |_| ()));
    let server = bind_free().and_then(|listeners| Server::start(listeners, settings))?;
    let (caller, holder) = session(server.addresses()[0]).map_err(io::Error::other)?;
    let (mut relayed, mut copied) = (Vec::new(), Vec::new());
    for _ in 0..ROUNDS {
        relayed.push(round(caller.stream(), holder.stream(), &frame, FRAMES)?);
        copied.push(plain_round(&frame)?);
    }
    server.stop()?;
    let medians = Medians { engine: nanoseconds(relayed, FRAMES), other: nanoseconds(copied, FRAMES) };
    let rate = |nanoseconds: f64| frame.len() as f64 * 1e3 / nanoseconds;
    let (relay, plain) = (rate(medians.engine), rate(medians.other));
    let what = format!("largest frame over TCP, {relay:.0} MB/s, against a plain copy loop, {plain:.0} MB/s");
    Ok(Row { what, medians })
}

fn largest_frame() -> Option<Vec<u8>> {
    let mut frame = Vec::new();
    frames::append(&codec::encode(&Message::DataSend { data: &[7; DATA_LIMIT] })?, &mut frame)?;
    Some(frame)
}

/// The time in which so many times these bytes, sent to the one socket, come out of the other: as many, whatever is between.
pub fn round(mut from: &TcpStream, mut to: &TcpStream, bytes: &[u8], count: usize) -> io::Result<Duration> {
    let start = Instant::now();
    thread::scope(|scope| {
        let sender =
            thread::Builder::new().spawn_scoped(scope, move || (0..count).try_for_each(|_| from.write_all(bytes)))?;
        let mut block = vec![0; bytes.len()];
        let received = (0..count).try_for_each(|_| to.read_exact(&mut block));
        if received.is_err() {
            // The sender may wait in a write.
            from.shutdown(Shutdown::Both)?;
        }
        received.and(sender.join().unwrap_or(Err(io::ErrorKind::Other.into())))
    })?;
    Ok(start.elapsed())
}

/// A round with a plain loop between the sockets.
fn plain_round(frame: &[u8]) -> io::Result<Duration> {
    let (from, input) = pair()?;
    let (output, to) = pair()?;
    let copying = thread::Builder::new().spawn(move || copy(&input, &output))?;
    let time = round(&from, &to, frame, FRAMES);
    // It ends the copying.
    from.shutdown(Shutdown::Both)?;
    copying.join().unwrap_or(Err(io::ErrorKind::Other.into()))?;
    time
}

fn copy(mut input: &TcpStream, mut output: &TcpStream) -> io::Result<()> {
    let mut block = vec![0; BLOCK];
    loop {
        match input.read(&mut block)? {
            0 => return Ok(()),
            count => output.write_all(&block[..count])?,
        }
    }
}

/// Two ends of a connection, set up as the server's are.
fn pair() -> io::Result<(TcpStream, TcpStream)> {
    let listener = TcpListener::bind((Ipv4Addr::LOCALHOST, 0))?;
    let near = TcpStream::connect(listener.local_addr()?)?;
    let (far, _) = listener.accept()?;
    near.set_nodelay(true)?;
    far.set_nodelay(true)?;
    Ok((near, far))
}

/// Nanoseconds for one of so many messages, in the median round.
pub fn nanoseconds(mut rounds: Vec<Duration>, messages: usize) -> f64 {
    rounds.sort_unstable();
    rounds[rounds.len() / 2].as_secs_f64() * 1e9 / messages as f64
}
