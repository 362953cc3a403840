//! `crondelith demo`: one partner floods a relay while another sends a file through it.

use std::io;
use std::net::SocketAddr;
use std::thread::{self, JoinHandle};
use std::time::{Duration, Instant};

use clap::Args;
use codec::Message;
use peer::{grouped, receive_file, send_file, Peer};
use server::{bind_free, Clock, Log, LogFormat, Server, Settings, Statistics, SystemClock, CONNECTIONS_EACH};

use crate::signals::Watch;
use crate::{say, Failure, Outcome};

const ABOUT: &str = "\
Runs a relay on free ports of this machine and sends a file of 256 KiB through it, by itself and
then while another partner floods the relay: eight connections that request leases without end.
Prints what each partner got and how long the file took. Ends by itself in some fifteen seconds.";

const STATUSES: &str = "\
The exit status is 0 if the file arrived unchanged both times, 1 if not, also when interrupted
before (Ctrl-C), and 2 if the arguments are wrong.";

/// Have one partner flood a relay while another sends a file through it
#[derive(Args)]
#[command(long_about = ABOUT, after_long_help = STATUSES)]
pub struct Arguments {}

/// Which partner floods, and which sends the file.
const FLOOD: usize = 0;
const FILE: usize = 1;
/// It costs somewhat more than twice as much: that is the allowance and a little more than four seconds' refill.
const FILE_LENGTH: usize = 256 * 1024;
/// By then the flood has used up its allowance.
const FLOOD_LEAD: Duration = Duration::from_millis(800);
/// Lease requests that a flooding connection sends at a time.
const BURST: usize = 64;

pub fn run(Arguments {}: Arguments) -> Outcome {
    Watch::start("interrupted")?;
    let file = contents();
    say(format_args!("Partner {FILE} sends a file of 256 KiB through the relay, by itself .."));
    let alone = scene(&file, false).map_err(failed)?;
    say(format_args!("\n.. and while partner {FLOOD} floods the relay from eight connections with lease requests."));
    let flooded = scene(&file, true).map_err(failed)?;
    say(format_args!("\n{:<34}{:>12}{:>15}{:>12}", "", "calls done", "made to wait", "bytes"));
    row("by itself: the file", &alone.got[FILE]);
    row("with the flood: the file", &flooded.got[FILE]);
    row("with the flood: the flood", &flooded.got[FLOOD]);
    let (without, with) = (alone.time.as_secs_f64(), flooded.time.as_secs_f64());
    say(format_args!(
        "\nThe file arrived unchanged both times: in {without:.1} s by itself, in {with:.1} s with the flood."
    ));
    say(format_args!("What is beyond a partner's allowance waits, here the end of the file and most of the flood."));
    Ok(())
}

fn failed(why: String) -> Failure {
    Failure::Failed(format!("the file didn't arrive: {why}"))
}

fn row(name: &str, Statistics { done, waited, bytes, .. }: &Statistics) {
    let [done, waited, bytes] = [done, waited, bytes].map(|number| grouped(*number));
    say(format_args!("{name:<34}{done:>12}{waited:>15}{bytes:>12}"));
}

/// What came of sending the file.
struct Scene {
    time: Duration,
    got: Vec<Statistics>,
}

/// Sends the file through a relay of its own, so that each time starts with full allowances.
fn scene(file: &[u8], with_flood: bool) -> Result<Scene, String> {
    let server = bind_free().and_then(|listeners| {
        Server::start(listeners, Settings::new(SystemClock::new(), Log::new(LogFormat::Text, |_| ())))
    });
    let server = server.map_err(|error| format!("no relay: {error}"))?;
    let addresses = server.addresses();
    let flood = if with_flood { start_flood(addresses[FLOOD]) } else { Ok(Vec::new()) };
    let flood = flood.map_err(|error| error.to_string())?;
    // Allowances refill by whole seconds, so both times start with one.
    thread::sleep(SystemClock::new().until_next());
    let transferred = transfer(addresses[FILE], file);
    let got = server.stop().map_err(|error| error.to_string());
    for connection in flood {
        // The relay's end is what ends it.
        let _ = connection.join();
    }
    let (time, received) = transferred?;
    if received != file {
        return Err(format!("{} bytes of {} came, and not the same", received.len(), file.len()));
    }
    Ok(Scene { time, got: got? })
}

/// Sends the file from one connection to another of the partner and gives how long it took and what came.
fn transfer(address: SocketAddr, file: &[u8]) -> Result<(Duration, Vec<u8>), String> {
    let mut holder = Peer::connect(address).map_err(|error| error.to_string())?;
    let id = holder.lease().map_err(|error| error.to_string())?;
    let receive = move || {
        let mut received = Vec::new();
        receive_file(&mut holder, &mut received, |_| ()).map(|_| received)
    };
    let receiver = thread::Builder::new().spawn(receive).map_err(|error| error.to_string())?;
    let mut sender = Peer::connect(address).map_err(|error| error.to_string())?;
    let start = Instant::now();
    send_file(&mut sender, id, file, file.len() as u64, |_| ()).map_err(|error| error.to_string())?;
    let time = start.elapsed();
    let received = receiver.join().map_err(|_| "the receiver failed")?;
    Ok((time, received.map_err(|error| error.to_string())?))
}

/// Starts eight connections that request leases until the relay ends.
fn start_flood(address: SocketAddr) -> io::Result<Vec<JoinHandle<()>>> {
    let start = |_| thread::Builder::new().spawn(move || flood(address));
    let connections = (0..CONNECTIONS_EACH).map(start).collect();
    thread::sleep(FLOOD_LEAD);
    connections
}

fn flood(address: SocketAddr) {
    let Ok(mut peer) = Peer::connect(address) else { return };
    // It ends with the relay.
    while (0..BURST).try_for_each(|_| peer.send(&Message::LeaseRequest)).is_ok()
        && (0..BURST).try_for_each(|_| peer.receive().map(|_| ())).is_ok()
    {}
}

/// Bytes that don't repeat, so that a part lost or moved shows.
fn contents() -> Vec<u8> {
    let mut state = 1_u32;
    let mut next = || {
        // xorshift32
        state ^= state << 13;
        state ^= state >> 17;
        state ^= state << 5;
        state.to_be_bytes()
    };
    (0..FILE_LENGTH / 4).flat_map(|_| next()).collect()
}
