//! `crondelith serve`: the relay, until it is interrupted.

use std::net::{IpAddr, SocketAddr};
use std::path::PathBuf;
use std::thread;
use std::time::SystemTime;

use clap::{value_parser, Args, ValueEnum};
use serde_json::{json, Value};
use server::{bind, LeaseTerm, Log, LogFormat, Server, Settings, SystemClock, PARTNERS};

use crate::output::write_line;
use crate::signals::Signals;
use crate::{note, Failure, Outcome};

pub const DEFAULT_BASE_PORT: u16 = 7700;
/// The highest from which each partner has a port.
pub const HIGHEST_BASE_PORT: u16 = u16::MAX - (PARTNERS as u16 - 1);

const ABOUT: &str = "\
Runs the relay until it is interrupted (Ctrl-C), one port per partner.";

const DETAILS: &str = "\
The protocol is SVSC of the ScreenView paper over TCP: frames of a two-byte length, which counts
the type byte, type 1 and a message. A partner has eight connections, and an allowance of 262,144
that refills by 65,536 each second. An open and each message but the end of a session cost 32, the
bytes received and the bytes that the relay sends for it: a message of data 32 and twice its length,
a session 140 if it is established and else 43. Three seconds pay for any of them. The protocol has
no message for a refusal, so this is what follows from one:

  allowance used up (9)      the message waits for the refill, and nothing more is read from its
                             connection meanwhile; a partner's connections share a refill by cost
  no session (8)             the message is dropped, and the next one is taken after a pause of a
                             millisecond for each KiB of it
  malformed (6), or not
  permitted then (7)         the connection is closed
  a ninth connection         waits a tenth of a second for a number, and is closed; so is a new one
                             while the partner has sixteen, with those that have ended and are
                             still there

Each has a log line on stderr, with the time and the peer's address, and of a message that waits
how many units are missing; from the eleventh line of a kind and connection on they are summed up,
every 5 seconds. A line names the connection's number, or its partner alone before the connection
is opened: then it has none. At most some 160 KiB wait for a connection that reads slowly: beyond
that its senders wait too. A connection is closed that takes less than 16 KiB of what waits for
it in 30 seconds, doesn't answer the relay's version in 10, or leaves a frame unfinished for 30.
One that can't be opened in 60 for want of allowance is closed too. The kernel tells of what is
taken in lumps, so a peer should read 10 KB a second or more.

A peer that was sent nothing for 30 seconds is sent a Keepalive. It answers by a Keepalive, or any
other message that is accepted; if none is in 60 seconds, its connection is closed, and the other
side of its session told. So a peer that has vanished is found in a minute and a half; by TCP, in
five minutes, if it is sent something all the while and its machine acknowledges nothing. A relay
that stood still for 5 seconds itself judges nobody for 5 more.

A lease's term is how long it lasts from when the relay gives, renews or extends it; by then its
holder has to have asked for more time. '--lease-term' names that of a fresh relay, whose tables
keep it. With a file of '--state' that exists, the file's term holds, whatever is named: in one of
an older relay, which has none, 3,600 seconds, and in one whose term is out of range 600. A line in
the log says at each start how long leases last, and why if that isn't what was named.

With '--state' the three tables are in FILE: they are loaded at the start, saved twice a second when
more than their clock has changed, and at the end. Leases and allowances go on; connections are
gone. What a killed relay did in its last second is lost. Only one relay can use a file; beside it
stand FILE.lock and, for moments, FILE.new. A file of another size is an error and is left as it is.
'crondelith explain' tells from FILE what the relay would answer to a call, and why.

With '--journal' the record of each call, 16 bytes, is appended to FILE in the order of the calls,
written at least once a second and brought to the disk at the end. The time and the term of the
fresh start that it is replayed from are in FILE.start, lines of text. A fresh relay begins a new
journal: one that is there is kept as FILE.1, or under the next number, and its start as
FILE.1.start. A relay that goes on with a file of '--state' goes on with its journal: a torn record
at the end is cut off, the rest replayed, and its allowances taken, so that what was charged after
the state was last saved counts. It doesn't start if the journal isn't there, contradicts the rules,
or is of a relay with another term; without '--journal', or with the state file moved away, it does.
A full disk, or one that 16 MiB of records wait for, ends the journal: a line in the log tells so,
FILE stays good up to its last whole record, FILE.start gets a line 'ended', and the relay goes on
without it, also when it is started again. So does one whose journal lacks calls that the state has.
An open connection is looked at once a second, which makes a record too: 64 of them write 88 MB a
day. Only one relay can use a FILE; beside it stands FILE.lock.

The relay's clock is the machine's at the start (or the state's or the journal's, if that is later)
and goes on by itself; that the machine's time was set meanwhile is a line in the log.

At the end, what waits for allowance is lost; what was accepted has 2 seconds to be written.
SIGINT (Ctrl-C), SIGTERM and SIGHUP end the relay in order; a second Ctrl-C or SIGTERM, a second
later, ends it at once. Under nohup, SIGHUP is ignored.

The exit status is 0 if the relay has run and ended in order, 1 if it couldn't run or was ended at
once, and 2 if the arguments are wrong.";

/// Run the relay on this machine, one port per partner
#[derive(Args)]
#[command(long_about = ABOUT, after_long_help = DETAILS)]
pub struct Arguments {
    /// An IPv4 or IPv6 address to listen on;
    /// may be repeated
    #[arg(long, verbatim_doc_comment, value_name = "ADDRESS", default_value = "127.0.0.1")]
    listen: Vec<IpAddr>,

    /// The port of partner 0, 1 to 65528;
    /// partner p has port N + p
    #[arg(long, visible_alias = "base-port", verbatim_doc_comment, value_name = "N",
        default_value_t = DEFAULT_BASE_PORT,
        value_parser = value_parser!(u16).range(1..=i64::from(HIGHEST_BASE_PORT)))]
    port: u16,

    /// A file that keeps the relay's tables from one run to the next
    /// [default: none]
    #[arg(long, verbatim_doc_comment, value_name = "FILE")]
    state: Option<PathBuf>,

    /// A file that each call's record is appended to,
    /// for 'crondelith journal' to judge [default: none]
    #[arg(long, verbatim_doc_comment, value_name = "FILE")]
    journal: Option<PathBuf>,

    /// How long leases last, 600 to 86400; where the FILE of
    /// '--state' exists, its own term holds [default: 600]
    #[arg(long, verbatim_doc_comment, value_name = "SECONDS", allow_negative_numbers = true)]
    lease_term: Option<LeaseTerm>,

    /// How the lines on stderr look; one of JSON
    /// has its time and event
    #[arg(long, verbatim_doc_comment, value_name = "FORMAT", default_value = "text")]
    log: Format,
}

#[derive(Clone, Copy, ValueEnum)]
enum Format {
    Text,
    Json,
}

impl From<Format> for LogFormat {
    fn from(format: Format) -> Self {
        match format {
            Format::Text => Self::Text,
            Format::Json => Self::Json,
        }
    }
}

pub fn run(arguments: Arguments) -> Outcome {
    let mut signals = Signals::register()?;
    let Arguments { listen, port, state, journal, lease_term, log } = arguments;
    let log_to_stderr = Log::new(log.into(), write_line);
    let settings = Settings { state, journal, lease_term, ..Settings::new(SystemClock::new(), log_to_stderr) };
    let server = bind(&listen, port).and_then(|listeners| Server::start(listeners, settings));
    let server = server.map_err(|error| Failure::Failed(error.to_string()))?;
    for (partner, address) in places(&listen, port) {
        log.tell(
            &format!("partner {partner} at {address}"),
            json!({ "event": "listening", "partner": partner, "address": address.to_string() }),
        );
    }
    let stopper = server.stopper();
    let watch = move || {
        signals.wait();
        stopper.stop();
    };
    thread::Builder::new().spawn(watch).map_err(|error| Failure::Failed(format!("no thread for signals: {error}")))?;
    log.tell("the relay runs; Ctrl-C ends it", json!({ "event": "running" }));
    // It also ends if the relay fails.
    server.join().map(drop).map_err(|error| Failure::Failed(error.to_string()))
}

/// Each partner with each of its addresses.
fn places(listen: &[IpAddr], port: u16) -> impl Iterator<Item = (u16, SocketAddr)> + '_ {
    let of_partner = move |partner| listen.iter().map(move |address| (partner, (*address, port + partner).into()));
    (0..PARTNERS as u16).flat_map(of_partner)
}

impl Format {
    /// A line of the program's own beside those of the relay, as text or as an event.
    fn tell(self, text: &str, mut event: Value) {
        match self {
            Self::Text => note(text),
            Self::Json => {
                event["time"] = humantime::format_rfc3339_millis(SystemTime::now()).to_string().into();
                write_line(&event.to_string());
            }
        }
    }
}
