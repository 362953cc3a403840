//! The server: the loop on a thread of its own, as the rest of a program sees it.

use std::io;
use std::net::SocketAddr;
use std::path::PathBuf;
use std::sync::mpsc::{self, Sender};
use std::sync::Arc;
use std::thread::{self, JoinHandle};
use std::time::{Duration, Instant};

use mio::{Poll, Waker};

use crate::clock::Clock;
use crate::event_loop::{EventLoop, Parts, WAKER};
use crate::kept::Kept;
use crate::lease_term::{LeaseTerm, TermNote};
use crate::limits::Limits;
use crate::log::{Event, Log, Place, Said};
use crate::port::Listeners;
use crate::relay::Relay;
use crate::statistics::Statistics;
use crate::PARTNERS;

/// How long the server's end waits for the log.
const LOG_WAIT: Duration = Duration::from_secs(2);
const POLL: Duration = Duration::from_millis(10);

/// What a relay is started with.
pub struct Settings {
    pub clock: Box<dyn Clock>,
    pub log: Log,
    pub limits: Limits,
    /// Where the tables are kept from one run to the next.
    pub state: Option<PathBuf>,
    /// Where the calls' records are written to.
    pub journal: Option<PathBuf>,
    /// How long leases last, if it is a fresh relay: tables that were kept have a term of their own. None is the usual one.
    pub lease_term: Option<LeaseTerm>,
}

impl Settings {
    pub fn new(clock: impl Clock + 'static, log: Log) -> Self {
        Self { clock: Box::new(clock), log, limits: Limits::default(), state: None, journal: None, lease_term: None }
    }
}

/// What the loop can be told.
pub enum Command {
    Statistics(Sender<Vec<Statistics>>),
    Stop,
}

/// A running relay. It goes on until it is stopped.
pub struct Server {
    addresses: Vec<SocketAddr>,
    stopper: Stopper,
    running: JoinHandle<io::Result<Vec<Statistics>>>,
    log: Arc<Log>,
    logging: JoinHandle<()>,
}

/// Stops a relay, from any thread. It needs no file descriptor.
#[derive(Clone)]
pub struct Stopper {
    commands: Sender<Command>,
    waker: Arc<Waker>,
}

impl Stopper {
    pub fn stop(&self) {
        self.tell(Command::Stop);
    }

    /// Whether the loop is there to be told.
    fn tell(&self, command: Command) -> bool {
        self.commands.send(command).is_ok() && self.waker.wake().is_ok()
    }
}

impl Server {
    /// Starts a relay on the listeners: a fresh one, or one that goes on with the state that was saved.
    pub fn start(listeners: Listeners, settings: Settings) -> io::Result<Self> {
        let Settings { clock, log, limits, state, journal, lease_term } = settings;
        let log = Arc::new(log);
        let kept = Kept::open(state.as_deref(), journal.as_deref(), &log)?;
        let (relay, saver) = kept.begin(clock, lease_term, &log)?;
        note_term(&relay, lease_term, &log);
        let poll = Poll::new()?;
        let (sender, commands) = mpsc::channel();
        let stopper = Stopper { commands: sender, waker: Arc::new(Waker::new(poll.registry(), WAKER)?) };
        let addresses = listeners.addresses()?;
        let parts = Parts { poll, listeners, relay, log: Arc::clone(&log), limits, saver, commands };
        let event_loop = EventLoop::new(parts)?;
        let logging = {
            let log = Arc::clone(&log);
            thread::Builder::new().name("log".into()).spawn(move || log.run())?
        };
        let running = thread::Builder::new().name("relay".into()).spawn(move || event_loop.run())?;
        Ok(Self { addresses, stopper, running, log, logging })
    }

    /// The first address of each partner's port.
    pub fn addresses(&self) -> &[SocketAddr] {
        &self.addresses
    }

    /// What each partner got so far.
    pub fn statistics(&self) -> Vec<Statistics> {
        let (sender, statistics) = mpsc::channel();
        self.stopper.tell(Command::Statistics(sender));
        statistics.recv().unwrap_or_else(|_| vec![Statistics::default(); PARTNERS])
    }

    pub fn stopper(&self) -> Stopper {
        self.stopper.clone()
    }

    /// Ends every connection, and gives what is still to be written a moment. Gives what each partner got.
    pub fn stop(self) -> io::Result<Vec<Statistics>> {
        self.stopper.stop();
        self.join()
    }

    /// Waits until the relay has been stopped, or has failed.
    pub fn join(self) -> io::Result<Vec<Statistics>> {
        let outcome = self.running.join().unwrap_or_else(|_| Err(io::Error::other("the relay failed")));
        self.log.end();
        // Somebody may have stopped taking the log: then it is left.
        let limit = Instant::now() + LOG_WAIT;
        while Instant::now() < limit && !self.logging.is_finished() {
            thread::sleep(POLL);
        }
        outcome
    }
}

/// Says how long leases last, which a state file may have decided.
fn note_term(relay: &Relay, named: Option<LeaseTerm>, log: &Log) {
    let kept = relay.tables().lease_term();
    let event = Event { kind: "lease term", place: Place::Relay };
    log.record_with(event, None, || Said { text: TermNote { kept, named }, number: Some(("seconds", kept.seconds())) });
}
