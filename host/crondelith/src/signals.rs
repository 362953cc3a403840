//! The signals that ask the program to end: Ctrl-C (SIGINT), the usual request to a service (SIGTERM) and the end of
//! the terminal (SIGHUP).

use std::ffi::c_int;
use std::sync::atomic::{AtomicBool, Ordering};
use std::sync::mpsc::{self, Receiver, Sender};
use std::sync::{Arc, Mutex, MutexGuard, PoisonError};
use std::time::{Duration, Instant};
use std::{fs, io, process, thread};

use peer::Closer;
use signal_hook::consts::{SIGHUP, SIGINT, SIGTERM, SIGXFSZ};
use signal_hook::{flag, iterator, low_level};

use crate::{note, Failure};

/// The status of a program that is interrupted before it is done.
const INTERRUPTED: c_int = 1;

/// A signal within this time after the first isn't asking again: timeout(1) sends each one twice.
const AGAIN: Duration = Duration::from_secs(1);

/// Tells of the first signal that asks the program to end.
pub struct Signals(Receiver<()>);

impl Signals {
    /// From now on the signals end nothing by themselves. What ending needs is made here, since there may be no free
    /// file descriptor by then.
    pub fn register() -> Result<Self, Failure> {
        Self::try_register().map_err(unwatched)
    }

    fn try_register() -> io::Result<Self> {
        // Its handler does nothing of use, but with one a write beyond the limit of a file's size fails instead.
        flag::register(SIGXFSZ, Arc::default())?;
        let hang_up = (!is_ignored(SIGHUP)).then_some(SIGHUP);
        let pending = iterator::Signals::new([SIGINT, SIGTERM].into_iter().chain(hang_up))?;
        let (first, signals) = mpsc::channel();
        // A thread that never waits for anything else, so that a second signal works whatever the first one started.
        thread::Builder::new().spawn(move || watch(pending, &first))?;
        Ok(Self(signals))
    }

    /// Waits for the first signal, which may have come already.
    pub fn wait(&mut self) {
        // It fails if the watching thread is gone; then it is better to end than to hear no signal.
        let _ = self.0.recv();
    }
}

/// Tells the first signal, and ends the program at once at a second one: who asks again doesn't want to wait. SIGHUP
/// isn't asking again: the shell and the system both send it when a terminal is closed.
fn watch(mut pending: iterator::Signals, first: &Sender<()>) {
    let mut asked = None;
    for signal in pending.forever() {
        let since = asked.get_or_insert_with(Instant::now).elapsed();
        // Nobody waits any more if it isn't the first.
        let _ = first.send(());
        if signal != SIGHUP && since >= AGAIN {
            // Unlike process::exit, it waits for no output.
            low_level::exit(INTERRUPTED);
        }
    }
}

fn unwatched(error: io::Error) -> Failure {
    Failure::Failed(format!("signals can't be watched: {error}"))
}

/// Whether a signal is ignored from the program's start, as nohup does with SIGHUP. Then it is to stay so.
fn is_ignored(signal: c_int) -> bool {
    let status = fs::read_to_string("/proc/self/status").unwrap_or_default();
    let mask = status.lines().find_map(|line| line.strip_prefix("SigIgn:"));
    let mask = mask.and_then(|mask| u64::from_str_radix(mask.trim(), 16).ok());
    mask.is_some_and(|mask| mask >> (signal - 1) & 1 == 1)
}

/// Ends the program at the first signal: with a line and status 1, or, from when it has a connection to tidy up after,
/// by closing that.
pub struct Watch {
    why: &'static str,
    come: Arc<AtomicBool>,
    connection: Arc<Mutex<Option<Closer>>>,
}

impl Watch {
    /// Starts with no connection. `why` is what the line says.
    pub fn start(why: &'static str) -> Result<Self, Failure> {
        Self::try_start(why).map_err(unwatched)
    }

    fn try_start(why: &'static str) -> io::Result<Self> {
        let mut signals = Signals::try_register()?;
        let watch = Self { why, come: Arc::default(), connection: Arc::default() };
        let (come, connection) = (Arc::clone(&watch.come), Arc::clone(&watch.connection));
        let wait = move || {
            signals.wait();
            come.store(true, Ordering::SeqCst);
            end(why, &connection);
        };
        thread::Builder::new().spawn(wait)?;
        Ok(watch)
    }

    pub fn connected(&self, closer: Closer) {
        *lock(&self.connection) = Some(closer);
    }

    /// Whether a signal has come.
    pub fn interrupted(&self) -> bool {
        self.come.load(Ordering::SeqCst)
    }

    /// Why a command failed: after a signal that is the reason, not the connection's end.
    pub fn explain(&self, failure: Failure) -> Failure {
        match self.interrupted() {
            true => Failure::Failed(self.why.into()),
            false => failure,
        }
    }
}

fn end(why: &str, connection: &Mutex<Option<Closer>>) {
    // Locked until the program has ended, so that no connection comes, nor a file to tidy up, in between.
    match &*lock(connection) {
        Some(closer) => closer.close(),
        None => {
            note(why);
            process::exit(INTERRUPTED)
        }
    }
}

/// What it holds is whole even if a thread panicked.
fn lock(connection: &Mutex<Option<Closer>>) -> MutexGuard<'_, Option<Closer>> {
    connection.lock().unwrap_or_else(PoisonError::into_inner)
}
