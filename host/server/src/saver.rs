//! Saves the tables on a thread of its own: a slow disk mustn't hold up the relay.

use std::io;
use std::sync::atomic::{AtomicBool, Ordering};
use std::sync::mpsc::{self, Receiver, Sender};
use std::sync::Arc;
use std::thread::{self, JoinHandle};

use crate::journal::Syncer;
use crate::log::{Event, Log, Place};
use crate::relay::Tables;
use crate::state_file::StateFile;

pub struct Saver {
    tables: Sender<Tables>,
    thread: JoinHandle<()>,
    /// What was handed over last.
    last: Tables,
    /// It couldn't be saved.
    failed: Arc<AtomicBool>,
    /// The journal, as long as it isn't known that it has ended.
    journal: Option<Syncer>,
}

impl Saver {
    /// Saves the tables as they are now, and starts the thread for later. Records of their calls are handed over to the
    /// journal, if there is one, before they come here.
    pub fn start(file: StateFile, tables: &Tables, journal: Option<Syncer>, log: Arc<Log>) -> io::Result<Self> {
        save(&file, tables, journal.as_ref()).map_err(|error| {
            io::Error::other(format!("the state file '{}' can't be written: {error}", file.path().display()))
        })?;
        let (sender, receiver) = mpsc::channel();
        let failed = Arc::new(AtomicBool::new(false));
        let thread = {
            let (failed, journal) = (Arc::clone(&failed), journal.clone());
            thread::Builder::new()
                .name("state".into())
                .spawn(move || run(&file, journal.as_ref(), &receiver, &failed, &log))?
        };
        Ok(Self { tables: sender, thread, last: tables.clone(), failed, journal })
    }

    /// Hands the tables over, if they have changed or couldn't be saved. The clock by itself isn't worth it: it moves with
    /// each second in which somebody is connected. But where a journal has ended it tells that later calls aren't in it.
    pub fn save(&mut self, tables: &Tables) {
        let ended = self.journal.take_if(|journal| journal.has_ended()).is_some();
        if self.failed.swap(false, Ordering::Relaxed) || ended || self.last.differ_beside_clock(tables) {
            self.last = tables.clone();
            // It fails only if the thread has ended, which nothing ends.
            let _ = self.tables.send(tables.clone());
        }
    }

    /// Saves them for the last time, whatever was saved before: the file may have been removed.
    pub fn finish(self, tables: &Tables) {
        let _ = self.tables.send(tables.clone());
        drop(self.tables);
        let _ = self.thread.join();
    }
}

/// Saves what is handed over: the latest, if the disk is slower than the relay.
fn run(file: &StateFile, journal: Option<&Syncer>, tables: &Receiver<Tables>, failed: &AtomicBool, log: &Log) {
    while let Ok(mut latest) = tables.recv() {
        while let Ok(later) = tables.try_recv() {
            latest = later;
        }
        if let Err(error) = save(file, &latest, journal) {
            failed.store(true, Ordering::Relaxed);
            let event = Event { kind: "not saved", place: Place::Relay };
            log.record(event, None, format_args!("the state isn't saved in '{}': {error}", file.path().display()));
        }
    }
}

/// Saves tables. The journal's records are on the disk before: so its allowances are never older than the state's.
fn save(file: &StateFile, tables: &Tables, journal: Option<&Syncer>) -> io::Result<()> {
    journal.into_iter().for_each(Syncer::sync);
    file.save(tables)
}
