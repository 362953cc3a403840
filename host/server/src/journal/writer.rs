//! The thread that writes a journal: a slow disk mustn't hold up the relay, and a full one mustn't stop it.

use std::fmt::Display;
use std::fs::File;
use std::io::{self, Write};
use std::path::PathBuf;
use std::sync::mpsc::{self, Receiver, RecvTimeoutError, Sender, SyncSender};
use std::sync::Arc;
use std::thread::{self, JoinHandle};
use std::time::Duration;

use engine::relay::RECORD;

use super::shared::Shared;
use crate::log::{Event, Log, Place};

/// Bytes that may wait for the disk: a million records. That is a minute of the most that all allowances pay for, and some 16
/// seconds of messages that are refused for nothing. A journal that would need more ends.
pub const LIMIT: usize = 1 << 24;

/// Buffers that are kept for the next records.
const SPARE: usize = 2;

/// How soon who waits for a sync finds out that the journal has ended.
const STEP: Duration = Duration::from_millis(100);

/// What a journal's records are written to.
pub trait Disk: Send {
    fn append(&mut self, bytes: &[u8]) -> io::Result<()>;
    /// Cuts off what is no whole record, and gives how many are left.
    fn cut(&mut self) -> io::Result<u64>;
    fn sync(&mut self) -> io::Result<()>;
}

impl Disk for File {
    fn append(&mut self, bytes: &[u8]) -> io::Result<()> {
        self.write_all(bytes)
    }

    fn cut(&mut self) -> io::Result<u64> {
        let records = self.metadata()?.len() / RECORD as u64;
        self.set_len(records * RECORD as u64)?;
        Ok(records)
    }

    fn sync(&mut self) -> io::Result<()> {
        self.sync_data()
    }
}

/// What the thread is to do, in this order.
enum Job {
    Write(Vec<u8>),
    /// Who waits holds the other end, and is told by the end of this one.
    Sync(Sender<()>),
    /// What comes next isn't written, for want of room for what waits.
    End,
    /// To be tried again: the end isn't noted yet.
    NoteEnd,
}

/// Where the thread writes to, and where it tells of it.
pub struct Target<D> {
    pub path: PathBuf,
    pub disk: D,
    pub log: Arc<Log>,
    /// Held as long as the thread runs, so that no other relay uses the file.
    pub _lock: File,
}

/// The other threads' side.
pub struct Writer {
    jobs: Sender<Job>,
    shared: Arc<Shared>,
    thread: JoinHandle<()>,
    /// Notes an end that the other thread would note too late.
    noting: Option<JoinHandle<()>>,
    log: Arc<Log>,
    /// Buffers whose records are written.
    spare: Receiver<Vec<u8>>,
}

/// Brings to the disk what was handed over.
#[derive(Clone)]
pub struct Syncer {
    jobs: Sender<Job>,
    shared: Arc<Shared>,
}

impl Syncer {
    /// Waits until all that was handed over before is on the disk, or the journal has ended: what it still writes then may
    /// take its disk long.
    pub fn sync(&self) {
        let (done, waits) = mpsc::channel();
        if self.has_ended() || self.jobs.send(Job::Sync(done)).is_err() {
            return;
        }
        // There is nothing to receive but the end.
        while waits.recv_timeout(STEP) == Err(RecvTimeoutError::Timeout) && !self.has_ended() {}
    }

    pub fn has_ended(&self) -> bool {
        self.shared.has_ended()
    }
}

impl Writer {
    pub fn start(target: Target<impl Disk + 'static>) -> io::Result<Self> {
        let (sender, jobs) = mpsc::channel();
        let (shared, log) = (Arc::new(Shared::new(target.path.clone())), Arc::clone(&target.log));
        let (written, spare) = mpsc::sync_channel(SPARE);
        let side = DiskSide { target, shared: Arc::clone(&shared), written, is_synced: true, has_ended: false };
        let thread = thread::Builder::new().name("journal".into()).spawn(move || side.run(jobs))?;
        Ok(Self { jobs: sender, shared, thread, noting: None, log, spare })
    }

    /// An empty buffer that was used before.
    pub fn spare(&self) -> Option<Vec<u8>> {
        self.spare.try_recv().ok()
    }

    /// Hands records over. If the journal has ended they are dropped; and it ends with them if too many wait.
    pub fn write(&mut self, mut records: Vec<u8>) {
        if self.shared.has_ended() {
            self.note_again();
            return;
        }
        let before = self.shared.add_waiting(records.len());
        if before > 0 {
            // Else each of many small ones that wait would hold a whole buffer.
            records.shrink_to_fit();
        }
        let job = if before + records.len() <= LIMIT { Job::Write(records) } else { self.give_up() };
        // It fails only if the thread has ended, which nothing ends.
        let _ = self.jobs.send(job);
    }

    /// The disk takes nothing, and the thread may not be able to tell of it for long, nor to note it: a relay that is killed
    /// before would go on with a journal that lacks calls.
    fn give_up(&mut self) -> Job {
        self.shared.end();
        let shared = Arc::clone(&self.shared);
        // Where this fails the journal's own thread notes it, or tells why it can't.
        let note = move || drop(shared.note_end());
        self.noting = thread::Builder::new().name("journal's end".into()).spawn(note).ok();
        let event = Event { kind: "journal slow", place: Place::Relay };
        self.log.record(event, None, format_args!("the journal ends with the {LIMIT} bytes that wait for its disk"));
        Job::End
    }

    /// An end that couldn't be noted is to be noted as soon as it can be.
    fn note_again(&self) {
        if self.shared.take_unnoted() {
            let _ = self.jobs.send(Job::NoteEnd);
        }
    }

    pub fn syncer(&self) -> Syncer {
        Syncer { jobs: self.jobs.clone(), shared: Arc::clone(&self.shared) }
    }

    /// Waits until all is written. Who could still ask for a sync must be gone.
    pub fn finish(self) {
        // The other thread holds the lock: nothing may be noted once it is gone.
        let _ = self.noting.map(JoinHandle::join);
        drop(self.jobs);
        let _ = self.thread.join();
    }
}

/// The thread's side.
struct DiskSide<D> {
    target: Target<D>,
    shared: Arc<Shared>,
    /// Takes buffers back.
    written: SyncSender<Vec<u8>>,
    is_synced: bool,
    has_ended: bool,
}

impl<D: Disk> DiskSide<D> {
    /// Works until nobody can hand over anything any more.
    fn run(mut self, jobs: Receiver<Job>) {
        for job in jobs {
            self.work(job);
        }
        self.sync();
        if self.shared.take_unnoted() {
            self.note_again();
        }
    }

    fn work(&mut self, job: Job) {
        match job {
            Job::Write(mut records) => {
                self.is_synced = false;
                self.attempt(|disk| disk.append(&records));
                self.shared.remove_waiting(records.len());
                records.clear();
                // One too many is freed.
                let _ = self.written.try_send(records);
            }
            Job::Sync(done) => {
                self.sync();
                drop(done);
            }
            Job::End => self.attempt(|_| Err(io::Error::other("its disk was too slow"))),
            Job::NoteEnd => self.note_again(),
        }
    }

    fn sync(&mut self) {
        if !std::mem::replace(&mut self.is_synced, true) {
            self.attempt(Disk::sync);
        }
    }

    /// Does something with the disk. The journal ends if that fails, and nothing is done once it has ended.
    fn attempt(&mut self, act: impl FnOnce(&mut D) -> io::Result<()>) {
        if !self.has_ended {
            act(&mut self.target.disk).unwrap_or_else(|error| self.end(&error));
        }
    }

    /// Ends the journal, with a file that is one, and notes that calls are missing from here on.
    fn end(&mut self, why: &io::Error) {
        self.has_ended = true;
        let cut = self.target.disk.cut();
        // It may be what has failed.
        let _ = self.target.disk.sync();
        let noted = self.note();
        // Not before: a state with later calls is saved when the end is noted.
        self.shared.end();
        let left = match cut {
            Ok(records) => format!("{records} records"),
            Err(error) => format!("records that can't be cut to whole ones ({error})"),
        };
        let unnoted = noted.err().map(|error| format!("; this can't be noted beside it: {error}")).unwrap_or_default();
        self.tell("journal ended", format_args!("has ended, with {left}: {why}{unnoted}"));
    }

    /// Notes the end, which is to be tried again if it fails.
    fn note(&self) -> io::Result<()> {
        let noted = self.shared.note_end();
        self.shared.set_unnoted(noted.is_err());
        noted
    }

    fn note_again(&self) {
        if self.note().is_ok() {
            self.tell("journal's end noted", "has ended, which is noted beside it now");
        }
    }

    fn tell(&self, kind: &'static str, text: impl Display) {
        let Target { path, log, .. } = &self.target;
        let event = Event { kind, place: Place::Relay };
        log.record(event, None, format_args!("the journal '{}' {text}", path.display()));
    }
}
