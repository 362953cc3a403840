//! The journal's thread with disks that fail, stand still or tell what is done with them.

use std::fs::{self, File};
use std::io::{self, ErrorKind};
use std::path::{Path, PathBuf};
use std::sync::mpsc::{self, Receiver, Sender};
use std::sync::{Arc, Mutex};
use std::thread;
use std::time::{Duration, Instant};

use engine::relay::RECORD;
use tempfile::TempDir;

use super::writer::{Disk, Target, Writer, LIMIT};
use super::{Journal, JournalFile, Start, BATCH};
use crate::saver::Saver;
use crate::state_file::StateFile;
use crate::{LeaseTerm, Log, LogFormat, Tables};

/// A disk that takes so many bytes, each of them when it may, and says what is done.
struct Double {
    bytes: Arc<Mutex<Vec<u8>>>,
    room: usize,
    /// It stands still until something comes, or the other end is gone.
    gate: Receiver<()>,
    on_sync: Box<dyn FnMut() -> io::Result<()> + Send>,
}

impl Disk for Double {
    fn append(&mut self, bytes: &[u8]) -> io::Result<()> {
        let _ = self.gate.recv();
        let mut written = self.bytes.lock().expect("no panic");
        let taken = bytes.len().min(self.room - written.len());
        written.extend(&bytes[..taken]);
        (taken == bytes.len()).then_some(()).ok_or(ErrorKind::StorageFull.into())
    }

    fn cut(&mut self) -> io::Result<u64> {
        let mut written = self.bytes.lock().expect("no panic");
        let records = written.len() / RECORD;
        written.truncate(records * RECORD);
        Ok(records as u64)
    }

    fn sync(&mut self) -> io::Result<()> {
        (self.on_sync)()
    }
}

/// A journal on such a disk, in a folder of its own.
struct Bench {
    folder: TempDir,
    bytes: Arc<Mutex<Vec<u8>>>,
    gate: Sender<()>,
    lines: Arc<Mutex<Vec<String>>>,
    log: Arc<Log>,
    journal: Journal,
}

impl Bench {
    fn new(room: usize, on_sync: impl FnMut() -> io::Result<()> + Send + 'static) -> Self {
        let folder = tempfile::tempdir().expect("a folder");
        let (bytes, lines) = (Arc::<Mutex<Vec<u8>>>::default(), Arc::<Mutex<Vec<String>>>::default());
        let log = {
            let lines = Arc::clone(&lines);
            Arc::new(Log::new(LogFormat::Text, move |line| lines.lock().expect("no panic").push(line.to_owned())))
        };
        let path = folder.path().join("journal");
        Start::new(5, LeaseTerm::USUAL).write(&path).expect("a start");
        let lock = File::create(folder.path().join("lock")).expect("a file");
        let (gate, gated) = mpsc::channel();
        let disk = Double { bytes: Arc::clone(&bytes), room, gate: gated, on_sync: Box::new(on_sync) };
        let target = Target { path, disk, log: Arc::clone(&log), _lock: lock };
        let journal = Journal::new(Writer::start(target).expect("a thread"));
        Self { folder, bytes, gate, lines, log, journal }
    }

    fn has_ended(&self) -> bool {
        Start::read(&self.folder.path().join("journal")).expect("a start").ended
    }

    /// What is written in the end, with the lines of the log.
    fn finish(self) -> (Vec<u8>, Vec<String>, bool) {
        let Self { folder, bytes, gate, lines, log, journal } = self;
        drop(gate);
        journal.finish();
        log.flush();
        let ended = Start::read(&folder.path().join("journal")).expect("a start").ended;
        let (bytes, lines) = (bytes.lock().expect("no panic").clone(), lines.lock().expect("no panic").clone());
        (bytes, lines, ended)
    }
}

/// Records that tell their places.
fn record(number: usize) -> [u8; RECORD] {
    let mut record = [7; RECORD];
    record[..8].copy_from_slice(&(number as u64).to_be_bytes());
    record
}

fn records(count: usize) -> Vec<u8> {
    (0..count).flat_map(record).collect()
}

#[test]
fn all_is_written_in_order_and_synced_at_the_end() {
    let synced = Arc::new(Mutex::new(0));
    let count = Arc::clone(&synced);
    let mut bench = Bench::new(usize::MAX, move || {
        *count.lock().expect("no panic") += 1;
        Ok(())
    });
    let many = 3 * BATCH / RECORD + 5;
    (0..many).for_each(|number| bench.journal.append(&record(number)));
    let (bytes, lines, ended) = bench.finish();
    assert!(bytes == records(many), "other records");
    assert_eq!((*synced.lock().expect("no panic"), ended), (1, false));
    assert!(lines.is_empty(), "{lines:?}");
}

#[test]
fn a_full_disk_ends_the_journal_with_a_whole_record_and_stops_nobody() {
    // The second of three batches doesn't fit, and ends within a record.
    let mut bench = Bench::new(BATCH + 3 * RECORD + 5, || Ok(()));
    let each = BATCH / RECORD;
    (0..3 * each).for_each(|number| bench.journal.append(&record(number)));
    let syncer = bench.journal.syncer();
    (0..3).for_each(|_| bench.gate.send(()).expect("the disk is there"));
    syncer.sync();
    assert!(bench.has_ended());
    // What comes later is dropped, also if there is room again.
    (0..2 * each).for_each(|number| bench.journal.append(&record(number)));
    syncer.sync();
    drop(syncer);
    let (bytes, lines, ended) = bench.finish();
    assert!(bytes == records(each + 3) && ended, "{} bytes", bytes.len());
    assert_eq!(lines.len(), 1, "{lines:?}");
    let told = format!("journal' has ended, with {} records: ", each + 3);
    assert!(lines[0].contains(&told) && lines[0].contains("no storage space"), "{lines:?}");
}

#[test]
fn what_cannot_be_synced_ends_the_journal() {
    let mut bench = Bench::new(usize::MAX, || Err(io::Error::other("worn out")));
    bench.journal.append(&record(0));
    let (bytes, lines, ended) = bench.finish();
    assert!(bytes == record(0) && ended);
    assert!(lines.len() == 1 && lines[0].contains("with 1 records: worn out"), "{lines:?}");
}

#[test]
fn a_disk_that_stands_still_stops_nobody_and_ends_the_journal_in_the_end() {
    let mut bench = Bench::new(usize::MAX, || Ok(()));
    let limit = LIMIT / RECORD;
    let start = Instant::now();
    (0..limit).for_each(|number| bench.journal.append(&record(number)));
    bench.log.flush();
    assert!(bench.lines.lock().expect("no panic").is_empty(), "so many may wait");
    (0..2 * BATCH / RECORD).for_each(|_| bench.journal.append(&record(0)));
    assert!(start.elapsed() < Duration::from_secs(5), "it took {:?}", start.elapsed());
    bench.log.flush();
    assert!(bench.lines.lock().expect("no panic")[0].contains("ends with the 16777216 bytes that wait"));
    let (bytes, lines, ended) = bench.finish();
    assert!(bytes == records(limit) && ended, "{} bytes", bytes.len());
    assert!(lines.len() == 2 && lines[1].contains("with 1048576 records: its disk was too slow"), "{lines:?}");
}

#[test]
fn only_what_waits_counts() {
    let mut bench = Bench::new(usize::MAX, || Ok(()));
    let syncer = bench.journal.syncer();
    for _ in 0..3 {
        bench.gate.send(()).expect("the disk is there");
        bench.journal.writer.write(vec![7; LIMIT]);
        syncer.sync();
    }
    drop(syncer);
    let (bytes, lines, ended) = bench.finish();
    assert!(bytes.len() == 3 * LIMIT && !ended, "{} bytes", bytes.len());
    assert!(lines.is_empty(), "{lines:?}");
}

fn becomes_true(mut condition: impl FnMut() -> bool) -> bool {
    let end = Instant::now() + Duration::from_secs(10);
    while !condition() {
        if Instant::now() > end {
            return false;
        }
        thread::sleep(Duration::from_millis(2));
    }
    true
}

/// A relay that is killed meanwhile finds the mark, and the state that it would have without a journal.
#[test]
fn a_disk_that_stands_still_hides_no_end_and_holds_up_no_state() {
    let mut bench = Bench::new(usize::MAX, || Ok(()));
    let path = bench.folder.path().join("state");
    let (file, _) = StateFile::open(&path).expect("a state file");
    let saved = || Tables::load(&path).expect("a state");
    let syncer = bench.journal.syncer();
    let mut saver = Saver::start(file, &tables(1), Some(syncer), Arc::clone(&bench.log)).expect("a saver");
    bench.journal.writer.write(vec![7; LIMIT]);
    saver.save(&tables(2));
    thread::sleep(Duration::from_millis(150));
    assert!(saved() == tables(1) && !bench.has_ended(), "the journal isn't on the disk");
    bench.journal.writer.write(vec![7; RECORD]);
    assert!(becomes_true(|| bench.has_ended()), "the end isn't noted");
    assert!(becomes_true(|| saved() == tables(2)), "the state isn't saved");
    // The clock is saved, once: by it a restart sees that calls are missing.
    saver.save(&at_clock(2, 8));
    assert!(becomes_true(|| saved() == at_clock(2, 8)), "the clock isn't saved");
    saver.save(&at_clock(2, 9));
    thread::sleep(Duration::from_millis(20));
    assert!(saved() == at_clock(2, 8), "the clock is saved again");
    saver.save(&tables(3));
    assert!(becomes_true(|| saved() == tables(3)), "the state isn't saved");
    saver.finish(&tables(4));
    assert!(saved() == tables(4));
    // The thread notes nothing more, or else the start would be none.
    let (bytes, lines, ended) = bench.finish();
    assert!(bytes.len() == LIMIT && ended, "{} bytes", bytes.len());
    assert!(lines.len() == 2 && lines[1].ends_with("records: its disk was too slow"), "{lines:?}");
}

#[test]
fn an_end_that_cannot_be_noted_is_noted_later() {
    for more_calls in [true, false] {
        let mut bench = Bench::new(5, || Ok(()));
        let path = Start::path_for(&bench.folder.path().join("journal"));
        let moved = path.with_extension("moved");
        fs::rename(&path, &moved).expect("a start");
        let hand_over = |journal: &mut Journal| {
            journal.append(&record(0));
            journal.hand_over();
            journal.syncer().sync();
        };
        bench.gate.send(()).expect("the disk is there");
        hand_over(&mut bench.journal);
        if more_calls {
            hand_over(&mut bench.journal);
        }
        fs::rename(&moved, &path).expect("a start");
        if more_calls {
            let is_noted = becomes_true(|| {
                hand_over(&mut bench.journal);
                bench.has_ended()
            });
            assert!(is_noted, "the end isn't noted");
        }
        let (_, lines, ended) = bench.finish();
        assert!(ended && lines.len() == 2, "{lines:?}");
        let unnoted = "; this can't be noted beside it: ";
        assert!(lines[0].contains("with 0 records") && lines[0].contains(unnoted), "{lines:?}");
        assert!(lines[1].ends_with("journal' has ended, which is noted beside it now"), "{lines:?}");
    }
}

fn tables(byte: u8) -> Tables {
    at_clock(byte, 0)
}

fn at_clock(byte: u8, clock: u64) -> Tables {
    let mut bytes = vec![byte; Tables::SIZE];
    bytes[Tables::SIZE - 8..].copy_from_slice(&clock.to_be_bytes());
    Tables::from_bytes(&bytes).expect("tables")
}

/// At each sync of the journal it is noted how many records it has, and which tables the state file.
#[test]
fn the_journal_is_on_the_disk_before_the_state_has_its_name() {
    let folder = tempfile::tempdir().expect("a folder");
    let path = folder.path().join("state");
    let (file, _) = StateFile::open(&path).expect("a state file");
    let (seen, noted) = mpsc::channel();
    let state = path.clone();
    let mut bench = Bench::new(usize::MAX, move || {
        seen.send(fs::read(&state).ok().map(|bytes| bytes[0])).expect("it is noted");
        Ok(())
    });
    (0..3).for_each(|_| bench.gate.send(()).expect("the disk is there"));
    let saved = || fs::read(&path).expect("a state")[0];
    let mut hand_over = |number| {
        bench.journal.append(&record(number));
        bench.journal.hand_over();
        bench.journal.syncer()
    };
    let syncer = hand_over(0);
    let mut saver = Saver::start(file, &tables(1), Some(syncer), Arc::clone(&bench.log)).expect("a saver");
    assert_eq!((noted.try_recv(), saved()), (Ok(None), 1), "synced before there was a state");
    hand_over(1);
    saver.save(&tables(2));
    assert_eq!(noted.recv(), Ok(Some(1)), "synced while the state was the one before");
    hand_over(2);
    saver.finish(&tables(3));
    assert_eq!(noted.try_recv(), Ok(Some(2)), "synced before the last");
    assert_eq!(saved(), 3);
    let (bytes, _, ended) = bench.finish();
    assert!(bytes == records(3) && !ended);
    assert!(noted.try_recv().is_err(), "there was nothing more to sync");
}

fn take(path: &Path) -> io::Result<JournalFile> {
    JournalFile::take(path, Arc::new(Log::new(LogFormat::Text, |_| ())))
}

/// A journal that begins at this time, with a record of that time.
fn begin(path: &Path, time: u64) {
    let mut journal = take(path).and_then(|file| file.begin(Start::new(time, LeaseTerm::USUAL))).expect("a journal");
    journal.append(&record(time as usize));
    journal.finish();
}

fn begun(path: &Path) -> (u64, Vec<u8>) {
    (Start::read(path).expect("a start").time, fs::read(path).expect("a journal"))
}

#[test]
fn what_is_there_is_kept_under_the_next_number() {
    let folder = tempfile::tempdir().expect("a folder");
    let named = |name: &str| folder.path().join(name);
    begin(&named("j"), 1);
    begin(&named("j"), 2);
    begin(&named("j"), 3);
    let of = |time: usize| (time as u64, record(time).to_vec());
    assert_eq!(["j.1", "j.2", "j"].map(|name| begun(&named(name))), [1, 2, 3].map(of));
    // Numbers go up with time, whatever has been removed; and names of other files count for nothing.
    fs::remove_file(named("j.1")).expect("a file");
    fs::write(named("j.6.start"), "").expect("a file");
    for other in ["j.9x", "j.", "k.9", "jj.9", "j.-9"] {
        fs::write(named(other), "").expect("a file");
    }
    Start::note_end(&named("j")).expect("noted");
    begin(&named("j"), 4);
    assert_eq!(["j.2", "j.7", "j"].map(|name| begun(&named(name))), [2, 3, 4].map(of));
    let ended = ["j.2", "j.7", "j"].map(|name| Start::read(&named(name)).expect("a start").ended);
    assert_eq!(ended, [false, true, false]);
}

/// Wherever a relay is killed while it keeps what is there, each journal has a start.
#[test]
fn a_start_without_a_journal_is_replaced() {
    let folder = tempfile::tempdir().expect("a folder");
    let path = folder.path().join("j");
    begin(&path, 1);
    fs::rename(&path, folder.path().join("elsewhere")).expect("a file");
    begin(&path, 2);
    assert_eq!(begun(&path), (2, record(2).to_vec()));
    assert!(!folder.path().join("j.1").exists());
}

#[test]
fn what_may_be_something_else_is_left_alone() {
    let folder = tempfile::tempdir().expect("a folder");
    let path = folder.path().join("j");
    let refusal = |path: &Path| {
        let begun = take(path).and_then(|file| file.begin(Start::new(1, LeaseTerm::USUAL)));
        begun.err().expect("it doesn't begin").to_string()
    };
    fs::write(&path, "a letter").expect("a file");
    assert!(refusal(&path).contains("j.start', so it may be something else: move it away"), "{}", refusal(&path));
    fs::write(Start::path_for(&path), "start of a letter").expect("a file");
    assert!(refusal(&path).contains("its lines aren't"), "{}", refusal(&path));
    let left = [&path, &Start::path_for(&path)].map(|path| fs::read_to_string(path).expect("a file"));
    assert_eq!(left, ["a letter", "start of a letter"]);
    fs::remove_file(Start::path_for(&path)).expect("a file");
    fs::create_dir(Start::path_for(&path)).expect("a folder");
    assert!(refusal(&path).ends_with("j.start': it isn't a plain file"), "{}", refusal(&path));
    let link = folder.path().join("link");
    std::os::unix::fs::symlink(&path, &link).expect("a link");
    for other in [folder.path(), &link, Path::new("/dev/full")] {
        assert!(refusal(other).contains("it isn't a plain file"), "{}", refusal(other));
    }
    let nowhere = PathBuf::from("/missing/j");
    assert!(refusal(&nowhere).contains("the journal '/missing/j': "), "{}", refusal(&nowhere));
}

#[test]
fn a_journal_in_use_is_refused() {
    let folder = tempfile::tempdir().expect("a folder");
    let path = folder.path().join("j");
    let journal = take(&path).and_then(|file| file.begin(Start::new(1, LeaseTerm::USUAL))).expect("a journal");
    let refusal = take(&path).err().expect("it is in use").to_string();
    assert!(refusal.contains("another relay uses it"), "{refusal}");
    journal.finish();
    take(&path).expect("it is free");
}
