//! A journal's bytes, from a file: whole, to be judged, or record by record, to be shown.

use std::fs::File;
use std::io::{self, BufReader, Read, Take, Write};
use std::os::unix::fs::FileTypeExt;
use std::path::Path;

use engine::relay::{Record, RECORD};
use peer::{grouped, Meter, Progress};

use super::entry::Entry;

/// Bytes that are read at most, since a journal is replayed in memory.
pub const LIMIT: u64 = 4 << 30;
/// Bytes above which it is shown how far reading is: those of a million records.
const SHOWN_ABOVE: u64 = 1_000_000 * RECORD as u64;
/// Bytes that are read at a time.
const BLOCK: u64 = 1 << 20;

/// Whether it is shown how far reading and replaying so many bytes is.
pub fn is_shown(length: u64, is_terminal: bool) -> bool {
    length > SHOWN_ABOVE && is_terminal
}

/// A journal that is there.
pub struct Source {
    file: File,
    /// That of a plain file when it was opened: a relay that runs appends to it. A pipe doesn't tell it.
    length: Option<u64>,
}

impl Source {
    pub fn open(path: &Path) -> io::Result<Self> {
        let file = open(path)?;
        let found = file.metadata()?;
        let length = found.is_file().then_some(found.len());
        match length {
            Some(length) if length > LIMIT => Err(too_long()),
            length => Ok(Self { file, length }),
        }
    }

    /// All its bytes. A plain file's meter tells how far reading is.
    pub fn read(self, mut meter: Option<Meter<impl Write>>) -> io::Result<Vec<u8>> {
        let Self { file, length } = self;
        let total = length.unwrap_or_default();
        let bytes = read_blocks(file, length, |done| {
            meter.iter_mut().for_each(|meter| meter.update(Progress::Moved { done, total }));
        });
        meter.iter_mut().for_each(Meter::end);
        bytes.and_then(|bytes| if bytes.len() as u64 > LIMIT { Err(too_long()) } else { Ok(bytes) })
    }

    /// That of a plain file; else 0, as long as it isn't read.
    pub fn length(&self) -> u64 {
        self.length.unwrap_or_default()
    }
}

/// Reads so many bytes, for which there has to be memory; or, if that isn't known, what comes, up to a byte too many.
fn read_blocks(from: File, length: Option<u64>, mut progress: impl FnMut(u64)) -> io::Result<Vec<u8>> {
    let mut bytes = Vec::new();
    bytes.try_reserve_exact(length.unwrap_or_default() as usize)?;
    let mut from = from.take(length.unwrap_or(LIMIT + 1));
    while read_block(&mut from, &mut bytes)? > 0 {
        progress(bytes.len() as u64);
    }
    Ok(bytes)
}

/// Reads at most a block more. Room for it is asked for before, since reading would end the program where there is none.
fn read_block(from: &mut Take<File>, bytes: &mut Vec<u8>) -> io::Result<usize> {
    let length = from.limit().min(BLOCK);
    bytes.try_reserve(length as usize)?;
    from.by_ref().take(length).read_to_end(bytes)
}

/// What else a name can stand for may have no end.
fn open(path: &Path) -> io::Result<File> {
    let file = File::open(path)?;
    let kind = file.metadata()?.file_type();
    match kind.is_file() || kind.is_fifo() {
        true => Ok(file),
        false => Err(io::Error::other("it is neither a plain file nor a pipe")),
    }
}

fn too_long() -> io::Error {
    io::Error::other(format!("it has more than {} bytes, which is too much to replay", grouped(LIMIT)))
}

/// What a journal has, at a place.
pub enum Part {
    Record(Entry),
    /// So many bytes at the end, fewer than a record has.
    ShortTail(usize),
}

/// The records of a file, one after the other, each with its place.
pub struct Parts {
    from: BufReader<File>,
    place: u64,
}

impl Parts {
    pub fn open(path: &Path) -> io::Result<Self> {
        Ok(Self { from: BufReader::new(open(path)?), place: 0 })
    }

    /// None at the end.
    fn read(&mut self) -> io::Result<Option<Part>> {
        let mut bytes = Vec::with_capacity(RECORD);
        self.from.by_ref().take(RECORD as u64).read_to_end(&mut bytes)?;
        Ok(match (bytes.len(), Record::try_from(bytes)) {
            (0, _) => None,
            (_, Ok(record)) => Some(Part::Record(Entry::from(&record))),
            (length, Err(_)) => Some(Part::ShortTail(length)),
        })
    }
}

impl Iterator for Parts {
    type Item = io::Result<(u64, Part)>;

    fn next(&mut self) -> Option<Self::Item> {
        let place = self.place;
        self.place += RECORD as u64;
        self.read().transpose().map(|part| part.map(|part| (place, part)))
    }
}

#[cfg(test)]
mod tests {
    use std::fs;

    use peer::Meter;

    use super::{is_shown, Source, BLOCK, RECORD};

    #[test]
    fn a_meter_shows_the_bytes_that_are_read() {
        let folder = tempfile::tempdir().expect("a folder");
        let path = folder.path().join("journal");
        let bytes: Vec<u8> = (0..2 * BLOCK + 5).map(|place| (place / 3) as u8).collect();
        fs::write(&path, &bytes).expect("a file");
        let source = Source::open(&path).expect("a journal");
        assert_eq!(source.length(), bytes.len() as u64);
        let mut shown = Vec::new();
        let read = source.read(Some(Meter::new(&mut shown, || Some(40)))).expect("its bytes");
        assert!(read == bytes, "other bytes are read");
        let shown = String::from_utf8(shown).expect("text");
        assert!(shown.ends_with('\n') && shown.contains("\r2,097,157 of 2,097,157 bytes, 100 %"), "{shown:?}");
    }

    #[test]
    fn more_than_a_million_records_are_shown_on_a_terminal() {
        let million = 1_000_000 * RECORD as u64;
        assert_eq!(
            [is_shown(million, true), is_shown(million + 1, true), is_shown(million + 1, false)],
            [false, true, false]
        );
    }
}
