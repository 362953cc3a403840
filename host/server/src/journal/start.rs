//! What a journal begins with: a file of lines beside it, since the journal itself holds records alone.

use std::fmt;
use std::fs::{File, OpenOptions};
use std::io::{self, Read, Write};
use std::path::{Path, PathBuf};
use std::str::FromStr;

use crate::clock::CLOCK_LIMIT;
use crate::files::{beside, replace};
use crate::lease_term::LeaseTerm;

/// Nothing in it is a secret.
const MODE: u32 = 0o644;
/// Bytes that are read at most: many more than the lines have.
const LIMIT: u64 = 4_096;
/// The lines: what they begin with, and the one of a journal that has ended.
const TIME: &str = "time";
const TERM: &str = "lease-term";
const ENDED: &str = "ended";

/// The fresh start that a journal is replayed from.
#[derive(Clone, Copy, Debug, PartialEq, Eq)]
pub struct Start {
    pub time: u64,
    pub term: LeaseTerm,
    /// Calls after the journal's last record have none: the disk was full, say. Nothing may be appended.
    pub ended: bool,
}

impl Start {
    pub fn new(time: u64, term: LeaseTerm) -> Self {
        Self { time, term, ended: false }
    }

    /// Where the start of a journal is kept.
    pub fn path_for(journal: &Path) -> PathBuf {
        beside(journal, ".start")
    }

    /// The start of a journal. The error of a file that holds none is of the kind InvalidData.
    pub fn read(journal: &Path) -> io::Result<Self> {
        let read = read_text(&Self::path_for(journal)).and_then(|text| text.parse());
        read.map_err(|error| Self::named(journal, error))
    }

    /// An error that tells which file it is about.
    pub(super) fn named(journal: &Path, error: io::Error) -> io::Error {
        let path = Self::path_for(journal);
        io::Error::new(error.kind(), format!("the journal's start '{}': {error}", path.display()))
    }

    /// Writes it, whole or not at all, and brings it to the disk.
    pub fn write(&self, journal: &Path) -> io::Result<()> {
        replace(&Self::path_for(journal), self.to_string().as_bytes(), MODE, &File::sync_all)
    }

    /// Notes that a journal has ended, by a line more, if it isn't noted: a full disk has room for it, since the file has its
    /// block.
    pub fn note_end(journal: &Path) -> io::Result<()> {
        let is_noted = Self::read(journal)?.ended;
        let mut file = OpenOptions::new().append(true).open(Self::path_for(journal))?;
        if !is_noted {
            file.write_all(format!("{ENDED}\n").as_bytes())?;
        }
        // Whoever wrote it may have failed to.
        file.sync_all()
    }
}

impl fmt::Display for Start {
    fn fmt(&self, to: &mut fmt::Formatter) -> fmt::Result {
        writeln!(to, "{TIME} {}\n{TERM} {}", self.time, self.term.seconds())?;
        if self.ended {
            writeln!(to, "{ENDED}")?;
        }
        Ok(())
    }
}

impl FromStr for Start {
    type Err = io::Error;

    fn from_str(text: &str) -> io::Result<Self> {
        let mut lines = text.lines();
        let time = number(lines.next(), TIME).filter(|time| *time < CLOCK_LIMIT);
        let term = number(lines.next(), TERM).and_then(|seconds| LeaseTerm::new(seconds).ok());
        let ended = match [lines.next(), lines.next()] {
            [None, None] => Some(false),
            [Some(ENDED), None] => Some(true),
            _ => None,
        };
        match (time, term, ended) {
            (Some(time), Some(term), Some(ended)) => Ok(Self { time, term, ended }),
            _ => Err(no_start()),
        }
    }
}

/// The text of a file, if it can be a start's: what else the name stands for may have no end, or wait for somebody.
fn read_text(path: &Path) -> io::Result<String> {
    if !path.metadata()?.is_file() {
        return Err(io::Error::new(io::ErrorKind::InvalidData, "it isn't a plain file"));
    }
    let mut bytes = Vec::new();
    File::open(path)?.take(LIMIT + 1).read_to_end(&mut bytes)?;
    if bytes.len() as u64 > LIMIT {
        return Err(io::Error::new(io::ErrorKind::InvalidData, format!("it has more than {LIMIT} bytes")));
    }
    String::from_utf8(bytes).map_err(|_| no_start())
}

/// The number of a line that begins with this word.
fn number(line: Option<&str>, word: &str) -> Option<u64> {
    let (first, number) = line?.split_once(' ')?;
    number.parse().ok().filter(|_| first == word)
}

fn no_start() -> io::Error {
    let text = format!("its lines aren't '{TIME} SECONDS' and '{TERM} SECONDS', in range, and perhaps '{ENDED}'");
    io::Error::new(io::ErrorKind::InvalidData, text)
}

#[cfg(test)]
mod tests {
    use std::fs;
    use std::io::ErrorKind;
    use std::os::unix::fs::symlink;
    use std::process::Command;

    use super::{Start, LIMIT};
    use crate::LeaseTerm;

    #[test]
    fn what_is_written_is_read_and_can_be_read_by_people() {
        let folder = tempfile::tempdir().expect("a folder");
        let journal = folder.path().join("journal");
        assert_eq!(Start::read(&journal).expect_err("none").kind(), ErrorKind::NotFound);
        let start = Start::new(1_700_000_000, LeaseTerm::LONGEST);
        start.write(&journal).expect("written");
        let path = folder.path().join("journal.start");
        assert_eq!(Start::path_for(&journal), path);
        assert_eq!(fs::read_to_string(&path).expect("text"), "time 1700000000\nlease-term 86400\n");
        assert_eq!(Start::read(&journal).expect("a start"), start);
        Start::note_end(&journal).expect("noted");
        assert_eq!(fs::read_to_string(&path).expect("text"), "time 1700000000\nlease-term 86400\nended\n");
        Start::note_end(&journal).expect("noted before");
        let ended = Start { ended: true, ..start };
        assert_eq!(Start::read(&journal).expect("a start"), ended);
        assert_eq!(ended.to_string().parse::<Start>().expect("a start"), ended);
        assert_eq!(fs::read_dir(folder.path()).expect("a folder").count(), 1, "nothing else is left");
    }

    /// What is no file, or has no end, is told at once.
    #[test]
    fn only_a_short_plain_file_is_a_start() {
        let folder = tempfile::tempdir().expect("a folder");
        let journal = folder.path().join("journal");
        let path = Start::path_for(&journal);
        let refusal = || {
            let error = Start::read(&journal).expect_err("no start");
            assert_eq!(error.kind(), ErrorKind::InvalidData);
            assert!(Start::note_end(&journal).is_err());
            error.to_string()
        };
        assert!(Command::new("mkfifo").arg(&path).status().expect("mkfifo").success());
        assert!(refusal().ends_with("journal.start': it isn't a plain file"), "{}", refusal());
        fs::remove_file(&path).expect("removed");
        symlink("/dev/zero", &path).expect("a link");
        assert!(refusal().ends_with("journal.start': it isn't a plain file"), "{}", refusal());
        fs::remove_file(&path).expect("removed");
        let start = Start::new(1, LeaseTerm::USUAL).to_string();
        let longest = " ".repeat(LIMIT as usize - start.len());
        fs::write(&path, format!("{start}{longest}")).expect("a file");
        assert!(refusal().contains("its lines aren't"), "{}", refusal());
        fs::write(&path, format!("{start}{longest} ")).expect("a file");
        assert!(refusal().ends_with("it has more than 4096 bytes"), "{}", refusal());
        fs::write(&path, [0xff]).expect("a file");
        assert!(refusal().contains("its lines aren't"), "{}", refusal());
    }

    #[test]
    fn other_lines_are_no_start() {
        let folder = tempfile::tempdir().expect("a folder");
        let journal = folder.path().join("journal");
        for text in [
            "",
            "time 1\n",
            "lease-term 600\ntime 1\n",
            "time 1\nlease-term 599\n",
            "time 1\nlease-term 0\n",
            "time 1099511627776\nlease-term 600\n",
            "time -1\nlease-term 600\n",
            "time 1 \nlease-term 600\n",
            "time 1\nlease-term 600\nend\n",
            "time 1\nlease-term 600\nended\nended\n",
            "\u{0}",
        ] {
            fs::write(Start::path_for(&journal), text).expect("a file");
            let error = Start::read(&journal).expect_err("no start");
            assert_eq!(error.kind(), ErrorKind::InvalidData, "{text:?}");
            assert!(error.to_string().contains("journal.start': its lines aren't"), "{error}");
        }
        "time 1099511627775\nlease-term 600".parse::<Start>().expect("the last second is in range");
    }
}
