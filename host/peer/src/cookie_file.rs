//! A lease's cookie in a file, from one run of a receiver to the next.

use std::ffi::OsString;
use std::fs::{self, File, OpenOptions, Permissions};
use std::io::{self, Read, Write};
use std::os::unix::fs::{MetadataExt, OpenOptionsExt, PermissionsExt};
use std::path::{Path, PathBuf};

use codec::COOKIE_LENGTH;

use crate::part_file::{folder_of, name_of, PRIVATE};
use crate::{Cookie, Error, Fingerprint, PartFile};

/// Hex digits of a cookie.
const DIGITS: usize = 2 * COOKIE_LENGTH;
/// The bits of a mode that let others than the owner in.
const OTHERS: u32 = 0o077;
/// What is added to the file's name for that of its lock, and of the cookie of before.
const LOCK: &str = ".lock";
const OLD: &str = ".old";

/// A file of one line, the cookie in hex digits. It is whole at every moment: a new one is written beside it and then
/// takes its name.
pub struct CookieFile {
    path: PathBuf,
    cookie: Option<Cookie>,
    access: Access,
    /// Held as long as the receiver runs: two with one cookie would overwrite each other's.
    _lock: File,
}

/// What became of the cookie of before when another is kept.
#[derive(Debug)]
pub enum Backup {
    /// There was none, or it is the same.
    Unneeded,
    /// It is in the old file.
    Made,
    /// It is lost.
    Failed(io::Error),
}

/// Who can read a cookie file.
#[derive(Clone, Copy, Debug, PartialEq, Eq)]
pub enum Access {
    Owner,
    /// The owner since it was opened; before, others too, by this mode.
    Tightened(u32),
    /// Others too, by this mode, which can't be changed.
    Others(u32),
}

impl CookieFile {
    /// Takes the file for this receiver and reads its cookie, if it exists. Whatever would keep a new cookie from being
    /// saved is an error already now, as far as it can be tried. The error of a file that isn't one of these is of the kind
    /// InvalidData, and such a file is left alone.
    pub fn open(path: &Path) -> io::Result<Self> {
        Self::open_resolved(path).map_err(|error| named(path, error))
    }

    fn open_resolved(path: &Path) -> io::Result<Self> {
        let path = resolve(path)?;
        // So that nothing is put beside a file that is none.
        read(&path)?;
        let lock = lock(&path)?;
        // Only from now on nobody else writes it.
        let (cookie, access) = match read(&path)? {
            Some((cookie, file)) => (Some(cookie), tighten(&file)?),
            None => (None, Access::Owner),
        };
        try_out(&path).map_err(|error| about("a new one can't be written beside it", error))?;
        Ok(Self { path, cookie, access, _lock: lock })
    }

    /// The cookie that was kept last, if any.
    pub fn cookie(&self) -> Option<&Cookie> {
        self.cookie.as_ref()
    }

    pub fn access(&self) -> Access {
        self.access
    }

    pub fn path(&self) -> &Path {
        &self.path
    }

    /// Where the cookie is that was replaced last, if any was.
    pub fn old_path(&self) -> PathBuf {
        Self::old_path_of(&self.path)
    }

    /// Likewise, of a cookie file at this path, which is no link.
    pub fn old_path_of(path: &Path) -> PathBuf {
        beside(path, OLD)
    }

    /// Where the lock is of a cookie file at this path, which is no link.
    pub fn lock_path_of(path: &Path) -> PathBuf {
        beside(path, LOCK)
    }

    /// Keeps a cookie. One that it replaces is kept in the old file before that, as its id may be had again; if that fails, the
    /// new one is kept all the same. When this returns, both survive a power cut.
    pub fn keep(&mut self, cookie: &Cookie) -> io::Result<Backup> {
        if self.cookie.as_ref() == Some(cookie) {
            return Ok(Backup::Unneeded);
        }
        let backup = match &self.cookie {
            None => Backup::Unneeded,
            Some(old) => self.back_up(old).map_or_else(Backup::Failed, |()| Backup::Made),
        };
        write(cookie, &self.path).map_err(|error| named(&self.path, error))?;
        self.cookie = Some(*cookie);
        Ok(backup)
    }

    /// Only an earlier backup is replaced: anything else of that name is another's.
    fn back_up(&self, old: &Cookie) -> io::Result<()> {
        let path = self.old_path();
        let kept = check_backup(&path).and_then(|()| write(old, &path));
        kept.map_err(|error| about(&format!("'{}'", path.display()), error))
    }
}

fn check_backup(path: &Path) -> io::Result<()> {
    let found = match path.symlink_metadata() {
        Err(error) if error.kind() == io::ErrorKind::NotFound => return Ok(()),
        other => other?,
    };
    // Before it is opened, as that could follow a link, or wait for a pipe.
    if !found.is_file() {
        return Err(no_cookie("it isn't a plain file"));
    }
    let bytes = contents(&File::open(path)?)?;
    parse(&bytes).map(drop).ok_or_else(|| no_cookie("it holds something else than a cookie"))
}

fn write(cookie: &Cookie, path: &Path) -> io::Result<()> {
    let line = line(cookie);
    let mut part = part_with(&line, path)?;
    part.keep(&Fingerprint::read(&line[..])?).map(drop).map_err(unwritable)
}

/// Writes as much as a cookie beside the file, and removes it.
fn try_out(path: &Path) -> io::Result<()> {
    part_with(&line(&[0; COOKIE_LENGTH]), path).map(drop)
}

fn part_with(line: &[u8], path: &Path) -> io::Result<PartFile> {
    let mut part = PartFile::create_private(path).map_err(unwritable)?;
    part.write_all(line)?;
    Ok(part)
}

fn named(path: &Path, error: io::Error) -> io::Error {
    about(&format!("the cookie file '{}'", path.display()), error)
}

fn about(what: &str, error: io::Error) -> io::Error {
    io::Error::new(error.kind(), format!("{what}: {error}"))
}

fn no_cookie(why: impl Into<String>) -> io::Error {
    io::Error::new(io::ErrorKind::InvalidData, why.into())
}

fn unwritable(error: Error) -> io::Error {
    match error {
        Error::Write(error) => error,
        other => io::Error::other(other.to_string()),
    }
}

/// Where the file is, or will be: a link stays one. What is there must be a plain file.
fn resolve(path: &Path) -> io::Result<PathBuf> {
    let name = name_of(path).map_err(|_| no_cookie("it has to be the name of a file"))?;
    match path.symlink_metadata() {
        Err(error) if error.kind() == io::ErrorKind::NotFound => {
            let folder = folder_of(path).canonicalize().map_err(|error| about("its folder", error))?;
            return Ok(folder.join(name));
        }
        other => other?,
    };
    let path = path.canonicalize().map_err(|error| match error.kind() {
        io::ErrorKind::NotFound => about("it is a link that leads nowhere", error),
        _ => error,
    })?;
    match path.metadata()?.is_file() {
        true => Ok(path),
        false => Err(no_cookie("it isn't a plain file")),
    }
}

/// The cookie in a file, and the file; None if it doesn't exist.
fn read(path: &Path) -> io::Result<Option<(Cookie, File)>> {
    let file = match File::open(path) {
        Err(error) if error.kind() == io::ErrorKind::NotFound => return Ok(None),
        other => other.map_err(|error| about("it can't be read", error))?,
    };
    let bytes = contents(&file)?;
    match parse(&bytes) {
        Some(cookie) => Ok(Some((cookie, file))),
        None => Err(no_cookie(not_a_cookie(&bytes))),
    }
}

/// More than a cookie and the end of its line if there is more, so that what is too long shows.
fn contents(file: &File) -> io::Result<Vec<u8>> {
    let mut bytes = Vec::new();
    file.take(DIGITS as u64 + 3).read_to_end(&mut bytes)?;
    Ok(bytes)
}

fn not_a_cookie(bytes: &[u8]) -> String {
    let what = if bytes.is_empty() { "it is empty" } else { "it holds something else" };
    format!("{what}, not a line of {DIGITS} hex digits; it is left as it is, and under another name a new id is leased")
}

/// The digits of a cookie. The end of the line may be missing, or be that of another system.
fn parse(bytes: &[u8]) -> Option<Cookie> {
    let line = bytes.strip_suffix(b"\n").unwrap_or(bytes);
    let digits = line.strip_suffix(b"\r").unwrap_or(line);
    let digit = |byte: &u8| char::from(*byte).to_digit(16).map(|digit| digit as u8);
    let digits = digits.iter().map(digit).collect::<Option<Vec<_>>>().filter(|digits| digits.len() == DIGITS)?;
    let bytes = digits.chunks_exact(2).map(|pair| pair[0] << 4 | pair[1]).collect::<Vec<_>>();
    bytes.try_into().ok()
}

fn line(cookie: &Cookie) -> Vec<u8> {
    let digits = cookie.iter().map(|byte| format!("{byte:02x}")).collect::<String>();
    format!("{digits}\n").into_bytes()
}

/// Takes away what others may do with the file. Some file systems have no modes, and a file of another owner keeps its.
fn tighten(file: &File) -> io::Result<Access> {
    let mode = || file.metadata().map(|metadata| metadata.mode() & 0o7777);
    let before = mode()?;
    if before & OTHERS == 0 {
        return Ok(Access::Owner);
    }
    // Whether it worked is seen by the mode.
    let _ = file.set_permissions(Permissions::from_mode(PRIVATE));
    Ok(match mode()? {
        after if after & OTHERS == 0 => Access::Tightened(before),
        after => Access::Others(after),
    })
}

/// The file with this added to its name.
fn beside(path: &Path, suffix: &str) -> PathBuf {
    let mut name = OsString::from(path);
    name.push(suffix);
    name.into()
}

/// The lock is on a file beside it, as the file itself is another whenever it is written.
fn lock(path: &Path) -> io::Result<File> {
    let name = CookieFile::lock_path_of(path);
    let file = lock_file(&name).map_err(|error| about(&format!("'{}'", name.display()), error))?;
    match file.try_lock() {
        Ok(()) => Ok(file),
        Err(fs::TryLockError::WouldBlock) => Err(io::Error::other("another receiver uses it")),
        Err(fs::TryLockError::Error(error)) => Err(error),
    }
}

/// A new file, or the one that is there, which stays as it is: it may be another program's. A link could lead to anything, and
/// opening a pipe would wait.
fn lock_file(path: &Path) -> io::Result<File> {
    match OpenOptions::new().write(true).create_new(true).mode(PRIVATE).open(path) {
        Err(error) if error.kind() == io::ErrorKind::AlreadyExists => match path.symlink_metadata()?.is_file() {
            true => OpenOptions::new().write(true).open(path),
            false => Err(io::Error::other("it isn't a plain file")),
        },
        file => file.inspect(|file| {
            // The umask may have left less, and the next receiver has to open it. This one holds it either way.
            let _ = file.set_permissions(Permissions::from_mode(PRIVATE));
        }),
    }
}
