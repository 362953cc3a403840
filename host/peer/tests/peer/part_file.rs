//! A file appears under its name when it is complete, and not before.

use std::cell::RefCell;
use std::ffi::OsString;
use std::fs::{self, File};
use std::io::{self, Write};
use std::os::unix::ffi::{OsStrExt, OsStringExt};
use std::os::unix::fs::{symlink, FileExt};
use std::path::{Path, PathBuf};

use peer::{Disk, Error, PartFile, SystemDisk};
use tempfile::TempDir;

use crate::support::{assert_words, fingerprint};

fn folder() -> (TempDir, PathBuf) {
    let folder = TempDir::new().expect("a folder");
    let whole = folder.path().join("file");
    (folder, whole)
}

fn names(folder: &TempDir) -> Vec<OsString> {
    let entries = fs::read_dir(folder.path()).expect("a folder");
    let mut names: Vec<_> = entries.map(|entry| entry.expect("an entry").file_name()).collect();
    names.sort();
    names
}

/// A part with these bytes.
#[track_caller]
fn part(whole: &Path, replace: bool, bytes: &[u8]) -> PartFile {
    let mut part = PartFile::create(whole, replace).expect("a file");
    part.write_all(bytes).expect("written");
    part
}

#[test]
fn kept_or_removed() {
    let (folder, whole) = folder();
    let half = part(&whole, false, b"half");
    let [name] = names(&folder).try_into().expect("one file");
    assert!(name.as_bytes().starts_with(b"file.") && name.as_bytes().ends_with(b".part"), "{name:?}");
    drop(half);
    assert_eq!(names(&folder), [""; 0]);
    for replace in [false, true] {
        let mut whole_part = part(&whole, replace, b"whole");
        assert_eq!(whole_part.keep(&fingerprint(b"whole")).expect("kept"), fingerprint(b"whole"));
        drop(whole_part);
        assert_eq!(names(&folder), ["file"]);
        assert_eq!(fs::read(&whole).expect("the file"), b"whole");
    }
}

#[test]
fn two_receivers_of_one_name_write_two_files() {
    let (folder, whole) = folder();
    let (mut first, mut second) = (part(&whole, true, b"fir"), part(&whole, true, b"sec"));
    first.write_all(b"st").expect("written");
    second.write_all(b"ond").expect("written");
    first.keep(&fingerprint(b"first")).expect("kept");
    assert_eq!(fs::read(&whole).expect("the file"), b"first");
    second.keep(&fingerprint(b"second")).expect("kept");
    assert_eq!(fs::read(&whole).expect("the file"), b"second");
    assert_eq!(names(&folder), ["file"]);
}

#[test]
fn another_file_than_was_sent_is_not_kept() {
    let (folder, whole) = folder();
    let mut changed = part(&whole, true, b"whale");
    assert_words(changed.keep(&fingerprint(b"whole")).expect_err("another"), &["SHA-256 digests differ"]);
    drop(changed);
    assert_eq!(names(&folder), [""; 0]);
}

#[test]
fn what_exists_is_replaced_only_if_asked_for() {
    let (folder, whole) = folder();
    let mut late = part(&whole, false, b"late");
    PartFile::check(&whole, false).expect("free");
    fs::write(&whole, "old").expect("written");
    assert!(matches!(late.keep(&fingerprint(b"late")), Err(Error::Exists(path)) if path == whole));
    drop(late);
    assert!(matches!(PartFile::check(&whole, false), Err(Error::Exists(path)) if path == whole));
    assert_eq!(fs::read(&whole).expect("the file"), b"old");
    PartFile::check(&whole, true).expect("free to replace");
    let mut new = part(&whole, true, b"new");
    assert_eq!(fs::read(&whole).expect("the file"), b"old");
    new.keep(&fingerprint(b"new")).expect("kept");
    assert_eq!(fs::read(&whole).expect("the file"), b"new");
    assert_eq!(names(&folder), ["file"]);
}

#[test]
fn only_a_plain_file_is_replaced() {
    let (folder, whole) = folder();
    assert!(matches!(PartFile::check(folder.path(), true), Err(Error::NotPlain(_))));
    symlink("elsewhere", &whole).expect("a link");
    assert!(matches!(PartFile::check(&whole, true), Err(Error::NotPlain(_))));
}

#[test]
fn a_path_without_a_name_is_a_folders() {
    let (folder, _) = folder();
    for path in ["none/", "none/.", "..", "none/.."].map(|path| folder.path().join(path)) {
        assert_words(PartFile::check(&path, true).expect_err("no name"), &["names a folder"]);
        assert!(matches!(PartFile::create(&path, true), Err(Error::Folder(_))), "{path:?}");
    }
    assert!(matches!(PartFile::check(Path::new(""), true), Err(Error::NotPlain(_))));
}

#[test]
fn a_name_that_no_file_can_have_is_an_error_at_once() {
    let (folder, _) = folder();
    let long = folder.path().join("x".repeat(256));
    assert_words(PartFile::check(&long, true).expect_err("too long"), &["can't be written", "too long"]);
}

#[test]
fn any_name_that_a_file_can_have() {
    let (folder, _) = folder();
    let long = [vec![b'x'; 255], "ä".repeat(127).into_bytes(), vec![0xff; 255], vec![0xbf; 255], b"\xff".to_vec()];
    for name in long.map(OsString::from_vec) {
        let whole = folder.path().join(&name);
        let mut kept = part(&whole, false, b"whole");
        let [part_name] = names(&folder).try_into().expect("one file");
        assert!(name.to_str().is_none() || part_name.to_str().is_some(), "a character is cut: {part_name:?}");
        kept.keep(&fingerprint(b"whole")).expect("kept");
        assert_eq!(names(&folder), [name]);
        fs::remove_file(&whole).expect("removed");
    }
}

#[test]
fn the_kept_file_has_the_permissions_of_any_other() {
    let (folder, whole) = folder();
    let other = folder.path().join("other");
    fs::write(&other, "").expect("written");
    part(&whole, false, b"").keep(&fingerprint(b"")).expect("kept");
    let [kept, other] = [whole, other].map(|path| path.metadata().expect("a file").permissions());
    assert_eq!(kept, other);
}

/// Something else at a path.
fn replace(path: &Path, by_link: bool) {
    fs::remove_file(path).expect("removed");
    match by_link {
        true => symlink("elsewhere", path).expect("a link"),
        false => fs::write(path, "another").expect("written"),
    }
}

#[test]
fn what_has_replaced_the_part_gets_no_name() {
    for (may_replace, by_link) in [(false, false), (false, true), (true, false), (true, true)] {
        let (folder, whole) = folder();
        let mut own = part(&whole, may_replace, b"own");
        let [other] = names(&folder).try_into().expect("one file");
        replace(&folder.path().join(&other), by_link);
        let error = own.keep(&fingerprint(b"own")).expect_err("not kept");
        assert_words(error, &["another file has replaced the received one", ".part'"]);
        drop(own);
        assert_eq!(names(&folder), [other], "neither named nor removed");
    }
}

/// A disk on which another file takes the part's name just before the part gets its own.
struct Racing;

impl Disk for Racing {
    fn sync(&self, file: &File) -> io::Result<()> {
        SystemDisk.sync(file)
    }

    fn link(&self, from: &Path, to: &Path) -> io::Result<()> {
        replace(from, false);
        SystemDisk.link(from, to)
    }

    fn create_new(&self, path: &Path) -> io::Result<()> {
        SystemDisk.create_new(path)
    }

    fn rename(&self, from: &Path, to: &Path) -> io::Result<()> {
        replace(from, false);
        SystemDisk.rename(from, to)
    }

    fn remove(&self, path: &Path) -> io::Result<()> {
        SystemDisk.remove(path)
    }
}

#[test]
fn another_file_that_gets_the_name_is_an_error() {
    for may_replace in [false, true] {
        let (_folder, whole) = folder();
        let mut own = part(&whole, may_replace, b"own");
        let outcome = own.keep_on(&Racing, &fingerprint(b"own"), || false);
        assert!(matches!(outcome, Err(Error::Replaced(path)) if path == whole));
    }
}

#[test]
fn an_interrupted_file_gets_no_name() {
    let (folder, whole) = folder();
    let mut own = part(&whole, true, b"own");
    assert!(matches!(own.keep_on(&SystemDisk, &fingerprint(b"own"), || true), Err(Error::Interrupted)));
    drop(own);
    assert_eq!(names(&folder), [""; 0]);
}

/// Notes what is done on the disk, and fails at the steps that it is told. If "bytes" is among them, it changes one.
struct Noted<'a> {
    steps: RefCell<Vec<&'static str>>,
    fails: &'a [&'static str],
    /// The error's number.
    errno: i32,
}

const EPERM: i32 = 1;
const EIO: i32 = 5;
const EMLINK: i32 = 31;
const EOPNOTSUPP: i32 = 95;

impl Noted<'_> {
    fn note(&self, step: &'static str, act: impl FnOnce() -> io::Result<()>) -> io::Result<()> {
        self.steps.borrow_mut().push(step);
        match self.fails.contains(&step) {
            true => Err(io::Error::from_raw_os_error(self.errno)),
            false => act(),
        }
    }
}

impl Disk for Noted<'_> {
    fn sync(&self, file: &File) -> io::Result<()> {
        let folder = file.metadata().expect("an open file").is_dir();
        if self.fails.contains(&"bytes") && !folder {
            file.write_at(b"N", 0).expect("written");
        }
        self.note(if folder { "sync folder" } else { "sync file" }, || SystemDisk.sync(file))
    }

    fn link(&self, from: &Path, to: &Path) -> io::Result<()> {
        self.note("link", || SystemDisk.link(from, to))
    }

    fn create_new(&self, path: &Path) -> io::Result<()> {
        self.note("create", || SystemDisk.create_new(path))
    }

    fn rename(&self, from: &Path, to: &Path) -> io::Result<()> {
        self.note("rename", || SystemDisk.rename(from, to))
    }

    fn remove(&self, path: &Path) -> io::Result<()> {
        self.note("remove", || SystemDisk.remove(path))
    }
}

/// What came of keeping a file: the outcome, the steps, and what has the name then.
type Kept = (bool, Vec<&'static str>, Option<String>);

/// Keeps a file where these steps fail.
fn kept(replace: bool, old: Option<&str>, fails: &[&'static str]) -> Kept {
    kept_with(EPERM, replace, old, fails)
}

/// Likewise, with this error.
fn kept_with(errno: i32, replace: bool, old: Option<&str>, fails: &[&'static str]) -> Kept {
    let (folder, whole) = folder();
    let mut new = part(&whole, replace, b"new");
    if let Some(old) = old {
        fs::write(&whole, old).expect("written");
    }
    let disk = Noted { steps: RefCell::default(), fails, errno };
    let outcome = new.keep_on(&disk, &fingerprint(b"new"), || false);
    drop(new);
    let content = fs::read_to_string(&whole).ok();
    assert!(names(&folder).iter().all(|name| name == "file"), "{:?}", names(&folder));
    (outcome.is_ok(), disk.steps.into_inner(), content)
}

fn text(content: &str) -> Option<String> {
    Some(content.to_owned())
}

#[test]
fn the_bytes_are_safe_before_the_name_and_the_name_before_the_end() {
    assert_eq!(kept(false, None, &[]), (true, vec!["sync file", "link", "remove", "sync folder"], text("new")));
    assert_eq!(kept(true, Some("old"), &[]), (true, vec!["sync file", "rename", "sync folder"], text("new")));
}

#[test]
fn without_hard_links_the_name_is_reserved_first() {
    let steps = ["sync file", "link", "create", "rename", "sync folder"];
    for errno in [EPERM, EOPNOTSUPP, EMLINK] {
        assert_eq!(kept_with(errno, false, None, &["link"]), (true, steps.to_vec(), text("new")), "{errno}");
    }
    assert_eq!(kept(false, Some("old"), &["link"]), (false, steps[..3].to_vec(), text("old")));
    let undone = vec!["sync file", "link", "create", "rename", "remove"];
    assert_eq!(kept(false, None, &["link", "rename"]), (false, undone, None));
}

#[test]
fn a_step_that_fails_is_told() {
    assert_eq!(kept_with(EIO, false, None, &["link"]), (false, vec!["sync file", "link"], None));
    assert_eq!(kept(false, None, &["sync file"]), (false, vec!["sync file"], None));
    assert_eq!(kept(true, Some("old"), &["rename"]), (false, vec!["sync file", "rename"], text("old")));
    let steps = vec!["sync file", "rename", "sync folder"];
    assert_eq!(kept(true, None, &["sync folder"]), (false, steps, text("new")));
}

#[test]
fn what_is_on_the_disk_counts_and_not_what_was_written() {
    assert_eq!(kept(false, None, &["bytes"]), (false, vec!["sync file"], None));
}
