//! A cookie in a file: its form and mode, what isn't one, and who uses it.

use std::fs::{self, Permissions};
use std::io::ErrorKind;
use std::os::unix::fs::{symlink, MetadataExt, PermissionsExt};
use std::path::{Path, PathBuf};

use peer::{Access, Backup, Cookie, CookieFile};
use tempfile::TempDir;

const COOKIE: Cookie = *b"\0\x01\x0f\x10\x7f\x80\xff a cookie's bytes";
const DIGITS: &str = "00010f107f80ff206120636f6f6b69652773206279746573";
const OTHER: Cookie = [0xab; 24];

fn folder() -> (TempDir, PathBuf) {
    let folder = TempDir::new().expect("a folder");
    let file = folder.path().join("cookie");
    (folder, file)
}

fn names(folder: &TempDir) -> Vec<String> {
    let entries = fs::read_dir(folder.path()).expect("a folder");
    let mut names: Vec<_> =
        entries.map(|entry| entry.expect("an entry").file_name().into_string().expect("a name")).collect();
    names.sort();
    names
}

fn mode(file: &Path) -> u32 {
    fs::metadata(file).expect("a file").mode() & 0o7777
}

/// The kind and the text of the error.
#[track_caller]
fn refused(file: &Path) -> (ErrorKind, String) {
    let error = CookieFile::open(file).err().expect("an error");
    (error.kind(), error.to_string())
}

#[test]
fn a_cookie_is_had_again() {
    let (folder, path) = folder();
    let mut file = CookieFile::open(&path).expect("a free name");
    assert_eq!((file.cookie(), file.access()), (None, Access::Owner));
    assert_eq!(names(&folder), ["cookie.lock"], "nothing is kept yet");
    for cookie in [COOKIE, OTHER, COOKIE] {
        file.keep(&cookie).expect("kept");
        assert_eq!(file.cookie(), Some(&cookie));
    }
    drop(file);
    assert_eq!(names(&folder), ["cookie", "cookie.lock", "cookie.old"]);
    assert_eq!(fs::read_to_string(&path).expect("a text"), format!("{DIGITS}\n"));
    assert_eq!((mode(&path), mode(&folder.path().join("cookie.lock"))), (0o600, 0o600));
    let again = CookieFile::open(&path).expect("a cookie file");
    assert_eq!((again.cookie(), again.access()), (Some(&COOKIE), Access::Owner));
}

#[test]
fn a_cookie_may_be_written_by_hand() {
    let (_folder, path) = folder();
    for text in [DIGITS.to_owned(), DIGITS.to_uppercase() + "\n", format!("{DIGITS}\r\n")] {
        fs::write(&path, &text).expect("a file");
        assert_eq!(CookieFile::open(&path).expect("a cookie file").cookie(), Some(&COOKIE), "{text:?}");
    }
}

#[test]
fn what_is_no_cookie_is_left_alone() {
    let (folder, path) = folder();
    let texts = [
        String::new(),
        "\n".into(),
        DIGITS[1..].into(),
        DIGITS[2..].into(),
        format!("{DIGITS}0"),
        format!("{DIGITS}00\n"),
        format!("{DIGITS}\n\n"),
        format!("{DIGITS}\r\n0"),
        format!(" {DIGITS}"),
        format!("{DIGITS}\n{DIGITS}\n"),
        DIGITS.replace('f', "g"),
        DIGITS.replacen("00", "+0", 1),
        DIGITS.replacen("00", "é", 1),
        "a letter to mother".repeat(1_000),
    ];
    for text in texts {
        fs::write(&path, &text).expect("a file");
        let (kind, why) = refused(&path);
        assert_eq!(kind, ErrorKind::InvalidData, "{text:?}");
        let what = if text.is_empty() { "it is empty" } else { "it holds something else" };
        assert!(why.starts_with(&format!("the cookie file '{}': {what}", path.display())), "{why}");
        assert_eq!(fs::read_to_string(&path).expect("the file"), text);
        assert_eq!(names(&folder), ["cookie"], "nothing is put beside it");
    }
}

#[test]
fn only_a_plain_file_can_be_one() {
    let (folder, path) = folder();
    fs::create_dir(&path).expect("a folder");
    for other in [&path, Path::new("/dev/null"), Path::new("/dev/zero")] {
        let (kind, why) = refused(other);
        assert!(kind == ErrorKind::InvalidData && why.contains("isn't a plain file"), "{why}");
    }
    for name in ["", "none/", "..", "none/.."] {
        let (kind, why) = refused(&match name {
            "" => PathBuf::new(),
            name => folder.path().join(name),
        });
        assert!(kind == ErrorKind::InvalidData && why.contains("the name of a file"), "{why}");
    }
    assert_eq!(names(&folder), ["cookie"]);
}

#[test]
fn a_place_where_no_file_can_be_is_an_error_at_once() {
    let (folder, path) = folder();
    fs::write(&path, DIGITS).expect("a file");
    for (place, reason) in [
        (folder.path().join("none/cookie"), "its folder: No such file"),
        (path.join("cookie"), "Not a directory"),
        (folder.path().join("x".repeat(256)), "too long"),
        (folder.path().join("x".repeat(253)), "too long"),
        ("/proc/cookie".into(), "'/proc/cookie.lock'"),
    ] {
        let (kind, why) = refused(&place);
        assert!(kind != ErrorKind::InvalidData && why.contains(reason), "{why}");
    }
    assert_eq!(names(&folder), ["cookie"]);
}

#[test]
fn others_lose_what_they_may_do_with_it() {
    let (_folder, path) = folder();
    fs::write(&path, DIGITS).expect("a file");
    for (before, access, after) in [
        (0o644, Access::Tightened(0o644), 0o600),
        (0o620, Access::Tightened(0o620), 0o600),
        (0o601, Access::Tightened(0o601), 0o600),
        (0o400, Access::Owner, 0o400),
    ] {
        fs::set_permissions(&path, Permissions::from_mode(before)).expect("a mode");
        let mut file = CookieFile::open(&path).expect("a cookie file");
        assert_eq!((file.access(), mode(&path)), (access, after), "{before:o}");
        // The same cookie needs no other file.
        file.keep(&COOKIE).expect("kept");
        assert_eq!(mode(&path), after, "{before:o}");
    }
}

#[test]
fn a_cookie_is_written_to_a_new_file_and_only_if_it_is_another() {
    let (folder, path) = folder();
    let old = folder.path().join("old");
    fs::write(&path, DIGITS).expect("a file");
    fs::hard_link(&path, &old).expect("a second name");
    let inode = || fs::metadata(&path).expect("a file").ino();
    let first = inode();
    let mut file = CookieFile::open(&path).expect("a cookie file");
    file.keep(&COOKIE).expect("kept");
    assert_eq!(inode(), first);
    file.keep(&OTHER).expect("kept");
    assert_ne!(inode(), first);
    assert_eq!(fs::read_to_string(&old).expect("the old file"), DIGITS, "it was never written to");
    assert_eq!(names(&folder), ["cookie", "cookie.lock", "cookie.old", "old"]);
}

#[test]
fn a_cookie_that_is_replaced_is_in_the_old_file() {
    let (folder, path) = folder();
    let mut file = CookieFile::open(&path).expect("a free name");
    for _ in 0..2 {
        assert!(matches!(file.keep(&COOKIE), Ok(Backup::Unneeded)), "at first, or the same");
        assert_eq!(names(&folder), ["cookie", "cookie.lock"]);
    }
    let old = file.old_path();
    for (cookie, digits) in [(OTHER, DIGITS), (COOKIE, &"ab".repeat(24))] {
        assert!(matches!(file.keep(&cookie), Ok(Backup::Made)));
        assert_eq!((fs::read_to_string(&old).expect("a text"), mode(&old)), (format!("{digits}\n"), 0o600));
        // The earlier one is replaced, and not written to.
        fs::set_permissions(&old, Permissions::from_mode(0o444)).expect("a mode");
    }
    assert!(matches!(file.keep(&COOKIE), Ok(Backup::Unneeded)));
    assert_eq!(names(&folder), ["cookie", "cookie.lock", "cookie.old"]);
    drop(file);
    assert_eq!(CookieFile::open(&old).expect("a cookie file").cookie(), Some(&OTHER), "it can be asked with");
}

#[test]
fn the_old_file_is_there_before_the_cookie_is_replaced() {
    let (_folder, path) = folder();
    fs::write(&path, DIGITS).expect("a file");
    let mut file = CookieFile::open(&path).expect("a cookie file");
    // A folder can't be replaced by a file.
    fs::remove_file(&path).expect("removed");
    fs::create_dir(&path).expect("a folder");
    file.keep(&OTHER).expect_err("a folder is in the way");
    assert_eq!(file.cookie(), Some(&COOKIE));
    assert_eq!(fs::read_to_string(file.old_path()).expect("a text"), format!("{DIGITS}\n"));
}

/// The new cookie is kept all the same.
#[test]
fn an_old_file_that_is_no_cookie_is_left_alone() {
    let (folder, path) = folder();
    let [old, target] = ["cookie.old", "target"].map(|name| folder.path().join(name));
    fs::write(&target, DIGITS).expect("a file");
    let mut file = CookieFile::open(&path).expect("a free name");
    file.keep(&COOKIE).expect("kept");
    let mut failed = |cookie: &Cookie, reason: &str| {
        let Ok(Backup::Failed(error)) = file.keep(cookie) else { panic!("a backup: {reason}") };
        assert_eq!(error.to_string(), format!("'{}': {reason}", old.display()));
        assert_eq!(fs::read_to_string(&path).expect("a text")[..2], format!("{:02x}", cookie[0]));
    };
    fs::write(&old, "a letter to mother").expect("a file");
    failed(&OTHER, "it holds something else than a cookie");
    assert_eq!(fs::read_to_string(&old).expect("the file"), "a letter to mother");
    fs::remove_file(&old).expect("removed");
    symlink("target", &old).expect("a link");
    failed(&COOKIE, "it isn't a plain file");
    assert_eq!(fs::read_to_string(&target).expect("the file"), DIGITS);
    fs::remove_file(&old).expect("removed");
    fs::create_dir(&old).expect("a folder");
    failed(&OTHER, "it isn't a plain file");
    assert_eq!(names(&folder), ["cookie", "cookie.lock", "cookie.old", "target"]);
}

#[test]
fn a_link_stays_one() {
    let (folder, path) = folder();
    let target = folder.path().join("target");
    fs::write(&target, DIGITS).expect("a file");
    symlink("target", &path).expect("a link");
    let mut file = CookieFile::open(&path).expect("a cookie file");
    file.keep(&OTHER).expect("kept");
    assert_eq!(fs::read_link(&path).expect("a link"), Path::new("target"));
    assert_eq!(fs::read_to_string(&target).expect("the file"), "ab".repeat(24) + "\n");
    assert_eq!(names(&folder), ["cookie", "target", "target.lock", "target.old"]);
    // Whichever name it has.
    assert!(refused(&target).1.contains("another receiver uses it"));
    drop(file);
    fs::remove_file(&target).expect("removed");
    let (kind, why) = refused(&path);
    assert!(kind == ErrorKind::NotFound && why.contains("it is a link that leads nowhere"), "{why}");
    assert!(!target.exists(), "a link to nothing is an error");
}

#[test]
fn one_receiver_at_a_time() {
    let (_folder, path) = folder();
    let mut first = CookieFile::open(&path).expect("a free name");
    let (kind, why) = refused(&path);
    assert!(kind != ErrorKind::InvalidData && why.contains("another receiver uses it"), "{why}");
    first.keep(&COOKIE).expect("kept");
    assert!(refused(&path).1.contains("another receiver uses it"), "also when it is another file");
    drop(first);
    assert_eq!(CookieFile::open(&path).expect("a cookie file").cookie(), Some(&COOKIE));
}

/// What has the lock's name already may be another's: its bytes and its mode stay.
#[test]
fn a_lock_that_is_there_stays_as_it_is() {
    let (folder, path) = folder();
    let lock = folder.path().join("cookie.lock");
    fs::write(&lock, "another's").expect("a file");
    fs::set_permissions(&lock, Permissions::from_mode(0o644)).expect("a mode");
    CookieFile::open(&path).expect("a free name").keep(&COOKIE).expect("kept");
    assert_eq!((fs::read_to_string(&lock).expect("the file"), mode(&lock)), ("another's".into(), 0o644));
}

#[test]
fn only_a_plain_file_can_be_the_lock() {
    let (folder, path) = folder();
    let [lock, target] = ["cookie.lock", "target"].map(|name| folder.path().join(name));
    fs::write(&target, "").expect("a file");
    fs::set_permissions(&target, Permissions::from_mode(0o644)).expect("a mode");
    for place in [Path::new("target"), Path::new("nothing"), Path::new("/dev/null")] {
        symlink(place, &lock).expect("a link");
        let (kind, why) = refused(&path);
        assert!(kind != ErrorKind::InvalidData && why.contains("cookie.lock': it isn't a plain file"), "{why}");
        fs::remove_file(&lock).expect("removed");
    }
    assert_eq!(mode(&target), 0o644);
    assert_eq!(names(&folder), ["target"]);
}
