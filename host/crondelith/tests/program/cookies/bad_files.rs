//! Cookie files that can't be used, or that others can read, and two receivers with one.

use std::fs::{self, Permissions};
use std::os::unix::fs::{chown, symlink, MetadataExt, PermissionsExt};
use std::path::{Path, PathBuf};
use std::process::{Command, Stdio};

use tempfile::TempDir;

use super::{kill, line, Scene, Scripted};
use crate::support::{files, run, Ended, Relay, Running, PROGRAM};

const COOKIE: [u8; 24] = [0x5a; 24];

/// A command without root's right to pass over the modes of files.
fn unprivileged(arguments: &[&str]) -> Command {
    let mut command = match rustix::process::getuid().is_root() {
        true => {
            let mut command = Command::new("setpriv");
            command.args(["--inh-caps=-all", "--bounding-set=-all"]).arg(PROGRAM);
            command
        }
        false => Command::new(PROGRAM),
    };
    command.args(arguments).stdin(Stdio::null()).stdout(Stdio::piped()).stderr(Stdio::piped());
    command
}

fn set_mode(path: &Path, mode: u32) {
    fs::set_permissions(path, Permissions::from_mode(mode)).expect("a mode");
}

fn mode(path: &Path) -> u32 {
    fs::metadata(path).expect("a file").mode() & 0o7777
}

/// Nothing was asked of the relay, nothing printed, and the reason is told in a line.
#[track_caller]
fn assert_refused(ended: &Ended, relay: &Scripted, status: i32, reason: &str) {
    assert_eq!((ended.status, &*ended.stdout), (Some(status), ""), "{}", ended.stderr);
    assert!(ended.last_line().starts_with("crondelith: the cookie file '"), "{}", ended.stderr);
    assert!(ended.last_line().contains(reason), "{}", ended.stderr);
    assert_eq!(ended.stderr.lines().count(), 1, "{}", ended.stderr);
    assert!(relay.is_alone(), "the relay was asked");
}

#[test]
fn a_file_that_is_no_cookie_is_left_alone() {
    let (relay, scene) = (Scripted::new(), Scene::new("cookie_none"));
    let copy = scene.folder.join("copy");
    for (contents, reason) in [("", "it is empty"), ("a letter to mother\n", "it holds something else")] {
        fs::write(&scene.cookie, contents).expect("a file");
        // That FILE may be replaced says nothing of this one.
        let arguments = [&relay.arguments(&copy, &scene.cookie)[..], &["--force"]].concat();
        assert_refused(&run(&arguments), &relay, 2, reason);
        assert_eq!(scene.kept(), contents);
    }
    let ended = run(&relay.arguments(&copy, &scene.folder));
    assert_refused(&ended, &relay, 2, "it isn't a plain file");
    assert_eq!(files(&scene.folder), 2, "the file to send and the other");
}

/// A link, in a folder outside the repository, below which `rt ci` takes none.
fn link_to(path: &Path) -> (TempDir, PathBuf) {
    let folder = tempfile::tempdir().expect("a folder");
    let link = folder.path().join("link");
    symlink(path, &link).expect("a link");
    (folder, link)
}

/// The received file would replace the cookie.
#[test]
fn a_link_to_the_place_of_the_received_file_is_an_error() {
    let (relay, scene) = (Scripted::new(), Scene::new("cookie_link"));
    let (_folder, link) = link_to(&scene.cookie);
    fs::write(&scene.cookie, line(&COOKIE)).expect("a file");
    let ended = run(&[&relay.arguments(&scene.cookie, &link)[..], &["--force"]].concat());
    assert_eq!((ended.status, &*ended.stdout), (Some(2), ""), "{}", ended.stderr);
    assert_eq!(ended.last_line(), "crondelith: FILE and the cookie file are the same");
    assert!(relay.is_alone(), "the relay was asked");
    assert_eq!(scene.kept(), line(&COOKIE));
}

/// Nor takes a name that is needed there; also through a link, and though '--force' lets FILE be replaced.
#[test]
fn a_received_file_replaces_nothing_beside_the_cookie() {
    let (relay, scene) = (Scripted::new(), Scene::new("cookie_beside"));
    let (_folder, link) = link_to(&scene.cookie);
    fs::write(&scene.cookie, line(&COOKIE)).expect("a file");
    let refused = |beside: &Path, cookie: &Path, reason: &str| {
        let ended = run(&[&relay.arguments(beside, cookie)[..], &["--force"]].concat());
        assert_eq!((ended.status, &*ended.stdout), (Some(2), ""), "{}", ended.stderr);
        assert_eq!(ended.stderr, format!("crondelith: FILE has the name {reason}\n"));
    };
    let lock = ("cookie.lock", "of the cookie file's lock");
    for (name, reason) in [lock, ("cookie.old", "under which an old cookie is kept")] {
        let beside = scene.folder.join(name);
        refused(&beside, &scene.cookie, reason);
        assert!(!beside.exists(), "nothing is made");
        fs::write(&beside, line(&[1; 24])).expect("a file");
        refused(&beside, &link, reason);
        assert_eq!(fs::read_to_string(&beside).expect("the file"), line(&[1; 24]));
    }
    assert!(relay.is_alone(), "the relay was asked");
}

#[test]
fn a_file_that_cannot_be_read_is_left_alone() {
    let (relay, scene) = (Scripted::new(), Scene::new("cookie_unreadable"));
    fs::write(&scene.cookie, line(&COOKIE)).expect("a file");
    set_mode(&scene.cookie, 0);
    let ended = Running::start(&mut unprivileged(&relay.arguments(&scene.folder.join("copy"), &scene.cookie))).end();
    assert_refused(&ended, &relay, 1, "it can't be read: Permission denied");
    set_mode(&scene.cookie, 0o600);
    assert_eq!(scene.kept(), line(&COOKIE));
}

/// With a lock left from before, and without, and a cookie or none.
#[test]
fn a_folder_that_cannot_be_written_is_found_before_anything_is_asked() {
    let (relay, scene) = (Scripted::new(), Scene::new("cookie_folder"));
    let folder = scene.folder.join("read_only");
    fs::create_dir(&folder).expect("a folder");
    let (cookie, lock) = (folder.join("cookie"), folder.join("cookie.lock"));
    let refused = |reason: &str| {
        set_mode(&folder, 0o555);
        let copy = scene.folder.join("copy");
        let ended = Running::start(&mut unprivileged(&relay.arguments(&copy, &cookie))).end();
        set_mode(&folder, 0o755);
        assert_refused(&ended, &relay, 1, reason);
    };
    refused("cookie.lock': Permission denied");
    fs::write(&lock, "").expect("a file");
    refused("a new one can't be written beside it: Permission denied");
    fs::write(&cookie, line(&COOKIE)).expect("a file");
    refused("a new one can't be written beside it: Permission denied");
    assert_eq!(fs::read_to_string(&cookie).expect("the file"), line(&COOKIE));
}

/// To open it would wait for a reader.
#[test]
fn a_lock_that_is_a_pipe_is_found_before_anything_is_asked() {
    let (relay, scene) = (Scripted::new(), Scene::new("cookie_pipe"));
    let lock = scene.folder.join("cookie.lock");
    assert!(Command::new("mkfifo").arg(&lock).status().expect("mkfifo").success());
    let ended = run(&relay.arguments(&scene.folder.join("copy"), &scene.cookie));
    assert_refused(&ended, &relay, 1, "cookie.lock': it isn't a plain file");
}

/// A limit of what a file may hold stands for a disk without room.
#[test]
fn a_full_disk_is_found_before_anything_is_asked() {
    let (relay, scene) = (Scripted::new(), Scene::new("cookie_full"));
    fs::write(&scene.cookie, line(&COOKIE)).expect("a file");
    let copy = scene.folder.join("copy");
    let mut shell = Command::new("sh");
    shell.args(["-c", &format!("ulimit -f 0; exec '{PROGRAM}' \"$@\""), "sh"]);
    shell.args(relay.arguments(&copy, &scene.cookie));
    let ended = Running::start(shell.stdin(Stdio::null()).stdout(Stdio::piped()).stderr(Stdio::piped())).end();
    assert_refused(&ended, &relay, 1, "a new one can't be written beside it: File too large");
    assert_eq!(scene.kept(), line(&COOKIE));
    assert_eq!(files(&scene.folder), 3, "the file to send, the cookie and its lock");
}

#[test]
fn a_cookie_that_cannot_be_kept_after_all_leaves_the_old_one_and_no_id_is_printed() {
    let (relay, scene) = (Scripted::new(), Scene::new("cookie_not_kept"));
    let folder = scene.folder.join("closed");
    fs::create_dir(&folder).expect("a folder");
    let (copy, cookie) = (scene.folder.join("copy"), folder.join("cookie"));
    fs::write(&cookie, line(&COOKIE)).expect("a file");
    let receiver = Running::start(&mut unprivileged(&relay.arguments(&copy, &cookie)));
    let mut connection = relay.accept();
    set_mode(&folder, 0o555);
    connection.grant(5, &[1; 24], 1 << 39);
    let ended = receiver.end();
    set_mode(&folder, 0o755);
    assert_eq!((ended.status, &*ended.stdout), (Some(1), ""), "{}", ended.stderr);
    assert!(ended.last_line().contains("the cookie of the id 5 can't be kept: "), "{}", ended.stderr);
    assert!(ended.last_line().ends_with("Permission denied (os error 13)"), "{}", ended.stderr);
    assert_eq!(fs::read_to_string(&cookie).expect("the file"), line(&COOKIE));
}

/// The new lease is there, and who sends can come.
#[test]
fn an_old_cookie_that_cannot_be_kept_is_told_and_the_new_one_is_kept() {
    let (relay, scene) = (Scripted::new(), Scene::new("cookie_old_not_kept"));
    fs::write(&scene.cookie, line(&COOKIE)).expect("a file");
    fs::create_dir(scene.old()).expect("a folder");
    let mut receiver = relay.receiver(&scene);
    relay.accept().grant(5, &[1; 24], 1 << 39);
    assert_eq!(receiver.line(), "5 new");
    assert_eq!(scene.kept(), line(&[1; 24]));
    let lines = receiver.await_line("waiting for a sender").expect("a line");
    assert!(lines.contains("The old cookie is lost, as it can't be kept: '"), "{lines}");
    assert!(lines.contains("cookie.old': it isn't a plain file\n"), "{lines}");
}

#[test]
fn the_mode_is_0600_whatever_the_umask() {
    let scene = Scene::new("cookie_umask");
    for umask in ["000", "022", "277", "777"] {
        let relay = Scripted::new();
        let _ = fs::remove_file(&scene.cookie);
        let _ = fs::remove_file(scene.folder.join("cookie.lock"));
        let copy = scene.folder.join("copy");
        let mut shell = Command::new("sh");
        shell.args(["-c", &format!("umask {umask}; exec '{PROGRAM}' \"$@\""), "sh"]);
        shell.args(relay.arguments(&copy, &scene.cookie));
        let mut receiver = Running::start(shell.stdin(Stdio::null()).stdout(Stdio::piped()).stderr(Stdio::null()));
        relay.accept().grant(5, &COOKIE, 1 << 39);
        assert_eq!(receiver.line(), "5 new");
        let modes = [mode(&scene.cookie), mode(&scene.folder.join("cookie.lock"))];
        assert_eq!(modes, [0o600; 2], "{umask}");
    }
}

#[test]
fn a_file_that_others_can_read_is_tightened_with_a_note() {
    let (relay, scene) = (Scripted::new(), Scene::new("cookie_readable"));
    fs::write(&scene.cookie, line(&COOKIE)).expect("a file");
    set_mode(&scene.cookie, 0o644);
    for noted in [true, false] {
        let mut receiver = relay.receiver(&scene);
        relay.accept().grant(5, &COOKIE, 1 << 39);
        assert_eq!(receiver.line(), "5 kept");
        assert_eq!(mode(&scene.cookie), 0o600);
        let lines = receiver.await_line("waiting for a sender").expect("a line");
        assert_eq!(lines.contains("(mode 0644), so its mode is 0600 now"), noted, "{lines}");
    }
}

/// Only root can make a file of another owner, so for others there is nothing to see.
#[test]
fn a_file_whose_mode_cannot_be_changed_is_used_with_a_note() {
    let (relay, scene) = (Scripted::new(), Scene::new("cookie_of_another"));
    fs::write(&scene.cookie, line(&COOKIE)).expect("a file");
    set_mode(&scene.cookie, 0o644);
    if chown(&scene.cookie, Some(65_534), None).is_err() {
        return;
    }
    let copy = scene.folder.join("copy");
    let mut receiver = Running::start(&mut unprivileged(&relay.arguments(&copy, &scene.cookie)));
    relay.accept().grant(5, &COOKIE, 1 << 39);
    assert_eq!(receiver.line(), "5 kept");
    assert_eq!(mode(&scene.cookie), 0o644);
    let lines = receiver.await_line("waiting for a sender").expect("a line");
    assert!(lines.contains("others can read the cookie file") && lines.contains("(mode 0644)"), "{lines}");
}

#[test]
fn a_second_receiver_with_the_file_is_refused_and_the_first_goes_on() {
    let relay = Relay::start(&[]);
    let scene = Scene::new("cookie_in_use");
    let (first, id, _) = scene.receiver(&relay);
    let (cookie, nobody) = (scene.kept(), Scripted::new());
    let ended = run(&nobody.arguments(&scene.folder.join("copy2"), &scene.cookie));
    assert_refused(&ended, &nobody, 1, "another receiver uses it");
    assert_eq!(scene.kept(), cookie);
    scene.transfer(&relay, &id, first);
    // It is free again however the one before has ended.
    for _ in 0..2 {
        let (receiver, ..) = scene.receiver(&relay);
        kill(receiver);
    }
}
