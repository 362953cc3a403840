//! What can't be judged or shown has a reason and status 2, since 1 is for a contradicted journal.

use std::fs::{self, File};
use std::io::Write;
use std::process::{Command, Stdio};

use super::{journal, judged, scene};
use crate::support::{program, run, text, Ended, Running};

/// Bytes of memory for a program that is given more.
const MEMORY: u64 = 100 << 20;

fn assert_reason(ended: &Ended, reason: &str) {
    assert_eq!((ended.status, ended.stdout.as_str()), (Some(2), ""), "{}", ended.stderr);
    assert!(ended.stderr.starts_with("crondelith: ") && ended.stderr.contains(reason), "{}", ended.stderr);
    assert_eq!(ended.stderr.lines().count(), 1, "{}", ended.stderr);
}

#[test]
fn a_start_that_is_missing_or_is_none() {
    let path = journal("no_start", &[vec![0; 16]]);
    let missing =
        "relay.journal.start': No such file or directory (os error 2); '--start' and '--lease-term' can say it instead";
    assert_reason(&judged(&path, &[]), missing);
    assert_reason(&judged(&path, &["--lease-term", "600"]), missing);
    fs::write(path.with_extension("journal.start"), "time 1").expect("a file");
    for options in [&[][..], &["--start", "5"], &["--lease-term", "600"]] {
        assert_reason(&judged(&path, options), "relay.journal.start': its lines aren't 'time SECONDS'");
    }
}

#[test]
fn a_start_that_no_relay_has() {
    let path = scene("no_relay");
    let late = "no relay starts at that time: times are below 1099511627776";
    assert_reason(&judged(&path, &["--start", "1099511627776"]), late);
    assert_reason(&judged(&path, &["--start", "18446744073709551615", "--lease-term", "1", "--plain"]), late);
    for term in ["1", "599", "86401"] {
        let reason = "no relay starts with that term: it is 0, or 600 to 86400";
        assert_reason(&judged(&path, &["--lease-term", term]), reason);
    }
}

#[test]
fn files_that_cannot_be_read() {
    let path = journal("unreadable", &[]);
    let folder = path.parent().expect("a folder");
    let missing = folder.join("missing");
    for words in [&["journal"][..], &["journal", "show"]] {
        let told = |file| run(&[words, &[file]].concat());
        assert_reason(&told(text(&missing)), "missing': No such file");
        assert_reason(&told(text(folder)), "it is neither a plain file nor a pipe");
        assert_reason(&told("/dev/zero"), "it is neither a plain file nor a pipe");
    }
    // One more byte than is replayed, none of them on the disk.
    let long = folder.join("long");
    File::create(&long).and_then(|file| file.set_len((4 << 30) + 1)).expect("a file");
    assert_reason(
        &judged(&long, &["--start", "0"]),
        "it has more than 4,294,967,296 bytes, which is too much to replay",
    );
}

#[test]
fn a_pipe_is_read_too() {
    let path = scene("pipe");
    let mut source = Command::new("cat").arg(&path).stdout(Stdio::piped()).spawn().expect("cat");
    let pipe = source.stdout.take().expect("a pipe");
    let ended = Running::start(program(&["journal", "/dev/stdin", "--start", "100"]).stdin(pipe)).end();
    source.wait().expect("its end");
    assert!(ended.status == Some(0) && ended.stdout.contains("', 8 records\n"), "{}{}", ended.stdout, ended.stderr);
}

#[test]
fn a_pipe_that_is_longer_than_the_memory() {
    let command = &mut program(&["journal", "/dev/stdin", "--start", "0"]);
    let (pipe, mut source) = std::io::pipe().expect("a pipe");
    let running = Running::start(command.stdin(pipe));
    running.allow_memory(MEMORY);
    // The program has its own copy of the pipe's end; else it would never be broken.
    command.stdin(Stdio::null());
    let written =
        std::iter::repeat_n([0; 1 << 16], MEMORY as usize >> 16).try_for_each(|block| source.write_all(&block));
    assert!(written.is_err(), "so much is read");
    assert_reason(&running.end(), "the journal '/dev/stdin': out of memory");
}

#[test]
fn an_answer_that_cannot_be_kept_is_an_error() {
    let path = scene("full");
    for words in [&["journal", text(&path)][..], &["journal", text(&path), "--json"], &["journal", "show", text(&path)]]
    {
        let full = File::options().write(true).open("/dev/full").expect("/dev/full");
        let ended = Running::start(program(words).stdout(full)).end();
        assert_reason(&ended, "the answer can't be printed: No space left");
    }
}
