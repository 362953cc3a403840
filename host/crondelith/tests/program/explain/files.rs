//! Files that are read, and what is printed.

use std::fs::{self, File};
use std::os::unix::fs::MetadataExt;
use std::path::Path;
use std::process::{Command, Stdio};
use std::time::{Duration, UNIX_EPOCH};

use serde_json::{json, Value};

use super::{
    assert_has, assert_lacks, await_saved, clock, end, explain, explain_message, explain_open, lease, level, peer,
    relay, told, with_allowance, Scene, FIRST, KEEPALIVE, LONGEST, PARTNER, SECOND,
};
use crate::support::{broken_pipe, program, run, text, Relay, Running};

#[test]
fn an_explanation_in_words_and_as_json() {
    let (relay, state) = relay("explain_words");
    end(relay);
    let now = clock(&state);
    let copy = with_allowance(&state, 20, now);
    let call = ["open", "--connection", &FIRST.to_string()];
    let date = |time| humantime::format_rfc3339_seconds(UNIX_EPOCH + Duration::from_secs(time)).to_string();
    let lines = [
        format!("Call:       open of connection {FIRST} of partner {PARTNER}"),
        format!("Time:       {now} ({}), the file's clock", date(now)),
        "Answer:     9, it would be refused: the partner's allowance is used up".into(),
        "Meaning:    the call costs more than the partner has at that time".into(),
        "Cost:       45 units".into(),
        "Allowance:  the partner has 20 units, 25 too few".into(),
        format!(
            "Payable:    in 1 second, at {} ({}), if the partner makes no charged call meanwhile",
            now + 1,
            date(now + 1)
        ),
    ];
    assert_eq!(told(&copy, &call).lines().collect::<Vec<_>>(), lines);
    let object = json!({
        "call": "open", "connection": FIRST, "partner": PARTNER, "time": now, "clock": now, "check": 9, "done": false,
        "reason": "the partner's allowance is used up",
        "meaning": "the call costs more than the partner has at that time",
        "free": false, "cost": 45, "level": 20, "headroom": -25, "shortfall": 25,
        "payable_at": now + 1, "payable_after": 1,
    });
    assert_eq!(explain(&copy, &call), object);
    let words = told(&state, &["message", "--connection", "0", "--hex", "0200"]);
    assert!(words.contains("Answer:     4, it would be refused: the connection is in the wrong state\n"), "{words}");
    assert!(words.contains("the connection is closed"), "{words}");
}

#[test]
fn a_relay_that_has_ended_is_explained_and_nothing_is_changed() {
    let (relay, state) = relay("explain_ended");
    let mut holder = peer(&relay);
    lease(&mut holder);
    end(relay);
    let folder = state.parent().expect("a folder");
    let found = || {
        let metadata = fs::metadata(&state).expect("a state");
        let mut names: Vec<_> =
            fs::read_dir(folder).expect("a folder").flatten().map(|file| file.file_name()).collect();
        names.sort();
        (fs::read(&state).expect("a state"), metadata.mtime_nsec(), metadata.mtime(), metadata.ino(), names)
    };
    let before = found();
    let now = clock(&state);
    let has = level(&state, PARTNER, now);
    assert_has(&explain_open(&state, FIRST), json!({ "check": 0, "time": now, "level": has, "headroom": has - 45 }));
    for message in ["0200", KEEPALIVE, "09", ""] {
        assert_eq!(explain_message(&state, FIRST, message, &[])["check"], 4);
    }
    assert_eq!(explain(&state, &["close", "--connection", &FIRST.to_string()])["check"], 4);
    assert!(found() == before, "something has changed");
}

#[test]
fn a_relay_that_was_killed_has_left_its_connections() {
    let (relay, state) = relay("explain_killed");
    let _peer = peer(&relay);
    let check = || explain_message(&state, FIRST, KEEPALIVE, &[])["check"].clone();
    await_saved(|| check() == 0);
    relay.program.signal("KILL");
    assert_eq!(relay.program.end().status, None);
    assert_eq!(check(), 0);
    end(Relay::start(&["--state", text(&state)]));
    assert_eq!(check(), 4);
}

#[test]
fn a_message_may_be_longer_than_one_can_be() {
    let Scene { state, .. } = &Scene::start("explain_long");
    let file = state.with_extension("message");
    let message = ["message", "--connection", &SECOND.to_string(), "--file", text(&file)];
    let longer = [&message[..], &["--relay-length", "64"]].concat();
    for length in [LONGEST + 1, 1 << 20] {
        fs::write(&file, vec![11; length]).expect("a message");
        let object = explain(state, &message);
        assert_has(&object, json!({ "check": 6, "message_length": length }));
        assert_lacks(&object, &["follows"]);
        assert_has(&explain(state, &longer), json!({ "check": 5 }));
    }
    fs::write(&file, vec![11; (1 << 20) + 1]).expect("a message");
    let ended = run(&[&["explain", text(state)], &message[..]].concat());
    assert_eq!((ended.status, ended.stdout.as_str()), (Some(2), ""), "{}", ended.stderr);
    assert!(ended.last_line().contains("more than 1,048,576 bytes"), "{}", ended.stderr);
}

#[test]
fn a_message_comes_from_stdin() {
    let Scene { state, .. } = &Scene::start("explain_stdin");
    let words = ["explain", text(state), "message", "--connection", &SECOND.to_string(), "--file", "-", "--json"];
    let echo = |bytes: &str| Command::new("printf").arg(bytes).stdout(Stdio::piped()).spawn().expect("printf");
    let mut source = echo("\\002\\000");
    let input = source.stdout.take().expect("its output");
    let ended = Running::start(program(&words).stdin(input)).end();
    source.wait().expect("its end");
    let object: Value = serde_json::from_str(&ended.stdout).expect("an object");
    assert_has(&object, json!({ "check": 0, "request": "lease", "message_length": 2 }));
}

#[test]
fn files_that_are_no_state_or_no_message() {
    let (relay, state) = relay("explain_no_state");
    end(relay);
    let folder = state.parent().expect("a folder");
    let size = fs::read(&state).expect("a state").len();
    let (missing, other, late) = (folder.join("missing"), folder.join("other"), folder.join("late"));
    fs::write(&other, vec![0; size - 1]).expect("a file");
    fs::write(&late, vec![255; size]).expect("a file");
    let open: &[&str] = &["open", "--connection", "0"];
    let message = |file| vec!["message", "--connection", "0", "--file", file];
    let cases: [(&Path, &[&str], i32, &str); 9] = [
        (&missing, open, 1, "missing': No such file"),
        (&other, open, 2, &format!("{} bytes and not {size}, so it isn't a state file", size - 1)),
        (&late, open, 2, "its clock is at 18446744073709551615, out of range"),
        (folder, open, 2, "it isn't a plain file"),
        (Path::new("/dev/zero"), open, 2, "it isn't a plain file"),
        (&state, &message(text(&missing)), 1, "missing': No such file"),
        (&state, &message(text(folder)), 1, "Is a directory"),
        (&state, &message("/dev/zero"), 2, "the message of '/dev/zero': it has more than 1,048,576 bytes"),
        // What is wrong in the arguments is found before anything is read.
        (&missing, &["message", "--connection", "0", "--hex", "00", "--file", "-"], 2, "can't both be given"),
    ];
    for (state, call, status, reason) in cases {
        let ended = run(&[&["explain", text(state)], call].concat());
        assert_eq!(ended.status, Some(status), "{call:?}: {}", ended.stderr);
        assert!(ended.stderr.starts_with("crondelith: ") && ended.stderr.contains(reason), "{}", ended.stderr);
        assert_eq!((ended.stdout.as_str(), ended.stderr.lines().count()), ("", 1), "{}", ended.stderr);
    }
}

#[test]
fn an_explanation_that_nobody_reads_changes_no_exit_status() {
    let (relay, state) = relay("explain_unread");
    end(relay);
    let words = ["explain", text(&state), "open", "--connection", "0"];
    let ended = Running::start(program(&words).stdout(broken_pipe()).stderr(broken_pipe())).end();
    assert_eq!(ended.status, Some(0));
}

#[test]
fn an_explanation_that_cannot_be_kept_is_a_failure() {
    let (relay, state) = relay("explain_full");
    end(relay);
    for form in [&[][..], &["--json"]] {
        let words = [&["explain", text(&state), "open", "--connection", "0"], form].concat();
        let full = File::options().write(true).open("/dev/full").expect("/dev/full");
        let ended = Running::start(program(&words).stdout(full)).end();
        assert_eq!(ended.status, Some(1), "{words:?}");
        assert!(ended.last_line().contains("the explanation can't be printed: No space left"), "{}", ended.stderr);
    }
}
