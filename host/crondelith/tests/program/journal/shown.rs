//! Records as lines.

use std::process::Command;

use serde_json::{json, Value};

use super::{journal, record, scene, DATA};
use crate::support::{broken_pipe, program, run, text, Running, PROGRAM};

/// What 'show' prints, with status 0.
fn shown(words: &[&str]) -> String {
    let ended = run(&[&["journal", "show"], words].concat());
    assert_eq!((ended.status, ended.stderr.as_str()), (Some(0), ""), "{words:?}");
    ended.stdout
}

#[test]
fn each_record_is_a_line() {
    let path = scene("shown");
    let words = shown(&[text(&path)]);
    let lines: Vec<_> = words.lines().collect();
    assert_eq!(lines.len(), 8);
    assert_eq!(lines[0], "0: 100 (1970-01-01T00:01:40Z): open of connection 5 of partner 0: done, charged 45 units");
    assert_eq!(
        lines[3],
        "48: 103 (1970-01-01T00:01:43Z): message of type 11 (data) from connection 5 of partner 0: \
         refused with 9, the partner's allowance is used up; it would cost 262,145 units"
    );
    let of_one = shown(&[text(&path), "--partner", "1"]);
    assert_eq!(of_one.lines().collect::<Vec<_>>(), [lines[2], lines[5]]);
}

#[test]
fn each_record_is_a_line_of_json() {
    // A call and a connection that there aren't have no names.
    let path = journal("json_lines", &[record(7, 13, 1, DATA, 9, 72), record(8, 255, 4, 9, 0, 5), vec![1; 5]]);
    let objects: Vec<Value> =
        shown(&["--json", text(&path)]).lines().map(|line| serde_json::from_str(line).expect("an object")).collect();
    let message = json!({
        "place": 0, "time": 7, "connection": 13, "partner": 1, "call": "message", "call_number": 1, "type_byte": 11,
        "type": "data", "answer": 9, "done": false, "reason": "the partner's allowance is used up", "charge": 72,
    });
    let unknown = json!({
        "place": 16, "time": 8, "connection": 255, "call_number": 4, "type_byte": 9, "answer": 0, "done": true, "charge": 5,
    });
    assert_eq!(objects, [message, unknown, json!({ "place": 32, "short_tail": 5 })]);
    // The end is told to everybody.
    assert_eq!(shown(&[text(&path), "--json", "--partner", "0"]), "{\"place\":32,\"short_tail\":5}\n");
}

#[test]
fn what_is_left_at_the_end_is_told() {
    let path = journal("torn", &[record(7, 0, 0, 0, 0, 45), vec![0]]);
    let words = shown(&[text(&path)]);
    assert_eq!(words.lines().last(), Some("16: no record: 1 byte left at the end, and a record has 16"));
    assert_eq!(words.lines().count(), 2);
    assert_eq!(shown(&[text(&journal("none", &[]))]), "");
}

#[test]
fn a_file_named_show_is_judged() {
    let path = scene("named");
    let folder = path.parent().expect("a folder");
    let named = folder.join("show");
    std::fs::rename(&path, &named).expect("renamed");
    std::fs::rename(path.with_extension("journal.start"), folder.join("show.start")).expect("renamed");
    for words in [&["./show"][..], &["--", "show"], &[text(&named)]] {
        let output = Command::new(PROGRAM).arg("journal").args(words).current_dir(folder).output().expect("it runs");
        let told = String::from_utf8_lossy(&output.stdout);
        assert!(output.status.success() && told.contains("agrees with the rules"), "{words:?}: {told}");
    }
    let output = Command::new(PROGRAM).args(["journal", "show", "show"]).current_dir(folder).output().expect("it runs");
    assert_eq!(String::from_utf8_lossy(&output.stdout).lines().count(), 8);
}

#[test]
fn records_that_nobody_reads_change_no_exit_status() {
    let path = scene("unread");
    for words in [&["journal", "show", text(&path)][..], &["journal", text(&path)]] {
        let ended = Running::start(program(words).stdout(broken_pipe()).stderr(broken_pipe())).end();
        assert_eq!(ended.status, Some(0), "{words:?}");
    }
}
