//! `crondelith journal` on files that are made by hand.

mod errors;
mod reasons;
mod shown;

use std::fs;
use std::path::{Path, PathBuf};

use serde_json::{json, Value};

use crate::support::{folder, run, text, Ended};

/// What a partner has at most.
const CAPACITY: u32 = 262_144;
const DATA: u8 = 11;

/// A record's bytes: time, connection, call, type byte, answer, charge.
fn record(time: u64, connection: u8, call: u8, type_byte: u8, answer: u8, charge: u32) -> Vec<u8> {
    [&time.to_be_bytes()[..], &[connection, call, type_byte, answer], &charge.to_be_bytes()].concat()
}

/// A message of data from partner 0.
fn data(time: u64, answer: u8, charge: u32) -> Vec<u8> {
    record(time, 0, 1, DATA, answer, charge)
}

/// A journal of these parts in a folder of its own, without a start.
fn journal(name: &str, parts: &[Vec<u8>]) -> PathBuf {
    let path = folder(&format!("journal_{name}")).join("relay.journal");
    fs::write(&path, parts.concat()).expect("a journal");
    path
}

/// Likewise of a relay that was started then.
fn started_journal(name: &str, start: u64, parts: &[Vec<u8>]) -> PathBuf {
    let path = journal(name, parts);
    fs::write(path.with_extension("journal.start"), format!("time {start}\nlease-term 600\n")).expect("a start");
    path
}

/// Two partners' calls, each kind among them, from 100 on.
fn scene(name: &str) -> PathBuf {
    let parts = [
        record(100, 5, 0, 0, 0, 45),
        record(100, 5, 1, 0, 6, 0),
        record(103, 13, 0, 0, 0, 45),
        record(103, 5, 1, DATA, 9, CAPACITY + 1),
        record(103, 5, 1, DATA, 9, CAPACITY + 2),
        record(104, 13, 1, DATA, 0, 1_000),
        record(104, 5, 2, 0, 0, 0),
        record(109, 5, 3, 0, 4, 0),
    ];
    started_journal(name, 100, &parts)
}

fn judged(journal: &Path, options: &[&str]) -> Ended {
    run(&[&["journal", text(journal)], options].concat())
}

/// The judgement of a journal as JSON, and the exit status.
fn json_of(journal: &Path, options: &[&str]) -> (Value, Option<i32>) {
    let ended = judged(journal, &[options, &["--json"]].concat());
    assert_eq!(ended.stdout.lines().count(), 1, "{}{}", ended.stdout, ended.stderr);
    (serde_json::from_str(&ended.stdout).expect("an object"), ended.status)
}

#[test]
fn a_journal_that_agrees_is_told_with_its_figures() {
    let path = scene("agrees");
    let ended = judged(&path, &[]);
    assert_eq!((ended.status, ended.stderr.as_str()), (Some(0), ""));
    let lines: Vec<_> = ended.stdout.lines().collect();
    let first = format!("Journal:    '{}', 8 records", path.display());
    assert_eq!(
        lines[..7],
        [
            &first,
            "Start:      100 (1970-01-01T00:01:40Z), leases of 600 seconds",
            "Verdict:    agrees with the rules",
            "Latest:     104 (1970-01-01T00:01:44Z), the latest done call; the units left are those of this time",
            "",
            "partner  done  units charged  refused with 9  units refused  refused otherwise  units left",
            "      0     2             45               2        524,291                  2     262,144",
        ]
    );
    assert_eq!(lines[7], "      1     2          1,045               0              0                  0     261,144");
    assert_eq!(lines.len(), 14, "{}", ended.stdout);
    assert!(lines[8..].iter().zip(2..).all(|(line, partner)| line.trim_start().starts_with(&partner.to_string())));
}

#[test]
fn a_judgement_as_json() {
    let path = scene("json");
    let (object, status) = json_of(&path, &[]);
    assert_eq!(status, Some(0));
    let nobody = |partner: u64| {
        json!({
            "partner": partner, "done": 0, "charged": 0, "refused_with_9": 0, "refused_units": 0,
            "refused_otherwise": 0, "left": CAPACITY,
        })
    };
    let mut partners: Vec<_> = (0..8).map(nobody).collect();
    partners[0] = json!({
        "partner": 0, "done": 2, "charged": 45, "refused_with_9": 2, "refused_units": 2 * CAPACITY + 3,
        "refused_otherwise": 2, "left": CAPACITY,
    });
    partners[1] = json!({
        "partner": 1, "done": 2, "charged": 1_045, "refused_with_9": 0, "refused_units": 0,
        "refused_otherwise": 0, "left": CAPACITY - 1_000,
    });
    let expected = json!({
        "file": text(&path), "start": 100, "lease_term": 600, "ended": false, "plain": false, "agrees": true,
        "bytes": 128, "records": 8, "latest": 104, "partners": partners,
    });
    assert_eq!(object, expected);
    // The plain replay says the same of everything.
    let (plain, status) = json_of(&path, &["--plain"]);
    assert_eq!((status, &plain["plain"]), (Some(0), &json!(true)));
    assert_eq!(plain["partners"], object["partners"]);
    let words = judged(&path, &["--plain"]).stdout;
    assert!(words.contains("agrees with the rules; the plain replay and the usual one say so\n"), "{words}");
    // One partner's figures alone.
    let (alone, _) = json_of(&path, &["--partner", "1"]);
    assert_eq!(alone["partners"], json!([partners[1]]));
    let words = judged(&path, &["--partner", "1"]).stdout;
    assert!(words.lines().count() == 7 && words.contains("\n      1     2          1,045"), "{words}");
}

#[test]
fn an_empty_journal_agrees() {
    let path = started_journal("empty", 100, &[]);
    let (object, status) = json_of(&path, &[]);
    assert_eq!((status, &object["records"], &object["latest"]), (Some(0), &json!(0), &json!(100)));
    let words = judged(&path, &[]).stdout;
    assert!(words.contains("', 0 records\n") && words.contains(", the start, no call being done; "), "{words}");
}

#[test]
fn the_start_comes_from_its_file_or_from_options() {
    let path = scene("start");
    let start = |options: &[&str]| {
        let (object, status) = json_of(&path, options);
        (object["start"].as_u64(), object["lease_term"].as_u64(), status)
    };
    assert_eq!(start(&[]), (Some(100), Some(600), Some(0)));
    assert_eq!(start(&["--start", "99"]), (Some(99), Some(600), Some(0)));
    assert_eq!(start(&["--lease-term", "86400"]), (Some(100), Some(86_400), Some(0)));
    // A later one than the first record's contradicts. A term of 0 means 600.
    assert_eq!(start(&["--start", "101", "--lease-term", "0"]), (Some(101), Some(600), Some(1)));
    let of_start = path.with_extension("journal.start");
    fs::write(&of_start, "time 98\nlease-term 700\nended\n").expect("a start");
    assert_eq!(start(&[]), (Some(98), Some(700), Some(0)));
    assert_eq!(json_of(&path, &[]).0["ended"], true);
    let words = judged(&path, &[]).stdout;
    assert!(words.contains("\nEnded:      by its start's file, calls after the last record have none\n"), "{words}");
    // Without a file the time has to be given, and what isn't a start doesn't matter if both are.
    fs::remove_file(&of_start).expect("removed");
    assert_eq!(start(&["--start", "97"]), (Some(97), Some(600), Some(0)));
    fs::write(&of_start, "dance").expect("a file");
    assert_eq!(start(&["--start", "96", "--lease-term", "800"]), (Some(96), Some(800), Some(0)));
}

#[test]
fn a_long_journal_is_judged_without_a_word_about_how_far() {
    // A million and one records of zeros, which agree with a start at 0.
    let path = journal("long", &[]);
    let file = fs::File::options().write(true).open(&path).expect("the journal");
    file.set_len(16 * 1_000_001).expect("room");
    let ended = judged(&path, &["--start", "0"]);
    assert_eq!((ended.status, ended.stderr.as_str()), (Some(0), ""));
    assert!(ended.stdout.contains("\n      0  1,000,001  "), "{}", ended.stdout);
}
