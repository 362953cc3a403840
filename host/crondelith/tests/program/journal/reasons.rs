//! Journals that are contradicted: the place, the record in words and the rule.

use std::collections::BTreeSet;

use serde_json::json;

use super::{data, journal, json_of, judged, record, started_journal, CAPACITY, DATA};

/// What contradicts, after the first record, and the words for it.
struct Case {
    name: &'static str,
    parts: Vec<Vec<u8>>,
    record: &'static str,
    rule: &'static str,
}

/// The last is cut.
fn cases() -> Vec<Case> {
    let case =
        |name, last: Vec<u8>, record, rule| Case { name, parts: vec![data(10, 0, CAPACITY), last], record, rule };
    vec![
        case(
            "connection",
            record(10, 64, 0, 0, 0, 0),
            "10 (1970-01-01T00:00:10Z): open of connection 64: done, charged nothing",
            "connections have the numbers 0 to 63, and this is 64",
        ),
        case(
            "call",
            record(10, 8, 4, 0, 0, 0),
            "10 (1970-01-01T00:00:10Z): call 4 of connection 8 of partner 1, with type byte 0: done, charged nothing",
            "calls have the numbers 0 to 3, and this is 4",
        ),
        case(
            "answer",
            record(10, 8, 0, 0, 2, 0),
            "10 (1970-01-01T00:00:10Z): open of connection 8 of partner 1: refused with 2, the clock's reading is out of range",
            "records have the answers 0 and 4 to 9, and this is 2",
        ),
        case(
            "time_limit",
            record(1 << 40, 8, 2, 0, 0, 0),
            "1099511627776: close of connection 8 of partner 1: done, charged nothing",
            "times are below 1,099,511,627,776, and this is not",
        ),
        case(
            "time_back",
            record(9, 8, 2, 0, 4, 0),
            "9 (1970-01-01T00:00:09Z): close of connection 8 of partner 1: refused with 4, the connection is in the wrong state",
            "no time is below that of the latest done record, or of the start: 10 (1970-01-01T00:00:10Z)",
        ),
        case(
            "free_call",
            record(10, 8, 1, 9, 0, 33),
            "10 (1970-01-01T00:00:10Z): message of type 9 (session end) from connection 8 of partner 1: done, charged 33 units",
            "a close, a keepalive check and a session's end are free, and this has a charge of 33 units",
        ),
        case(
            "refused_charge",
            record(10, 8, 1, DATA, 8, 1),
            "10 (1970-01-01T00:00:10Z): message of type 11 (data) from connection 8 of partner 1: \
             refused with 8, there is no session, charged 1 unit",
            "only answers 0 and 9 have a charge, and this is 8 with a charge of 1 unit",
        ),
        case(
            "above_level",
            data(13, 0, 196_609),
            "13 (1970-01-01T00:00:13Z): message of type 11 (data) from connection 0 of partner 0: done, charged 196,609 units",
            "a done call costs at most what its partner has: this costs 196,609 units, and the partner has 196,608 then",
        ),
        case(
            "within_level",
            data(13, 9, 196_608),
            "13 (1970-01-01T00:00:13Z): message of type 11 (data) from connection 0 of partner 0: \
             refused with 9, the partner's allowance is used up; it would cost 196,608 units",
            "9 is for a call that costs more than its partner has: this costs 196,608 units, and the partner has 196,608 then",
        ),
        case(
            "short_tail",
            data(13, 0, 1)[..15].to_vec(),
            "none, just 15 bytes",
            "a record has 16 bytes, and the file ends after 15 of one",
        ),
    ]
}

#[test]
fn each_rule_is_told_with_the_place_and_the_record() {
    let cases = cases();
    assert_eq!(cases.iter().map(|case| case.name).collect::<BTreeSet<_>>().len(), 10);
    for Case { name, parts, record, rule } in cases {
        let path = started_journal(name, 10, &parts);
        let ended = judged(&path, &[]);
        assert_eq!(ended.status, Some(1), "{name}");
        assert_eq!(ended.stderr, format!("crondelith: the journal '{}' is contradicted\n", path.display()));
        let by = if name == "short_tail" { "the end of the file" } else { "record 2" };
        let lines = [
            format!("Verdict:    contradicted at byte 16, by {by}"),
            format!("Record:     {record}"),
            format!("Rule:       {rule}"),
            "Before it:  1 record agrees with the rules; the figures are of this one".into(),
            "Latest:     10 (1970-01-01T00:00:10Z), the latest done call; the units left are those of this time".into(),
        ];
        assert_eq!(ended.stdout.lines().skip(2).take(5).collect::<Vec<_>>(), lines, "{name}");
        assert!(ended.stdout.contains("\n      0     1        262,144  "), "{}", ended.stdout);
        // The plain replay finds the same, and another partner's figures don't hide it.
        let (object, status) = json_of(&path, &["--plain", "--partner", "7"]);
        let contradiction = &object["contradiction"];
        assert_eq!((status, &object["agrees"], &object["records"]), (Some(1), &json!(false), &json!(1)));
        assert_eq!(
            (&contradiction["place"], &contradiction["rule"], &contradiction["why"]),
            (&json!(16), &json!(name), &json!(rule))
        );
        assert_eq!(
            (&object["partners"][0]["partner"], object["partners"].as_array().map(Vec::len)),
            (&json!(7), Some(1))
        );
    }
}

#[test]
fn both_numbers_of_a_level_are_in_the_object() {
    for (name, answer, charge, contradicted) in [
        ("above", 0, 196_609, true),
        ("just", 0, 196_608, false),
        ("within", 9, 196_608, true),
        ("beyond", 9, 196_609, false),
    ] {
        let path = started_journal(&format!("level_{name}"), 10, &[data(10, 0, CAPACITY), data(13, answer, charge)]);
        let (object, status) = json_of(&path, &[]);
        let contradiction = &object["contradiction"];
        assert_eq!((status, contradiction.is_null()), (Some(contradicted.into()), !contradicted), "{name}");
        if contradicted {
            assert_eq!(
                (&contradiction["level"], &contradiction["record"]["charge"]),
                (&json!(196_608), &json!(charge))
            );
        }
    }
}

#[test]
fn the_first_place_is_named() {
    // Records of zeros agree with a start at 0 and with no later one.
    let zeros = vec![0; 16];
    let path = journal("first", &[zeros.clone(), zeros.clone(), vec![255; 3]]);
    let place = |start| json_of(&path, &["--start", start]).0["contradiction"]["place"].clone();
    assert_eq!((place("0"), place("1")), (json!(32), json!(0)));
    let (object, _) = json_of(&path, &["--start", "1"]);
    assert_eq!((&object["records"], &object["bytes"], &object["latest"]), (&json!(0), &json!(35), &json!(1)));
    let words = judged(&path, &["--start", "1"]).stdout;
    assert!(words.contains("', 2 records and 3 bytes\n"), "{words}");
    assert!(words.contains("\nBefore it:  no record; the figures are of the start\n"), "{words}");
    // A refused record moves no clock.
    let parts = [data(10, 0, CAPACITY), record(13, 0, 2, 0, 4, 0), data(11, 0, 65_536), data(11, 0, 1)];
    let (object, _) = json_of(&started_journal("refused", 10, &parts), &[]);
    assert_eq!((&object["contradiction"]["place"], &object["latest"]), (&json!(48), &json!(11)));
}
