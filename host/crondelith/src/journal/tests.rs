//! Reasons against the engine's verdicts, and words that no made file comes to.

use std::collections::BTreeSet;
use std::path::Path;

use engine::relay::{self, Replayed, RECORD};
use serde_json::Value;
use server::{Tables, CLOCK_LIMIT, PARTNERS};

use super::beginning::Beginning;
use super::entry::Entry;
use super::judgement::{common_verdict, verdict, Contradiction, Found, Judgement, Unjudged};
use super::rule::Rule;
use super::text::{Told, COLUMNS};
use super::DETAILS;

const START: u64 = 10;
const BEGINNING: Beginning = Beginning { time: START, term: 600, ended: false };

/// A record's bytes.
fn record(time: u64, [connection, call, type_byte, answer]: [u8; 4], charge: u32) -> [u8; RECORD] {
    let bytes = [&time.to_be_bytes()[..], &[connection, call, type_byte, answer], &charge.to_be_bytes()].concat();
    bytes.try_into().expect("the bytes of a record")
}

/// Numbers that follow from a seed.
struct Numbers(u64);

impl Numbers {
    fn one_of<T: Copy>(&mut self, choices: &[T]) -> T {
        self.0 = self.0.wrapping_mul(6_364_136_223_846_793_005).wrapping_add(1_442_695_040_888_963_407);
        choices[(self.0 >> 33) as usize % choices.len()]
    }

    /// A record that a relay with these allowances could make, or one with a field beside that.
    fn record(&mut self, before: &Tables) -> [u8; RECORD] {
        let (latest, partner) = (before.clock(), self.one_of(&[0, 0, 1]));
        let spoiled = self.one_of(&["", "", "", "", "", "", "", "", "connection", "call", "answer", "time"]);
        let time = match spoiled {
            "time" => self.one_of(&[latest - 1, CLOCK_LIMIT - 1, CLOCK_LIMIT, u64::MAX]),
            _ => latest + self.one_of(&[0, 0, 0, 1, 2, 3, 4]),
        };
        let connection = if spoiled == "connection" { self.one_of(&[63, 64, 255]) } else { partner * 8 };
        let call = if spoiled == "call" { self.one_of(&[4, 255]) } else { self.one_of(&[0, 1, 1, 1, 1, 2, 3]) };
        let type_byte = self.one_of(&[0, 9, 11, 11, 11]);
        let answer = match spoiled {
            "answer" => self.one_of(&[1, 2, 3, 10, 255]),
            _ => self.one_of(&[0, 0, 0, 0, 4, 6, 8, 9, 9]),
        };
        let level = before.level(partner.into(), time) as u32;
        let charge = match (self.one_of(&[true, true, true, true, false]), answer, call) {
            (true, 0, 0) | (true, 0, 1) if type_byte != 9 => self.one_of(&[0, level / 2, level]),
            (true, 9, 0 | 1) => level + 1,
            (true, ..) => 0,
            (false, ..) => self.one_of(&[0, 1, level, level + 1, u32::MAX]),
        };
        record(time, [connection, call, type_byte, answer], charge)
    }
}

/// The reasons are the program's own words, so that the engine has to bear them out: there is one exactly if it contradicts.
#[test]
fn a_rule_is_found_exactly_where_the_engine_contradicts() {
    let (mut numbers, mut reached, mut agreed) = (Numbers(7), BTreeSet::new(), 0);
    for _ in 0..20_000 {
        let mut journal = Vec::new();
        loop {
            let (_, before) = verdict(relay::replay, &journal, BEGINNING).expect("what is before agrees");
            let record = numbers.record(&before);
            journal.extend(record);
            let rule = Rule::contradicted_by(&Entry::from(&record), &before);
            let place = journal.len() - RECORD;
            let (found, _) = verdict(relay::replay, &journal, BEGINNING).expect("a verdict");
            assert_eq!(found, rule.map(|_| place), "{rule:?}: {journal:?}");
            reached.extend(rule.map(Rule::name));
            if rule.is_some() {
                break;
            }
            agreed += 1;
        }
    }
    let names = "connection call answer time_limit time_back free_call refused_charge above_level within_level";
    assert_eq!(reached, names.split(' ').collect());
    assert!(agreed > 20_000, "{agreed}");
}

#[test]
fn a_contradiction_without_a_rule_is_told_plainly() {
    let journal = record(START, [0, 0, 0, 0], 45);
    let mut judgement = Judgement::new(&journal, BEGINNING, false).expect("a judgement");
    let found = Found::Record(Entry::from(&journal), None);
    judgement.contradiction = Some(Contradiction { place: 0, found });
    let told = Told { path: Path::new("j"), judgement: &judgement, partner: None };
    let why = "the engine finds that it contradicts one, and this program doesn't find which";
    assert!(told.to_string().contains(&format!("\nRule:       {why}\n")), "{told}");
    let json = told.to_json();
    assert!(json["contradiction"]["why"] == why && json["contradiction"].get("rule").is_none(), "{json}");
}

/// A replay that names a place.
fn contradicting<const PLACE: u64>(_: &mut [u8], _: &[u8], _: u64, _: u64) -> Replayed {
    Replayed { number: 0, contradicted: 1, place: PLACE }
}

/// A replay that forgets what was charged.
fn forgetful(allowances: &mut [u8], _: &[u8], now: u64, term: u64) -> Replayed {
    relay::replay(allowances, &[], now, term)
}

#[test]
fn an_engine_that_contradicts_itself_judges_nothing() {
    let journal = record(START, [0, 0, 0, 0], 45);
    let disagreed = Err(Unjudged::Inconsistent("the two replays don't agree on it".into()));
    let judged = |other| common_verdict([relay::replay_plain, other], &journal, BEGINNING).map(|(place, _)| place);
    assert_eq!(judged(relay::replay), Ok(None));
    assert_eq!(judged(forgetful), disagreed);
    // Nothing before a place is contradicted, and nothing begins within a record or at the end.
    for (replay, place) in [
        (contradicting::<0> as fn(&mut [u8], &[u8], u64, u64) -> Replayed, 0),
        (contradicting::<1>, 1),
        (contradicting::<16>, 16),
    ] {
        let wrongly = Err(Unjudged::Inconsistent(format!("a replay names byte {place}, wrongly")));
        assert_eq!(verdict(replay, &journal, BEGINNING).map(|(place, _)| place), wrongly);
    }
}

/// The plain replay's table has every level at the latest time, and the usual one's each at that of its own last call.
#[test]
fn what_judges_plainly_is_the_plain_replay() {
    let journal = [record(START, [0, 0, 0, 0], 45), record(START + 5, [8, 0, 0, 0], 45)].concat();
    let updates = |plain| {
        let judgement = Judgement::new(&journal, BEGINNING, plain).expect("a judgement");
        let (allowances, _) = judgement.tables.view().allowances.as_chunks::<16>();
        let updated = |record: &[u8; 16]| record.last_chunk().map(|bytes| u64::from_be_bytes(*bytes));
        allowances[..PARTNERS].iter().filter_map(updated).collect::<Vec<_>>()
    };
    assert_eq!(updates(true), [START + 5; PARTNERS]);
    assert_eq!(updates(false)[..3], [START, START + 5, START]);
}

#[test]
fn every_record_has_words() {
    let told = |fields, charge| {
        let words = Entry::from(&record(100, fields, charge)).to_string();
        words.strip_prefix("100 (1970-01-01T00:01:40Z): ").expect("its time").to_owned()
    };
    let of = "of connection 5 of partner 0";
    let from = "from connection 5 of partner 0";
    for (fields, charge, words) in [
        ([5, 0, 0, 0], 45, format!("open {of}: done, charged 45 units")),
        ([5, 0, 7, 4], 0, format!("open {of}, with type byte 7: refused with 4, the connection is in the wrong state")),
        ([5, 1, 11, 0], 1, format!("message of type 11 (data) {from}: done, charged 1 unit")),
        ([5, 1, 77, 6], 0, format!("message of type 77 {from}: refused with 6, not a message that peers send")),
        ([5, 1, 0, 6], 0, format!("message of type 0, or empty, {from}: refused with 6, not a message that peers send")),
        ([5, 1, 9, 0], 0, format!("message of type 9 (session end) {from}: done, charged nothing")),
        ([5, 1, 9, 8], 3, format!("message of type 9 (session end) {from}: refused with 8, there is no session, charged 3 units")),
        ([5, 1, 2, 9], 72, format!("message of type 2 (lease request) {from}: refused with 9, the partner's allowance is used up; it would cost 72 units")),
        ([5, 2, 0, 0], 0, format!("close {of}: done, charged nothing")),
        ([5, 3, 0, 0], 0, format!("keepalive check {of}: done, charged nothing")),
        ([64, 4, 9, 10], 0, "call 4 of connection 64, with type byte 9: refused with 10, for a reason that has no number here".into()),
    ] {
        assert_eq!(told(fields, charge), words);
    }
    // Any time has words, as a date or not.
    assert!(Entry::from(&[255; RECORD]).to_string().starts_with("18446744073709551615: call 255 of connection 255"));
}

/// The names in the help between two texts.
fn named<'a>(after: &str, before: &str) -> BTreeSet<&'a str> {
    let (_, names) = DETAILS.split_once(after).expect(after);
    let (names, _) = names.split_once(before).expect(before);
    names.split([',', ' ', '\n']).filter(|name| !name.is_empty()).collect()
}

fn keys(objects: &[&Value]) -> BTreeSet<String> {
    objects.iter().flat_map(|object| object.as_object().expect("an object").keys().cloned()).collect()
}

#[test]
fn the_help_names_every_field() {
    let journal = [record(START, [0, 0, 0, 0], 45), record(START, [0, 1, 11, 9], 5)].concat();
    let object = |journal: &[u8]| {
        let judgement = Judgement::new(journal, BEGINNING, false).expect("a judgement");
        Told { path: Path::new("j"), judgement: &judgement, partner: None }.to_json()
    };
    let (within, short) = (object(&journal), object(&journal[..17]));
    assert_eq!(keys(&[&within]).iter().map(String::as_str).collect::<BTreeSet<_>>(), named("one object: ", "."));
    let partners = keys(&[&within["partners"][PARTNERS - 1]]);
    assert_eq!(partners.iter().map(String::as_str).collect::<BTreeSet<_>>(), named("A partner has ", ";"));
    assert_eq!(partners.len(), COLUMNS.len());
    let contradictions = keys(&[&within["contradiction"], &short["contradiction"]]);
    let told = named("a contradiction what applies of ", ".");
    assert_eq!(contradictions.iter().map(String::as_str).collect::<BTreeSet<_>>(), told);
    let records = keys(&[&within["contradiction"]["record"]]);
    let mut told = named("has what applies of place, ", ";");
    assert_eq!(records.iter().map(String::as_str).collect::<BTreeSet<_>>(), told);
    assert!(!told.remove("place"), "only lines of 'show' have it");
}
