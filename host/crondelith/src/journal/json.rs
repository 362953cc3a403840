//! What is told of a judgement, or of a record, as a JSON object. Its names are for programs and stay as they are; one that
//! doesn't apply is left out.

use serde_json::{json, Value};

use super::entry::Entry;
use super::judgement::{Contradiction, Found, Judgement};
use super::rule::Rule;
use super::text::{why, Told, COLUMNS};
use crate::output::known;

impl Told<'_> {
    pub fn to_json(&self) -> Value {
        let Judgement { beginning, length, plain, contradiction, records, tables, .. } = self.judgement;
        let figures = |row: [u64; COLUMNS.len()]| {
            known(COLUMNS.iter().zip(row).map(|((_, name), number)| (*name, json!(number))))
        };
        known([
            ("file", json!(self.path.display().to_string())),
            ("start", json!(beginning.time)),
            ("lease_term", json!(tables.lease_term().seconds())),
            ("ended", json!(beginning.ended)),
            ("plain", json!(plain)),
            ("agrees", json!(contradiction.is_none())),
            ("contradiction", json!(contradiction.map(Contradiction::to_json))),
            ("bytes", json!(length)),
            ("records", json!(records)),
            ("latest", json!(tables.clock())),
            ("partners", self.rows().map(figures).collect()),
        ])
    }
}

impl Contradiction {
    fn to_json(self) -> Value {
        let (record, rule, level, tail) = match &self.found {
            Found::Record(entry, rule) => {
                (Some(entry.to_json()), rule.map(Rule::name), rule.and_then(Rule::level), None)
            }
            Found::ShortTail(bytes) => (None, Some("short_tail"), None, Some(bytes)),
        };
        known([
            ("place", json!(self.place)),
            ("record", json!(record)),
            ("short_tail", json!(tail)),
            ("rule", json!(rule)),
            ("why", json!(why(&self.found))),
            ("level", json!(level)),
        ])
    }
}

impl Entry {
    pub fn to_json(self) -> Value {
        known(self.fields())
    }

    pub fn fields(&self) -> [(&'static str, Value); 11] {
        [
            ("time", json!(self.time)),
            ("connection", json!(self.connection)),
            ("partner", json!(self.partner())),
            ("call", json!(self.call_name())),
            ("call_number", json!(self.call)),
            ("type_byte", json!(self.type_byte)),
            ("type", json!(self.type_name())),
            ("answer", json!(self.answer)),
            ("done", json!(self.refusal().is_none())),
            ("reason", json!(self.refusal().map(|refusal| refusal.reason()))),
            ("charge", json!(self.charge)),
        ]
    }
}
