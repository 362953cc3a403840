//! `crondelith journal show`: the records as lines.

use std::io;
use std::path::Path;

use engine::relay::RECORD;
use serde_json::json;

use super::file::{Part, Parts};
use crate::output::{known, tell_all};
use crate::words::counted;

/// How records are shown.
#[derive(Clone, Copy)]
pub struct Form {
    pub json: bool,
    /// The partner whose records alone are shown.
    pub partner: Option<u64>,
}

/// Why not all is shown.
pub enum Unshown {
    Unread(io::Error),
    Unprinted(io::Error),
}

/// Prints each record on a line. What is left at the end, and isn't one, has a line too.
pub fn show(path: &Path, form: Form) -> Result<(), Unshown> {
    let parts = Parts::open(path).map_err(Unshown::Unread)?;
    let mut unread = None;
    let readable = parts.map_while(|part| part.map_err(|error| unread = Some(error)).ok());
    tell_all(readable.filter_map(|(place, part)| form.line(place, &part))).map_err(Unshown::Unprinted)?;
    unread.map_or(Ok(()), |error| Err(Unshown::Unread(error)))
}

impl Form {
    /// A line, if the part is one to show.
    fn line(self, place: u64, part: &Part) -> Option<String> {
        match part {
            Part::Record(entry) if self.partner.is_some_and(|partner| entry.partner() != Some(partner)) => None,
            Part::Record(entry) if self.json => {
                Some(known([("place", json!(place))].into_iter().chain(entry.fields())).to_string())
            }
            Part::Record(entry) => Some(format!("{place}: {entry}")),
            Part::ShortTail(bytes) if self.json => Some(json!({ "place": place, "short_tail": bytes }).to_string()),
            Part::ShortTail(bytes) => {
                let left = counted(*bytes as u64, "byte");
                Some(format!("{place}: no record: {left} left at the end, and a record has {RECORD}"))
            }
        }
    }
}
