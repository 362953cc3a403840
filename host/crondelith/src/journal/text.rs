//! What is told of a judgement, as lines for people.

use std::fmt::{self, Display};
use std::path::Path;

use engine::relay::RECORD;
use peer::grouped;
use server::PARTNERS;

use super::figures::Figures;
use super::judgement::{Contradiction, Found, Judgement};
use crate::words::{counted, date};

/// A judgement of a file, and the partner whose figures alone are told, if one is named.
pub struct Told<'a> {
    pub path: &'a Path,
    pub judgement: &'a Judgement,
    pub partner: Option<usize>,
}

/// The columns of the figures: their names for people and for programs.
pub const COLUMNS: [(&str, &str); 7] = [
    ("partner", "partner"),
    ("done", "done"),
    ("units charged", "charged"),
    ("refused with 9", "refused_with_9"),
    ("units refused", "refused_units"),
    ("refused otherwise", "refused_otherwise"),
    ("units left", "left"),
];
/// Between columns.
const GAP: &str = "  ";

impl Told<'_> {
    /// The figures of each partner that is told of, by columns.
    pub fn rows(&self) -> impl Iterator<Item = [u64; COLUMNS.len()]> + '_ {
        let partners = (0..PARTNERS).filter(|partner| self.partner.is_none_or(|only| only == *partner));
        partners.map(|partner| {
            let Figures { done, charged, refused_with_9, refused_units, refused_otherwise } =
                self.judgement.figures[partner];
            let left = self.judgement.left(partner);
            [partner as u64, done, charged, refused_with_9, refused_units, refused_otherwise, left]
        })
    }

    fn lines(&self) -> Vec<(&'static str, String)> {
        let Judgement { beginning, contradiction, tables, .. } = self.judgement;
        let found = contradiction.as_ref().map(|contradiction| &contradiction.found);
        let term = counted(tables.lease_term().seconds(), "second");
        let start = format!("{}, leases of {term}", date(beginning.time));
        let ended = "by its start's file, calls after the last record have none".to_owned();
        let lines = [
            Some(("Journal:", self.journal())),
            Some(("Start:", start)),
            beginning.ended.then_some(("Ended:", ended)),
            Some(("Verdict:", self.verdict())),
            found.map(|found| ("Record:", record(found))),
            found.map(|found| ("Rule:", why(found))),
            found.map(|_| ("Before it:", self.before())),
            Some(("Latest:", self.latest())),
        ];
        lines.into_iter().flatten().collect()
    }

    fn journal(&self) -> String {
        let length = self.judgement.length;
        let records = counted((length / RECORD) as u64, "record");
        let tail = match length % RECORD {
            0 => String::new(),
            bytes => format!(" and {}", counted(bytes as u64, "byte")),
        };
        format!("'{}', {records}{tail}", self.path.display())
    }

    fn verdict(&self) -> String {
        let Judgement { plain, contradiction, .. } = self.judgement;
        let by = if *plain { "; the plain replay and the usual one say so" } else { "" };
        match contradiction {
            Some(Contradiction { place, found }) => {
                let what = match found {
                    Found::Record(..) => format!("by record {}", grouped((place / RECORD) as u64 + 1)),
                    Found::ShortTail(_) => "by the end of the file".into(),
                };
                format!("contradicted at byte {}, {what}{by}", grouped(*place as u64))
            }
            None => format!("agrees with the rules{by}"),
        }
    }

    fn before(&self) -> String {
        match self.judgement.records {
            0 => "no record; the figures are of the start".into(),
            1 => "1 record agrees with the rules; the figures are of this one".into(),
            records => format!("{} records agree with the rules; the figures are of these", grouped(records as u64)),
        }
    }

    /// When what is left is left.
    fn latest(&self) -> String {
        let is_done = self.judgement.figures.iter().any(|figures| figures.done > 0);
        let what = if is_done { "the latest done call" } else { "the start, no call being done" };
        format!("{}, {what}; the units left are those of this time", date(self.judgement.tables.clock()))
    }
}

impl Display for Told<'_> {
    fn fmt(&self, to: &mut fmt::Formatter) -> fmt::Result {
        self.lines().iter().try_for_each(|(label, text)| writeln!(to, "{label:<11} {text}"))?;
        let head = COLUMNS.map(|(name, _)| name.to_owned());
        let rows: Vec<_> = [head].into_iter().chain(self.rows().map(|row| row.map(grouped))).collect();
        let widths: [usize; COLUMNS.len()] =
            std::array::from_fn(|column| rows.iter().map(|row| row[column].len()).max().unwrap_or_default());
        let line = |row: &[String; COLUMNS.len()]| {
            let cells: Vec<_> = row.iter().zip(widths).map(|(cell, width)| format!("{cell:>width$}")).collect();
            cells.join(GAP)
        };
        write!(to, "\n{}", rows.iter().map(line).collect::<Vec<_>>().join("\n"))
    }
}

/// What a contradiction is found in, in words.
fn record(found: &Found) -> String {
    match found {
        Found::Record(entry, _) => entry.to_string(),
        Found::ShortTail(bytes) => format!("none, just {}", counted(*bytes as u64, "byte")),
    }
}

/// The rule that it contradicts, in words.
pub fn why(found: &Found) -> String {
    match found {
        Found::Record(entry, Some(rule)) => rule.sentence(entry),
        Found::Record(_, None) => {
            "the engine finds that it contradicts one, and this program doesn't find which".into()
        }
        Found::ShortTail(bytes) => format!("a record has {RECORD} bytes, and the file ends after {bytes} of one"),
    }
}
