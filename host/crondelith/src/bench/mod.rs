//! `crondelith bench`: the engine measured side by side with the second implementation and with plain copies, or the
//! whole relay with other relays.

mod calls;
mod cases;
mod framing;
mod journals;
mod longest_lease;
mod loopback;
mod maps;
mod measure;
mod memory;
pub mod peers;
mod relays;
mod replays;
mod sends;

use clap::Args;

use crate::signals::Watch;
use crate::{say, Failure, Outcome};
use measure::{Comparison, Medians};

const ABOUT: &str = "\
Measures the proved engine, each time beside something that does the same work.";

const DETAILS: &str = "\
Prints a Markdown table. A row has the nanoseconds that one repetition takes of the engine and of
the other side, which is the second implementation unless the row says otherwise, and their ratio:
below 1 the engine is faster. Both sides are measured in turn, batch by batch, and the median batch
counts. Every answer is checked, and after every batch the bytes that both sides left. A plain copy
is the C library's, of a send's data from the same message to the same buffer; where it begins in
both is told, since that counts. Of a frame it is one of the message, from the same chunk to the
same buffer where a frame is read, and the other way where it is written. A journal is one that the
engine's own calls make, and its replay must come to that relay's allowances; in its rows a
repetition is a record. The last rows are the whole relay over TCP on this machine: beside a loop
that copies from one socket to another, and with a journal beside one without, all on one core,
where what the journal's thread does counts too. The clock jumps, so that nobody waits for an
allowance.

With --peers each relay is a process of its own, and those that aren't installed are left out. The
same frames go through all: ours hands them on from one connection of a partner to another in
session, the others from a connection to one that they open. Counts and samples of what comes out
are checked. A figure is the median of seven runs of each relay in turn, but CPU seconds are of all
of these together and memory is of one; a relay that fails has '-'. A connection's memory is what is
resident beyond a relay that has just started, with 64 connections idle, and with 32 links of which
both ends send messages of 16 KiB at once. Our relay's clock jumps, except where a row says 'as in
production'. The second table is of a partner that makes a round trip every 4 ms, by itself and
while the seven others send as fast as they can from 56 connections. What sends the flood shares the
machine's cores with the relay.

Either takes its time, some twenty seconds or two minutes, and is meant for a machine with nothing
else to do.

The exit status is 0 if all was measured, 1 if not, also when interrupted before (Ctrl-C), and 2 if
the arguments are wrong.";

/// Measure the proved engine beside the second implementation and plain copies
#[derive(Args)]
#[command(long_about = ABOUT, after_long_help = DETAILS)]
pub struct Arguments {
    /// Measure the relay beside haproxy, nginx and socat instead
    #[arg(long)]
    peers: bool,

    /// Only show that all is in order; the figures mean nothing
    #[arg(long, hide = true)]
    brief: bool,
}

/// Rows, and what is hoped of them, if anything.
struct Section {
    rows: Vec<Row>,
    aims: Vec<Aim>,
}

struct Aim {
    text: &'static str,
    /// The place of the row that it is about; None: it is about every row.
    row: Option<usize>,
    limit: Limit,
}

#[derive(Clone, Copy)]
enum Limit {
    /// The engine's time is at most so many times the other side's.
    Ratio(f64),
    /// It is longer by less than so many nanoseconds.
    Nanoseconds(f64),
}

struct Row {
    what: String,
    medians: Medians,
}

impl Row {
    fn ratio(&self) -> f64 {
        self.medians.engine / self.medians.other
    }

    fn keeps(&self, limit: Limit) -> bool {
        match limit {
            Limit::Ratio(greatest) => self.ratio() <= greatest,
            Limit::Nanoseconds(bound) => self.medians.engine - self.medians.other < bound,
        }
    }
}

impl Section {
    fn print(&self) {
        for row in &self.rows {
            let Medians { engine, other } = row.medians;
            say(format_args!("| {} | {engine:.1} | {other:.1} | {:.2} |", row.what, row.ratio()));
        }
    }

    /// Each aim, and whether it is met.
    fn judged(&self) -> impl Iterator<Item = String> + '_ {
        self.aims.iter().map(|aim| format!("{}: {}", aim.text, if self.meets(aim) { "met" } else { "not met" }))
    }

    fn meets(&self, aim: &Aim) -> bool {
        match aim.row {
            Some(place) => self.rows.get(place).is_some_and(|row| row.keeps(aim.limit)),
            None => self.rows.iter().all(|row| row.keeps(aim.limit)),
        }
    }
}

/// The sections, in the table's order.
const SECTIONS: [fn() -> Result<Section, Failure>; 11] = [
    calls::section,
    maps::section,
    longest_lease::section,
    longest_lease::made_by_hand,
    sends::by_length,
    sends::by_place,
    framing::reading,
    framing::writing,
    replays::section,
    loopback::section,
    journals::section,
];

pub fn run(arguments: Arguments) -> Outcome {
    Watch::start("interrupted")?;
    run_with(arguments.peers, arguments.brief)
}

/// Measures the engine, or the relay beside others; the latter briefly if only to show that all is in order.
pub fn run_with(peers: bool, brief: bool) -> Outcome {
    if cfg!(debug_assertions) {
        say("This is a debug build: its numbers mean nothing.\n");
    }
    if peers {
        peers::run(brief)
    } else {
        measure_engine()
    }
}

fn measure_engine() -> Outcome {
    say("| what | engine ns | other ns | engine / other |\n|---|---:|---:|---:|");
    let sections = SECTIONS.into_iter().map(measured).collect::<Result<Vec<_>, _>>()?;
    let aims = sections.iter().flat_map(Section::judged).collect::<Vec<_>>();
    say(format_args!("\nAims: {}.", aims.join("; ")));
    Ok(())
}

fn measured(section: fn() -> Result<Section, Failure>) -> Result<Section, Failure> {
    let section = section()?;
    section.print();
    Ok(section)
}

/// Measures a row. A side that answers wrongly, or leaves other bytes than it should, measures nothing.
fn compare(what: String, comparison: &mut impl Comparison) -> Result<Row, Failure> {
    match measure::in_turn(comparison) {
        Some(medians) => Ok(Row { what, medians }),
        None => Err(Failure::Failed(format!("bench: wrong answers or bytes in '{what}'"))),
    }
}

fn unprepared() -> Failure {
    Failure::Failed("bench: the engine refused a call that prepares the tables".into())
}

#[cfg(test)]
mod tests {
    use super::{Aim, Limit, Medians, Row, Section};

    /// How an aim is judged for rows of these times of the engine and of the other side.
    fn judged(times: &[(f64, f64)], row: Option<usize>, limit: Limit) -> Vec<String> {
        let row_of = |&(engine, other)| Row { what: String::new(), medians: Medians { engine, other } };
        let rows = times.iter().map(row_of).collect();
        Section { rows, aims: vec![Aim { text: "aim", row, limit }] }.judged().collect()
    }

    #[test]
    fn an_aim_is_met_by_its_rows_up_to_its_limit() {
        let times = [(30.0, 20.0), (50.0, 20.0)];
        for (row, limit, met) in [
            (None, Limit::Ratio(2.5), true),
            (None, Limit::Ratio(2.4), false),
            (Some(0), Limit::Ratio(1.5), true),
            (Some(1), Limit::Ratio(1.5), false),
            (None, Limit::Nanoseconds(31.0), true),
            (None, Limit::Nanoseconds(30.0), false),
            (Some(0), Limit::Nanoseconds(11.0), true),
            (Some(1), Limit::Nanoseconds(11.0), false),
            (Some(2), Limit::Ratio(9.0), false),
        ] {
            assert_eq!(judged(&times, row, limit), [if met { "aim: met" } else { "aim: not met" }]);
        }
    }
}
