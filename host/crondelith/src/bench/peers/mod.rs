//! `crondelith bench --peers`: the relay measured side by side with haproxy, nginx and socat, each in a process of its
//! own. What is sent and received, and both ends of every connection, are this process's.

mod batch;
mod child;
mod effort;
mod flood;
mod link;
mod listening;
mod memory;
mod process;
mod programs;
mod proxies;
mod quiet;
mod relay;
mod report;
mod round_trip;
mod threads;
mod throughput;
mod turns;
mod usage;

pub use child::{run as run_child, WORD};
pub use relay::session;

use std::thread;
use std::time::Duration;

use crate::{note, say, Outcome};
use effort::Effort;
use programs::Program;
use relay::Relay;
use report::{print_aims, print_comparison, Row};

/// Every wait has a limit of its own. This is for one that was overlooked; the relays end with this process.
const LIMIT: Duration = Duration::from_secs(300);

/// Prints the tables and the aims. A brief run only shows that all is in order.
pub fn run(brief: bool) -> Outcome {
    let effort = if brief { &effort::BRIEF } else { &effort::FULL };
    thread::spawn(|| {
        thread::sleep(LIMIT);
        note("bench: still not done, given up");
        std::process::exit(1);
    });
    if !brief {
        note("bench: this takes some two minutes");
    }
    let programs = programs::installed();
    let mut rows = speed(&programs, effort);
    rows.extend(memory::rows(&programs, effort));
    print_comparison(&programs, &rows);
    let quiet = quiet::rows(&programs, effort);
    say("");
    quiet::print(&quiet);
    say("\nAims:\n");
    print_aims(report::aims(&programs, &rows).chain(quiet::aims(&quiet)));
    Ok(())
}

/// What is measured of relays that run all the time.
fn speed(programs: &[Program], effort: &Effort) -> Vec<Row> {
    let relays: Vec<_> = programs.iter().map(|program| (program.name(), Relay::start(program))).collect();
    let mut rows = throughput::rows(&relays, effort);
    rows.extend(round_trip::rows(&relays, effort));
    rows
}
