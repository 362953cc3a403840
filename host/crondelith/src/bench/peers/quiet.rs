//! A quiet partner's round trips, by itself and while the seven others flood the relay from 56 connections.

use std::io;
use std::thread;
use std::time::{Duration, Instant};

use codec::Message;

use super::batch::frame;
use super::child::{JUMPING, SYSTEM};
use super::effort::Effort;
use super::flood::Flood;
use super::programs::Program;
use super::proxies::REFERENCE;
use super::relay::Relay;
use super::report::{cell, print_table, ratio, Aim, Bound};
use super::round_trip::{self, Percentiles};
use super::turns::{in_turn, median, Named};

/// From one round trip to the next: so many, of 324 units each, fit into the partner's allowance.
const PACE: Duration = Duration::from_millis(4);
/// By then the others' allowances are used up.
const FLOOD_LEAD: Duration = Duration::from_millis(300);
const GREATEST_RATIO: f64 = 2.0;

const DATA: Message = Message::DataSend { data: &[7; 1_024] };

/// A relay and the message that it is flooded with.
struct Scene {
    program: Program,
    message: Message<'static>,
}

struct Run {
    idle: Percentiles,
    flooded: Percentiles,
    /// What the relay used of a core under the flood, in percent.
    cpu: f64,
}

/// The medians of a scene's runs.
pub struct Row {
    what: &'static str,
    idle: [Option<f64>; 3],
    flooded: [Option<f64>; 3],
    cpu: Option<f64>,
}

/// Production's row, which counts, is the first.
pub fn rows(programs: &[Program], effort: &Effort) -> Vec<Row> {
    let scenes = scenes(programs);
    let outcomes = in_turn(&scenes, effort.runs, |scene| run(scene, effort));
    let row = |((what, _), outcome): (&Named<Scene>, &Option<Vec<Run>>)| {
        let runs = outcome.as_ref();
        Row {
            what,
            idle: [0, 1, 2].map(|place| median(runs, |run| run.idle[place])),
            flooded: [0, 1, 2].map(|place| median(runs, |run| run.flooded[place])),
            cpu: median(runs, |run| run.cpu),
        }
    };
    scenes.iter().zip(&outcomes).map(row).collect()
}

fn scenes(programs: &[Program]) -> Vec<Named<Scene>> {
    let ours = |clock, message| Scene { program: Program::Crondelith(clock), message };
    let mut scenes = vec![
        ("crondelith as in production: keepalives (this row counts)", ours(SYSTEM, Message::Keepalive)),
        ("crondelith as in production: 1 KiB of data without a session", ours(SYSTEM, DATA)),
        ("crondelith with no allowance ever used up: keepalives", ours(JUMPING, Message::Keepalive)),
    ];
    let reference = programs.iter().find(|program| program.name() == REFERENCE);
    scenes.extend(reference.map(|program| {
        ("haproxy: the same bytes to a sink", Scene { program: program.clone(), message: Message::Keepalive })
    }));
    scenes
}

/// With a relay of its own, since what a flood leaves behind may wait for allowance long after it.
fn run(scene: &Scene, effort: &Effort) -> io::Result<Run> {
    let relay = Relay::start(&scene.program)?;
    let link = relay.link(0)?;
    let idle = round_trip::measure(&link, effort.quiet_round_trips, PACE)?;
    let flood = Flood::start(&relay, &frame(&scene.message)?)?;
    thread::sleep(FLOOD_LEAD);
    let (start, before) = (Instant::now(), relay.process.cpu_seconds()?);
    let flooded = round_trip::measure(&link, effort.quiet_round_trips, PACE)?;
    let cpu = (relay.process.cpu_seconds()? - before) / start.elapsed().as_secs_f64() * 100.0;
    let run = Run { idle, flooded, cpu };
    flood.goes_on().then_some(run).ok_or_else(|| io::Error::other("connections of the flood were closed"))
}

const HEAD: [&str; 11] = [
    "a quiet partner's round trip, µs",
    "idle p50",
    "p99",
    "worst",
    "flooded p50",
    "p99",
    "worst",
    "flooded / idle p50",
    "p99",
    "worst",
    "relay's CPU under the flood, %",
];

pub fn print(rows: &[Row]) {
    print_table(&HEAD, rows.iter().map(Row::cells));
}

impl Row {
    fn ratio(&self, place: usize) -> Option<f64> {
        ratio(self.flooded[place], self.idle[place])
    }

    fn cells(&self) -> Vec<String> {
        let times = self.idle.iter().chain(&self.flooded).map(|time| cell(*time, 1));
        let ratios = (0..3).map(|place| cell(self.ratio(place), 2));
        let what = [self.what.to_owned()].into_iter();
        what.chain(times).chain(ratios).chain([cell(self.cpu, 0)]).collect()
    }
}

/// What is hoped of the row that counts.
pub fn aims(rows: &[Row]) -> impl Iterator<Item = Aim> + '_ {
    let aim = |row: &Row, name: &str, place| Aim {
        what: format!("a quiet partner's round trip under the flood, {name}, as a multiple of the idle one"),
        bound: Bound::AtMost(GREATEST_RATIO),
        figure: row.ratio(place),
    };
    rows.iter().take(1).flat_map(move |row| [aim(row, "p99", 1), aim(row, "worst", 2)])
}
