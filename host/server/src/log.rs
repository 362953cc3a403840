//! The log, with floods summed up. A thread of its own writes it: a log that nobody takes mustn't hold up the relay.

use std::collections::HashMap;
use std::fmt::{Display, Write};
use std::net::SocketAddr;
use std::sync::{Condvar, Mutex, MutexGuard, PoisonError};
use std::time::{Duration, Instant, SystemTime};

use serde_json::{json, Map, Value};

use crate::CONNECTIONS_EACH;

/// How often floods are summed up.
const PERIOD: Duration = Duration::from_secs(5);
/// Lines of a kind and place that are written in a period. Further ones are only counted.
const LINES_EACH: u64 = 10;
/// Lines that may wait to be written. Further ones are lost, and counted.
const BOUND: usize = 1_000;

/// How a line looks.
#[derive(Clone, Copy, Debug, Default, PartialEq, Eq)]
pub enum LogFormat {
    /// The time, the place and the text.
    #[default]
    Text,
    /// An object.
    Json,
}

/// Whom a line is about.
#[derive(Clone, Copy, Debug, PartialEq, Eq, Hash)]
pub enum Place {
    Relay,
    Partner(usize),
    Connection(usize),
}

/// A line's kind and place: what is summed up, however the texts differ.
#[derive(Clone, Copy, Debug, PartialEq, Eq, Hash)]
pub struct Event {
    pub kind: &'static str,
    pub place: Place,
}

/// What a line says.
pub struct Said<T> {
    pub text: T,
    /// A number of the text that has a field of this name in JSON.
    pub number: Option<(&'static str, u64)>,
}

pub struct Log {
    format: LogFormat,
    write: Box<dyn Fn(&str) + Send + Sync>,
    state: Mutex<State>,
    changed: Condvar,
}

#[derive(Default)]
struct State {
    waiting: Vec<String>,
    lost: u64,
    /// For each event of this period or the last.
    counts: HashMap<Event, Count>,
    ended: bool,
}

#[derive(Default)]
struct Count {
    written: u64,
    /// Since the last summing up.
    only_counted: u64,
}

impl Log {
    /// A log that hands each line, without a newline, to `write`.
    pub fn new(format: LogFormat, write: impl Fn(&str) + Send + Sync + 'static) -> Self {
        Self { format, write: Box::new(write), state: Mutex::default(), changed: Condvar::new() }
    }

    /// Writes a line or, in a flood, counts it.
    pub fn record(&self, event: Event, peer: Option<SocketAddr>, text: impl Display) {
        self.record_with(event, peer, || Said { text, number: None });
    }

    /// Likewise. What is only counted isn't worked out.
    pub fn record_with<T: Display>(&self, event: Event, peer: Option<SocketAddr>, say: impl FnOnce() -> Said<T>) {
        let mut state = self.lock();
        let count = state.counts.entry(event).or_default();
        if count.written == LINES_EACH {
            count.only_counted += 1;
            return;
        }
        count.written += 1;
        let Said { text, number } = say();
        state.add(self.line(event, peer, &text, number));
        self.changed.notify_all();
    }

    /// Adds how many lines of each event were only counted. An event that had none is written again at its next time.
    pub fn sum_up(&self) {
        let mut state = self.lock();
        let mut counts = std::mem::take(&mut state.counts);
        counts.retain(|_, count| count.only_counted > 0);
        for (event, count) in &mut counts {
            let more = std::mem::take(&mut count.only_counted);
            state.add(self.line(*event, None, &format_args!("'{}' {more} times more", event.kind), None));
        }
        state.counts = counts;
    }

    fn line(
        &self,
        event: Event,
        peer: Option<SocketAddr>,
        text: &dyn Display,
        number: Option<(&'static str, u64)>,
    ) -> String {
        let time = humantime::format_rfc3339_millis(SystemTime::now());
        match self.format {
            LogFormat::Text => text_line(time, event.place, peer, text),
            LogFormat::Json => json_line(time, event, peer, text, number),
        }
    }

    /// Writes what waits, without the lock, since it may take long.
    pub fn flush(&self) {
        let (lines, lost) = {
            let mut state = self.lock();
            (std::mem::take(&mut state.waiting), std::mem::take(&mut state.lost))
        };
        lines.iter().for_each(|line| (self.write)(line));
        if lost > 0 {
            let event = Event { kind: "lost", place: Place::Relay };
            (self.write)(&self.line(event, None, &format_args!("{lost} lines are lost, they came too fast"), None));
        }
    }

    /// Writes lines as they come, and sums up, until the log has ended.
    pub fn run(&self) {
        let mut period_end = Instant::now() + PERIOD;
        while self.wait(period_end) {
            if Instant::now() >= period_end {
                self.sum_up();
                period_end = Instant::now() + PERIOD;
            }
            self.flush();
        }
        self.sum_up();
        self.flush();
    }

    /// Waits for lines, not beyond this time. Gives whether the log goes on.
    fn wait(&self, until: Instant) -> bool {
        let time = until.saturating_duration_since(Instant::now());
        let is_idle = |state: &mut State| !state.ended && state.waiting.is_empty();
        let waited = self.changed.wait_timeout_while(self.lock(), time, is_idle);
        !waited.unwrap_or_else(PoisonError::into_inner).0.ended
    }

    pub fn end(&self) {
        self.lock().ended = true;
        self.changed.notify_all();
    }

    /// The state is whole at every moment at which a thread could panic.
    fn lock(&self) -> MutexGuard<'_, State> {
        self.state.lock().unwrap_or_else(PoisonError::into_inner)
    }
}

impl State {
    fn add(&mut self, line: String) {
        if self.waiting.len() < BOUND {
            self.waiting.push(line);
        } else {
            self.lost += 1;
        }
    }
}

impl Place {
    /// The partner and the connection, as far as the place has them.
    fn numbers(self) -> (Option<usize>, Option<usize>) {
        match self {
            Self::Relay => (None, None),
            Self::Partner(partner) => (Some(partner), None),
            Self::Connection(connection) => (Some(connection / CONNECTIONS_EACH), Some(connection)),
        }
    }
}

fn text_line(time: impl Display, place: Place, peer: Option<SocketAddr>, text: &dyn Display) -> String {
    let mut line = format!("{time} ");
    let (partner, connection) = place.numbers();
    // Writing to a string doesn't fail.
    let _ = match (partner, connection) {
        (Some(partner), Some(connection)) => write!(line, "partner {partner}, connection {connection}"),
        (Some(partner), None) => write!(line, "partner {partner}"),
        _ => write!(line, "the relay"),
    };
    if let Some(peer) = peer {
        let _ = write!(line, " at {peer}");
    }
    let _ = write!(line, ": {text}");
    line
}

fn json_line(
    time: impl Display,
    event: Event,
    peer: Option<SocketAddr>,
    text: &dyn Display,
    number: Option<(&'static str, u64)>,
) -> String {
    let (partner, connection) = event.place.numbers();
    let fields = [
        ("time", Some(json!(time.to_string()))),
        ("event", Some(json!(event.kind))),
        ("partner", partner.map(|number| json!(number))),
        ("connection", connection.map(|number| json!(number))),
        ("peer", peer.map(|address| json!(address.to_string()))),
        ("text", Some(json!(text.to_string()))),
    ];
    let number = number.map(|(name, number)| (name, Some(json!(number))));
    let known = fields.into_iter().chain(number).filter_map(|(name, value)| Some((name.to_owned(), value?)));
    Value::Object(known.collect::<Map<_, _>>()).to_string()
}
