//! How far a transfer is, as a line of text.

use std::collections::VecDeque;
use std::io::{stderr, Stderr, Write};
use std::mem;
use std::time::{Duration, Instant};

/// How often the line is redrawn on a terminal.
const REDRAW: Duration = Duration::from_millis(250);
/// How often a line is written elsewhere.
const REPEAT: Duration = Duration::from_secs(5);
/// The rate is that of the last seconds, since a relay lets a burst through first.
const WINDOW: Duration = Duration::from_secs(5);

/// The width of a terminal that doesn't tell it.
const USUAL_COLUMNS: usize = 80;

/// What a transfer tells of itself.
#[derive(Clone, Copy, Debug, PartialEq, Eq)]
pub enum Progress {
    /// So many bytes of the file are there.
    Moved { done: u64, total: u64 },
    /// Nothing has moved for so long. It is told once, until something moves again.
    Stalled(Duration),
}

/// The line: bytes, percent, rate and time left, as far as they are known.
pub fn text(done: u64, total: u64, rate: Option<f64>) -> String {
    let text = ended_text(done, total, rate);
    match rate.filter(|rate| done < total && *rate > 0.0) {
        Some(rate) => format!("{text}, {} left", clock((total - done) as f64 / rate)),
        None => text,
    }
}

/// Likewise without the time left, which a transfer that has ended hasn't.
fn ended_text(done: u64, total: u64, rate: Option<f64>) -> String {
    let percent = (u128::from(done) * 100).checked_div(total.into()).unwrap_or(100);
    let text = format!("{} of {} bytes, {percent} %", grouped(done), grouped(total));
    match rate.filter(|rate| *rate > 0.0) {
        Some(rate) => format!("{text}, {}", rate_text(rate)),
        None => text,
    }
}

/// A number with a comma after each three digits, counted from the right.
pub fn grouped(number: u64) -> String {
    let digits = number.to_string();
    let head = digits.len() % 3;
    let (first, rest) = digits.split_at(head);
    let mut groups: Vec<&str> = rest.as_bytes().chunks(3).filter_map(|group| std::str::from_utf8(group).ok()).collect();
    if head > 0 {
        groups.insert(0, first);
    }
    groups.join(",")
}

/// That nothing moves, in words.
pub(crate) fn standstill(time: Duration) -> String {
    format!("nothing has moved for {} s", time.as_secs())
}

fn rate_text(rate: f64) -> String {
    match rate {
        _ if rate < 1e3 => format!("{rate:.0} B/s"),
        _ if rate < 1e6 => format!("{:.1} kB/s", rate / 1e3),
        _ => format!("{:.1} MB/s", rate / 1e6),
    }
}

/// Minutes and seconds, with hours if there are any. A second begun counts.
fn clock(seconds: f64) -> String {
    // The cast gives the highest number where the time is too long for one.
    let seconds = seconds.ceil() as u64;
    let (hours, minutes, seconds) = (seconds / 3600, seconds / 60 % 60, seconds % 60);
    match hours {
        0 => format!("{minutes}:{seconds:02}"),
        _ => format!("{hours}:{minutes:02}:{seconds:02}"),
    }
}

/// The columns of the terminal that stderr is, or None if it is none.
fn stderr_columns() -> Option<usize> {
    let size = rustix::termios::tcgetwinsize(stderr()).ok()?;
    // A terminal that doesn't know its size says 0.
    Some(if size.ws_col == 0 { USUAL_COLUMNS } else { size.ws_col.into() })
}

/// Shows the line: redrawn in place on a terminal, else a new one now and then.
pub struct Meter<W: Write> {
    to: W,
    /// The terminal's columns, which may change, or None if it is none.
    columns: fn() -> Option<usize>,
    start: Instant,
    shown: Duration,
    /// Whether the terminal's line has to be left.
    within_line: bool,
    /// Moments of the last seconds and the bytes done by then.
    samples: VecDeque<(Duration, u64)>,
    last: Option<(u64, u64)>,
}

impl Meter<Stderr> {
    pub fn stderr() -> Self {
        Self::new(stderr(), stderr_columns)
    }
}

impl<W: Write> Meter<W> {
    pub fn new(to: W, columns: fn() -> Option<usize>) -> Self {
        let samples = VecDeque::from([(Duration::ZERO, 0)]);
        let (start, shown) = (Instant::now(), Duration::ZERO);
        Self { to, columns, start, shown, within_line: false, samples, last: None }
    }

    pub fn update(&mut self, progress: Progress) {
        self.update_at(self.start.elapsed(), progress);
    }

    /// Likewise, with the time since the start.
    pub fn update_at(&mut self, now: Duration, progress: Progress) {
        match progress {
            Progress::Moved { done, total } => self.moved(now, done, total),
            Progress::Stalled(time) => self.stalled(time),
        }
    }

    fn moved(&mut self, now: Duration, done: u64, total: u64) {
        self.last = Some((done, total));
        let interval = if (self.columns)().is_some() { REDRAW } else { REPEAT };
        if now.saturating_sub(self.shown) < interval {
            return;
        }
        self.shown = now;
        let rate = self.rate(now, done);
        self.show(&text(done, total, rate));
    }

    fn stalled(&mut self, time: Duration) {
        let bytes = self.last.map(|(done, total)| format!("; {}", text(done, total, None)));
        self.show(&(standstill(time) + &bytes.unwrap_or_default()));
    }

    /// Shows where the transfer ended, with the rate over all of it, and leaves the line.
    pub fn end(&mut self) {
        self.end_at(self.start.elapsed());
    }

    /// Likewise, with the time since the start.
    pub fn end_at(&mut self, now: Duration) {
        if let Some((done, total)) = self.last.take() {
            self.show(&ended_text(done, total, rate(now, done)));
        }
        if mem::take(&mut self.within_line) {
            let _ = writeln!(self.to);
        }
    }

    /// The rate since the oldest sample of the window.
    fn rate(&mut self, now: Duration, done: u64) -> Option<f64> {
        while self.samples.len() > 1 && self.samples.front().is_some_and(|sample| now.saturating_sub(sample.0) > WINDOW)
        {
            self.samples.pop_front();
        }
        let (moment, before) = self.samples.front().copied().unwrap_or_default();
        self.samples.push_back((now, done));
        rate(now.saturating_sub(moment), done.saturating_sub(before))
    }

    /// A line that can't be shown is no reason to end a transfer.
    fn show(&mut self, line: &str) {
        let columns = (self.columns)();
        let _ = match columns {
            Some(columns) => write!(self.to, "\r{}", fitted(line, columns)),
            None => writeln!(self.to, "{line}"),
        };
        let _ = self.to.flush();
        self.within_line = columns.is_some();
    }
}

/// The line cut or filled up to the terminal's width, so that it covers the one before. The last column stays free,
/// since a character there makes some terminals begin another line.
fn fitted(line: &str, columns: usize) -> String {
    let width = columns.saturating_sub(1);
    format!("{line:width$.width$}")
}

fn rate(elapsed: Duration, bytes: u64) -> Option<f64> {
    (!elapsed.is_zero()).then(|| bytes as f64 / elapsed.as_secs_f64())
}
