//! The tables, and whether what is hoped of their figures is met.

use std::fmt;

use super::programs::Program;
use super::proxies::REFERENCE;
use crate::say;

/// A figure of each program, in their order. One that has failed has none.
pub struct Row {
    pub what: String,
    /// After the point.
    pub digits: usize,
    pub figures: Vec<Option<f64>>,
    pub bound: Option<Bound>,
}

/// What is hoped of our figure.
#[derive(Clone, Copy)]
pub enum Bound {
    /// As part of the reference's.
    RatioAtLeast(f64),
    RatioAtMost(f64),
    AtMost(f64),
}

/// A figure, or a ratio, and what is hoped of it.
pub struct Aim {
    pub what: String,
    pub bound: Bound,
    pub figure: Option<f64>,
}

impl Row {
    fn ours(&self) -> Option<f64> {
        self.figures.first().copied().flatten()
    }

    fn ratio(&self, programs: &[Program]) -> Option<f64> {
        let reference = programs.iter().position(|program| program.name() == REFERENCE)?;
        ratio(self.ours(), self.figures.get(reference).copied().flatten())
    }

    fn cells(&self, programs: &[Program]) -> Vec<String> {
        let figures = self.figures.iter().map(|figure| cell(*figure, self.digits));
        [self.what.clone()].into_iter().chain(figures).chain([cell(self.ratio(programs), 2)]).collect()
    }

    fn aim(&self, programs: &[Program]) -> Option<Aim> {
        let bound = self.bound?;
        let figure = match bound {
            Bound::AtMost(_) => self.ours(),
            Bound::RatioAtLeast(_) | Bound::RatioAtMost(_) => self.ratio(programs),
        };
        Some(Aim { what: self.what.clone(), bound, figure })
    }
}

impl fmt::Display for Bound {
    fn fmt(&self, to: &mut fmt::Formatter) -> fmt::Result {
        match self {
            Self::RatioAtLeast(bound) => write!(to, "at least {bound} times {REFERENCE}'s"),
            Self::RatioAtMost(bound) => write!(to, "at most {bound} times {REFERENCE}'s"),
            Self::AtMost(bound) => write!(to, "at most {bound}"),
        }
    }
}

impl fmt::Display for Aim {
    fn fmt(&self, to: &mut fmt::Formatter) -> fmt::Result {
        let is_met = |figure: f64| match self.bound {
            Bound::RatioAtLeast(bound) => figure >= bound,
            Bound::RatioAtMost(bound) | Bound::AtMost(bound) => figure <= bound,
        };
        let verdict = match self.figure.map(is_met) {
            Some(true) => "met",
            Some(false) => "not met",
            None => "not measured",
        };
        write!(to, "- {}: {}: {verdict} ({})", self.what, self.bound, cell(self.figure, 2))
    }
}

pub fn ratio(figure: Option<f64>, other: Option<f64>) -> Option<f64> {
    Some(figure? / other?)
}

pub fn cell(figure: Option<f64>, digits: usize) -> String {
    figure.map_or("-".into(), |figure| format!("{figure:.digits$}"))
}

/// Markdown, with the numbers to the right.
pub fn print_table(head: &[&str], rows: impl Iterator<Item = Vec<String>>) {
    say(format_args!("| {} |", head.join(" | ")));
    say(format_args!("|---|{}", "---:|".repeat(head.len() - 1)));
    rows.for_each(|cells| say(format_args!("| {} |", cells.join(" | "))));
}

pub fn print_comparison(programs: &[Program], rows: &[Row]) {
    let against = format!("{} / {REFERENCE}", programs[0].name());
    let names: Vec<_> = programs.iter().map(Program::name).collect();
    print_table(&[&["what"], &*names, &[&*against]].concat(), rows.iter().map(|row| row.cells(programs)));
}

pub fn aims<'a>(programs: &'a [Program], rows: &'a [Row]) -> impl Iterator<Item = Aim> + 'a {
    rows.iter().filter_map(|row| row.aim(programs))
}

pub fn print_aims(aims: impl Iterator<Item = Aim>) {
    aims.for_each(say);
}
