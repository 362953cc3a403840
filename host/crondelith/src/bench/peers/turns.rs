//! Relays measured in turn, run after run, so that a change of the machine's pace meets all of them.

use std::io;

use crate::note;

/// What is measured, by its name.
pub type Named<S> = (&'static str, S);

/// The outcomes of each. One that fails is told, and has none; it isn't tried again.
pub fn in_turn<S, T>(
    subjects: &[Named<S>],
    runs: usize,
    mut measure: impl FnMut(&S) -> io::Result<T>,
) -> Vec<Option<Vec<T>>> {
    let mut outcomes: Vec<_> = subjects.iter().map(|_| Some(Vec::new())).collect();
    for _ in 0..runs {
        subjects.iter().zip(&mut outcomes).for_each(|(subject, outcome)| once(subject, outcome, &mut measure));
    }
    outcomes
}

fn once<S, T>((name, subject): &Named<S>, outcome: &mut Option<Vec<T>>, measure: &mut impl FnMut(&S) -> io::Result<T>) {
    let Some(values) = outcome else { return };
    match measure(subject) {
        Ok(value) => values.push(value),
        Err(error) => {
            note(&format!("bench: {name} failed: {error}"));
            *outcome = None;
        }
    }
}

/// The median of what is asked of each outcome.
pub fn median<T>(outcome: Option<&Vec<T>>, figure: impl Fn(&T) -> f64) -> Option<f64> {
    let mut figures: Vec<_> = outcome?.iter().map(figure).collect();
    figures.sort_unstable_by(f64::total_cmp);
    figures.get(figures.len() / 2).copied()
}
