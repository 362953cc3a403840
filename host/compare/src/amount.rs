//! How much a test does, and from which seed: COMPARE_SEED and COMPARE_ROUNDS in the environment.

use crate::random::Random;

/// The seed where COMPARE_SEED names none: a run is then the same everywhere.
const SEED: u64 = 20_220_701;

/// The test's random numbers. Prints the seed, which repeats a failure.
pub fn random() -> Random {
    let seed = setting("COMPARE_SEED").unwrap_or(SEED);
    println!("COMPARE_SEED={seed}");
    Random::from_seed(seed)
}

/// How often to do what the test does `usual` times: COMPARE_ROUNDS times as often.
pub fn rounds(usual: u64) -> u64 {
    usual * setting("COMPARE_ROUNDS").unwrap_or(1).max(1)
}

fn setting(name: &str) -> Option<u64> {
    let text = std::env::var(name).ok()?;
    Some(text.parse().unwrap_or_else(|_| panic!("{name}={text} is not a number")))
}
