//! The cases: those of a seed, and those of every run.

pub mod always;
mod joined;
mod loans;
mod places;
mod policies;
mod rights;
mod safety;
mod seeded;
mod sweeps;
mod vectors;

pub use always::compare_always;
pub use seeded::compare_seed;

const STEPS_LINE: &[u8] = b"(steps)\n";

fn input(rules: &[u8], steps: &[u8]) -> Vec<u8> {
    [rules, STEPS_LINE, steps].concat()
}
