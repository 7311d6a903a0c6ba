//! A day at the turbine: the desk prepares it and saves its state, the hub cabinet goes on from the saved text.
//! library/examples/README.md says who is who and what each step means. From the repository's root:
//!
//!     cargo run -q --manifest-path library/rust/Cargo.toml --example day < library/examples/day.in

use std::error::Error;
use std::io::Read;

const DESK_STEPS: usize = 12;

fn main() -> Result<(), Box<dyn Error>> {
    let mut input = String::new();
    std::io::stdin().read_to_string(&mut input)?;
    let (rules, steps) = input.split_once("(steps)\n").ok_or("the input has no line (steps)")?;
    let lines: Vec<&str> = steps.split_inclusive('\n').collect();
    let (at_desk, in_hub) = lines.split_at(DESK_STEPS.min(lines.len()));

    let saved = run("at the desk", rules, &pitch_gate::fresh_state()?, at_desk)?;
    run("in the hub", rules, &saved, in_hub)?;
    Ok(())
}

/// Runs the steps, prints each beside its answer, then the saved state, and returns it.
fn run(place: &str, rules: &str, state: &[u8], steps: &[&str]) -> Result<Vec<u8>, pitch_gate::Refusal> {
    let ran = pitch_gate::run_steps(rules.as_bytes(), state, steps.concat().as_bytes())?;
    println!("Steps {place}:");
    for (step, answer) in steps.iter().zip(String::from_utf8_lossy(&ran.answers).lines()) {
        println!("{:20} {answer}", step.trim_end());
    }
    println!("State saved {place}:\n{}", String::from_utf8_lossy(&ran.state));
    Ok(ran.state)
}
