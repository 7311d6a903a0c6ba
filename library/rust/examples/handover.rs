//! Runs steps from a saved state, as at the desk or in the hub: prints the answers, writes the new saved state.
//!
//!     cargo run -q --manifest-path library/rust/Cargo.toml --example handover RULES STATE STEPS NEXT
//!
//! RULES, STATE and STEPS are files; NEXT is the file for the new saved state. `(now 0)` is the saved state to start with.
//! Where one of the texts is refused it prints `(refused TEXT NUMBER PLACE)`, says the cause on standard error, writes no
//! file and ends with status 1. Two more numbers, ANSWERS-BYTES and STATE-BYTES, lend just that much space, as a controller
//! may: then 18 can be the refusal.

mod common;

use common::{main_of, read, refused, space, text_in, Ended};
use pitch_gate::Refusal;
use std::error::Error;
use std::io::Write;
use std::process::ExitCode;
use std::{fs, io};

fn main() -> ExitCode {
    main_of("handover", run)
}

fn run(arguments: &[String]) -> Ended {
    let (files, spaces) = arguments.split_at(arguments.len().min(4));
    let [rules, state, steps, next] = files else {
        return Err("RULES STATE STEPS NEXT [ANSWERS-BYTES STATE-BYTES] are wanted".into());
    };
    let ran = hand_over(&read(rules)?, &read(state)?, &read(steps)?, spaces)?;
    match ran {
        Ok((answers, saved)) => {
            fs::write(next, saved).map_err(|error| format!("{next}: {error}"))?;
            io::stdout().write_all(&answers)?;
            Ok(ExitCode::SUCCESS)
        }
        Err(refusal) => Ok(refused(refusal)),
    }
}

/// The answers and the new saved state, or the refusal.
type Outcome = Result<(Vec<u8>, Vec<u8>), Refusal>;

fn hand_over(rules: &[u8], state: &[u8], steps: &[u8], spaces: &[String]) -> Result<Outcome, Box<dyn Error>> {
    match spaces {
        [] => Ok(pitch_gate::run_steps(rules, state, steps).map(|ran| (ran.answers, ran.state))),
        [answers, next] => Ok(in_spaces(rules, state, steps, answers.parse()?, next.parse()?)),
        _ => Err("both ANSWERS-BYTES and STATE-BYTES are wanted, and nothing more".into()),
    }
}

/// Runs in spaces of these lengths, and sees that no byte is touched that the library promises to leave.
fn in_spaces(rules: &[u8], state: &[u8], steps: &[u8], answers: usize, next: usize) -> Outcome {
    let (mut answers, mut next) = (space(answers), space(next));
    let ran = pitch_gate::run_steps_into(rules, state, steps, &mut answers, &mut next);
    let (answers_end, state_end) = ran.map_or((0, 0), |lengths| (lengths.answers, lengths.state));
    let texts = (text_in(answers, answers_end), text_in(next, state_end));
    ran.map(|_| texts)
}
