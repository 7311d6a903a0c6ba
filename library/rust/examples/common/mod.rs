//! What `handover`, `policies` and `join` share: how they end, how they print a refusal, and spaces that show what was written.

use pitch_gate::{Refusal, Text};
use std::error::Error;
use std::process::ExitCode;
use std::{env, fs};

/// A byte that no text has.
const UNTOUCHED: u8 = 0xa5;

/// How an example ends: with a status, or with what kept it from a call of the library.
pub type Ended = Result<ExitCode, Box<dyn Error>>;

/// Runs an example on its arguments. An error goes to standard error, with status 2.
pub fn main_of(name: &str, run: fn(&[String]) -> Ended) -> ExitCode {
    let arguments: Vec<String> = env::args().skip(1).collect();
    run(&arguments).unwrap_or_else(|error| {
        eprintln!("{name}: {error}");
        ExitCode::from(2)
    })
}

pub fn read(path: &str) -> Result<Vec<u8>, String> {
    fs::read(path).map_err(|error| format!("{path}: {error}"))
}

/// Prints a refusal, and its cause on standard error.
pub fn refused(refusal: Refusal) -> ExitCode {
    println!("(refused {} {} {})", word(refusal.text), refusal.number, refusal.place);
    eprintln!("{refusal}");
    ExitCode::FAILURE
}

fn word(text: Text) -> &'static str {
    match text {
        Text::Rules => "rules",
        Text::State => "state",
        Text::Steps => "steps",
        Text::OutputSpace => "output-space",
        Text::StateSpace => "state-space",
        Text::Policies => "policies",
        Text::SecondRules => "second-rules",
        _ => "other",
    }
}

pub fn space(length: usize) -> Vec<u8> {
    vec![UNTOUCHED; length]
}

/// The text of this length in a space. No byte past it may have been touched: the library promises to leave them.
pub fn text_in(mut space: Vec<u8>, length: usize) -> Vec<u8> {
    let rest = space.split_off(length);
    assert!(rest.iter().all(|byte| *byte == UNTOUCHED), "a byte past the text was written");
    space
}
