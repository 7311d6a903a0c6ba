//! Joins two rule lists and prints the joined one.
//!
//!     cargo run -q --manifest-path library/rust/Cargo.toml --example join FIRST SECOND
//!
//! FIRST and SECOND are files. Where one is refused, or the two cannot be joined, it prints `(refused TEXT NUMBER PLACE)`, with the text
//! `rules` for FIRST and `second-rules` for SECOND, says the cause on standard error and ends with status 1. One more number, BYTES,
//! lends just that much space, as a controller may: then 18 can be the refusal.

mod common;
mod one_text;

use common::{main_of, read, Ended};
use one_text::{in_space, print};
use std::process::ExitCode;

fn main() -> ExitCode {
    main_of("join", run)
}

fn run(arguments: &[String]) -> Ended {
    let (files, bytes) = arguments.split_at(arguments.len().min(2));
    let [first, second] = files else { return wanted() };
    let (first, second) = (read(first)?, read(second)?);
    print(match bytes {
        [] => pitch_gate::join_rules(&first, &second),
        [bytes] => in_space(bytes.parse()?, |joined| pitch_gate::join_rules_into(&first, &second, joined)),
        _ => return wanted(),
    })
}

fn wanted() -> Ended {
    Err("FIRST SECOND [BYTES] are wanted".into())
}
