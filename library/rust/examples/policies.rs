//! Turns rules in GEMRBAC-DSL (policies) into a rule list, or a rule list into policies, and prints it.
//!
//!     cargo run -q --manifest-path library/rust/Cargo.toml --example policies to-rules FILE
//!     cargo run -q --manifest-path library/rust/Cargo.toml --example policies from-rules FILE
//!
//! `to-rules` reads FILE as policies, `from-rules` as a rule list. Where it is refused it prints `(refused TEXT NUMBER PLACE)`, says
//! the cause on standard error and ends with status 1. One more number, BYTES, lends just that much space, as a controller may: then
//! 18 can be the refusal.

mod common;
mod one_text;

use common::{main_of, read, Ended};
use one_text::{in_space, print};
use std::process::ExitCode;

fn main() -> ExitCode {
    main_of("policies", run)
}

fn run(arguments: &[String]) -> Ended {
    let [journey, file, bytes @ ..] = arguments else { return wanted() };
    let text = read(file)?;
    let turned = match (journey.as_str(), bytes) {
        ("to-rules", []) => pitch_gate::rules_from_policies(&text),
        ("from-rules", []) => pitch_gate::policies_from_rules(&text),
        ("to-rules", [bytes]) => in_space(bytes.parse()?, |rules| pitch_gate::rules_from_policies_into(&text, rules)),
        ("from-rules", [bytes]) => {
            in_space(bytes.parse()?, |policies| pitch_gate::policies_from_rules_into(&text, policies))
        }
        _ => return wanted(),
    };
    print(turned)
}

fn wanted() -> Ended {
    Err("to-rules FILE [BYTES] or from-rules FILE [BYTES] is wanted".into())
}
