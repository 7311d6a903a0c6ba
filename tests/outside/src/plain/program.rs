//! "The program `gate`": rules, `(steps)` and steps in, answers out.

use super::form::{lines, Bad};
use super::gate::{run, Watch};
use super::ranges::LONGEST_INPUT;
use super::rule_text::add_line;
use super::rules::RuleList;
use super::state::State;
use super::step_text::{read_step, write_answers};
use super::steps::Step;

pub fn respond(input: &[u8], watch: &mut Watch) -> Vec<u8> {
    match read_input(input) {
        Ok((list, steps)) => write_answers(&run(&list, State::fresh(), &steps, watch).0),
        Err(Bad { number, place }) => format!("(bad {number} {place})\n").into_bytes(),
    }
}

pub fn read_input(input: &[u8]) -> Result<(RuleList, Vec<Step>), Bad> {
    if input.len() > LONGEST_INPUT {
        return Err(Bad { number: 19, place: 0 });
    }
    let mut list = RuleList::default();
    let mut steps = Vec::new();
    let mut after_rules = false;
    let mut last = 0;
    for (line, place) in lines(input).zip(1..) {
        last = place;
        if after_rules {
            steps.push(read_step(line).ok_or(Bad { number: 10, place })?);
        } else if line == Some(b"(steps)") {
            after_rules = true;
        } else {
            add_line(&mut list, line).map_err(|number| Bad { number, place })?;
        }
    }
    if after_rules {
        Ok((list, steps))
    } else {
        Err(Bad { number: 10, place: last + 1 })
    }
}
