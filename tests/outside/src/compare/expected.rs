//! What the plain gate makes of the texts of a call.

use super::Shown;
use crate::plain::form::Bad;
use crate::plain::gate::{self, Watch};
use crate::plain::joined::join;
use crate::plain::policies::{read_policies, write_policies};
use crate::plain::ranges::LONGEST_INPUT;
use crate::plain::rule_text::read_rules;
use crate::plain::rules::RuleList;
use crate::plain::state::State;
use crate::plain::state_text::{read_state, write_state};
use crate::plain::step_text::{read_steps, write_answers};
use pitch_gate::{Ran, Refusal, Text};
use std::fmt;

/// A refusal with its text and place.
#[derive(Clone, Copy, Debug, PartialEq)]
pub struct Refused {
    pub number: u64,
    pub text: Text,
    pub place: u64,
}

#[derive(Clone, Default, PartialEq)]
pub struct Run {
    pub answers: Vec<u8>,
    pub state: Vec<u8>,
}

pub fn accepted_rules(rules: &[u8]) -> Result<RuleList, Refused> {
    read_rules(rules).map_err(|bad| about(Text::Rules, bad))
}

pub fn accepted_policies(policies: &[u8]) -> Result<RuleList, Refused> {
    read_policies(policies).map_err(|bad| about(Text::Policies, bad))
}

/// What has no policy line is something of the rule list.
pub fn written_policies(list: &RuleList) -> Result<Vec<u8>, Refused> {
    write_policies(list).map_err(|bad| about(Text::Rules, bad))
}

/// Two lists that are to be joined (2026-07): the first text is read before the second.
pub fn accepted_pair(first: &[u8], second: &[u8]) -> Result<[RuleList; 2], Refused> {
    let first = accepted_rules(first)?;
    let second = read_rules(second).map_err(|bad| about(Text::SecondRules, bad))?;
    Ok([first, second])
}

/// What keeps two lists from being joined is a line of the second.
pub fn joined_list([first, second]: &[RuleList; 2]) -> Result<RuleList, Refused> {
    join(first, second).map_err(|bad| about(Text::SecondRules, bad))
}

pub fn accepted_state(rules: &[u8], state: &[u8]) -> Result<(RuleList, State), Refused> {
    let list = accepted_rules(rules)?;
    let state = read_state(&list.rules, state).map_err(|bad| about(Text::State, bad))?;
    Ok((list, state))
}

/// Steps have the program's limit: 19 "comes before all else".
pub fn expected_run(
    rules: &[u8],
    state: &[u8],
    steps: &[u8],
    watch: &mut Watch,
) -> Result<Run, Refused> {
    if steps.len() > LONGEST_INPUT {
        return Err(Refused { number: 19, text: Text::Steps, place: 0 });
    }
    let (list, state) = accepted_state(rules, state)?;
    let steps = read_steps(steps).map_err(|bad| about(Text::Steps, bad))?;
    let (answers, state) = gate::run(&list, state, &steps, watch);
    Ok(Run { answers: write_answers(&answers), state: write_state(&state) })
}

/// The length written, or 18 with that length where the room is too short for it.
pub fn no_room(room: usize, length: usize, text: Text) -> Result<usize, Refused> {
    if room < length {
        Err(Refused { number: 18, text, place: length as u64 })
    } else {
        Ok(length)
    }
}

fn about(text: Text, Bad { number, place }: Bad) -> Refused {
    Refused { number, text, place }
}

impl From<Refusal> for Refused {
    fn from(refusal: Refusal) -> Refused {
        Refused { number: refusal.number, text: refusal.text, place: refusal.place }
    }
}

impl From<Ran> for Run {
    fn from(ran: Ran) -> Run {
        Run { answers: ran.answers, state: ran.state }
    }
}

impl fmt::Debug for Run {
    fn fmt(&self, out: &mut fmt::Formatter<'_>) -> fmt::Result {
        write!(out, "answers\n{:?}state\n{:?}", Shown(&self.answers), Shown(&self.state))
    }
}
