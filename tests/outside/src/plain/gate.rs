//! "The plain gate": one step, and a list of steps.

use super::largest::{largest_part, Ending};
use super::rules::{broken_rules, RuleList};
use super::selected::number_selected;
use super::state::State;
use super::steps::Step;
use std::fmt;

#[derive(Clone, Debug, PartialEq, Eq)]
pub enum Answer {
    Yes { selected: u64, ended: u64 },
    No { number: u64, rule: u64, selected: u64 },
}

pub struct Outcome {
    pub answer: Answer,
    pub state: State,
    /// For a 30, the number of rules broken in the target.
    pub broken: usize,
    /// What an event ended, and how.
    pub ending: Ending,
}

/// Told of each step with its outcome.
pub type Watch<'watch> = dyn FnMut(&RuleList, &Step, &Outcome) + 'watch;

pub fn run(
    list: &RuleList,
    state: State,
    steps: &[Step],
    watch: &mut Watch,
) -> (Vec<Answer>, State) {
    let mut state = state;
    let mut answers = Vec::new();
    for step in steps {
        let outcome = decide(list, &state, step);
        watch(list, step, &outcome);
        answers.push(outcome.answer);
        state = outcome.state;
    }
    (answers, state)
}

pub fn decide(list: &RuleList, state: &State, step: &Step) -> Outcome {
    if let Some(number) = step.refusal(&list.rights, state) {
        return refuse(state, Answer::No { number, rule: 0, selected: 0 }, 0);
    }
    let (rules, action) = (&list.rules, &step.action);
    let selected = number_selected(rules, action);
    let target = action.target(state);
    if action.is_event() {
        let closed = state.active.difference(&target.active).count();
        let loans = state.loans.len() - target.loans.len();
        let largest = largest_part(rules, target);
        return grant(state, largest.state, selected, Ending { closed, loans, ..largest.ending });
    }
    let broken = broken_rules(rules, &target);
    match broken.first() {
        Some(&rule) => refuse(state, Answer::No { number: 30, rule, selected }, broken.len()),
        None => grant(state, target, selected, Ending::default()),
    }
}

fn refuse(state: &State, answer: Answer, broken: usize) -> Outcome {
    Outcome { answer, state: state.clone(), broken, ending: Ending::default() }
}

/// Ended are the "pairs active before and not after".
fn grant(before: &State, after: State, selected: u64, ending: Ending) -> Outcome {
    let ended = before.active.difference(&after.active).count() as u64;
    Outcome { answer: Answer::Yes { selected, ended }, state: after, broken: 0, ending }
}

impl fmt::Display for Answer {
    fn fmt(&self, out: &mut fmt::Formatter<'_>) -> fmt::Result {
        match self {
            Answer::Yes { selected, ended } => write!(out, "(yes {selected} {ended})"),
            Answer::No { number, rule, selected } => write!(out, "(no {number} {rule} {selected})"),
        }
    }
}
