//! The calls that return what they write. Their spaces are long enough for any result, so that none is refused with 18.

use crate::{
    copy_rules_into, copy_state_into, fresh_state_into, join_rules_into, policies_from_rules_into, respond_into,
    rules_from_policies_into, run_steps_into, Refusal, FRESH_MOST, OUTPUT_MOST, POLICIES_MOST, RULES_MOST, STATE_MOST,
};
use alloc::vec;
use alloc::vec::Vec;

/// What a run of steps gives: an answer line for each step, and the saved state after the last.
#[derive(Clone, Debug, PartialEq, Eq)]
#[non_exhaustive]
pub struct Ran {
    pub answers: Vec<u8>,
    pub state: Vec<u8>,
}

/// As [`run_steps_into`].
pub fn run_steps(rules: &[u8], state: &[u8], steps: &[u8]) -> Result<Ran, Refusal> {
    let mut answers = vec![0; OUTPUT_MOST];
    let mut next = vec![0; STATE_MOST];
    let lengths = run_steps_into(rules, state, steps, &mut answers, &mut next)?;
    Ok(Ran { answers: cut(answers, lengths.answers), state: cut(next, lengths.state) })
}

/// As [`fresh_state_into`].
pub fn fresh_state() -> Result<Vec<u8>, Refusal> {
    written(FRESH_MOST, fresh_state_into)
}

/// As [`copy_rules_into`].
pub fn copy_rules(rules: &[u8]) -> Result<Vec<u8>, Refusal> {
    written(RULES_MOST, |copy| copy_rules_into(rules, copy))
}

/// As [`rules_from_policies_into`].
pub fn rules_from_policies(policies: &[u8]) -> Result<Vec<u8>, Refusal> {
    written(RULES_MOST, |rules| rules_from_policies_into(policies, rules))
}

/// As [`policies_from_rules_into`].
pub fn policies_from_rules(rules: &[u8]) -> Result<Vec<u8>, Refusal> {
    written(POLICIES_MOST, |policies| policies_from_rules_into(rules, policies))
}

/// As [`join_rules_into`].
pub fn join_rules(first: &[u8], second: &[u8]) -> Result<Vec<u8>, Refusal> {
    written(RULES_MOST, |joined| join_rules_into(first, second, joined))
}

/// As [`copy_state_into`].
pub fn copy_state(rules: &[u8], state: &[u8]) -> Result<Vec<u8>, Refusal> {
    written(STATE_MOST, |copy| copy_state_into(rules, state, copy))
}

/// As [`respond_into`].
pub fn respond(input: &[u8]) -> Result<Vec<u8>, Refusal> {
    written(OUTPUT_MOST, |output| respond_into(input, output))
}

fn written(most: usize, write: impl FnOnce(&mut [u8]) -> Result<usize, Refusal>) -> Result<Vec<u8>, Refusal> {
    let mut space = vec![0; most];
    let length = write(&mut space)?;
    Ok(cut(space, length))
}

fn cut(mut space: Vec<u8>, length: usize) -> Vec<u8> {
    space.truncate(length);
    space.shrink_to_fit();
    space
}
