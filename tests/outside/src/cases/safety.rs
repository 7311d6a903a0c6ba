//! Lists of one user's own steps under all six rights (2026-05): the library gives the plain
//! gate's answers, and nothing that is assigned or carried changes.

use crate::compare::{Compared, Comparison};
use crate::generate::random::Random;
use crate::generate::safety::{safety_case, LeftOut};
use crate::plain::rule_text::write_rules;
use crate::plain::state_text::write_state;
use crate::plain::step_text::write_steps;

pub fn compare_own_steps(comparison: &mut Comparison, random: &mut Random) -> Compared {
    let Some(case) = safety_case(random, LeftOut::Nothing) else { return Ok(()) };
    assert!(!case.changes(), "the steps of user {} change what he has no right to", case.user);
    comparison.counts.own_steps(&case.list, &case.start, &case.steps);
    let [rules, start] = [write_rules(&case.list), write_state(&case.start)];
    comparison.run_steps(&rules, &start, &write_steps(&case.steps))
}
