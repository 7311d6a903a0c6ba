//! A world, rules, a state and steps, all drawn from one seed; then their texts damaged.

use super::input;
use super::joined::compare_seeded_joins;
use super::policies::compare_seeded_policies;
use super::safety::compare_own_steps;
use crate::compare::{Compared, Comparison};
use crate::generate::damage::DAMAGES;
use crate::generate::loans::with_too_many_loans;
use crate::generate::random::Random;
use crate::generate::rights::put_in_charge;
use crate::generate::rule_lists::rule_list;
use crate::generate::states::{drawn_state, grown_state};
use crate::generate::step_lists::step_list;
use crate::generate::world::World;
use crate::plain::rule_text::write_rules;
use crate::plain::state::State;
use crate::plain::state_text::write_state;
use crate::plain::step_text::write_steps;

const DAMAGED_ROUNDS: usize = 8;
/// Steps up to which a damaged text is run as often as it is read.
const FEW_STEPS: usize = 100;

pub fn compare_seed(comparison: &mut Comparison, seed: u64) -> Compared {
    let mut random = Random::new(seed);
    let texts = Texts::new(&mut random);
    texts.compare_whole(comparison, &mut random)?;
    let rounds = if texts.length <= FEW_STEPS { DAMAGED_ROUNDS } else { 1 };
    for _ in 0..rounds {
        texts.compare_damaged(comparison, &mut random)?;
    }
    compare_own_steps(comparison, &mut random)?;
    compare_seeded_policies(comparison, &mut random)?;
    compare_seeded_joins(comparison, &mut random)
}

struct Texts {
    rules: Vec<u8>,
    /// Of the same world, and likely to be broken by the states.
    other_rules: Vec<u8>,
    start: Vec<u8>,
    steps: Vec<u8>,
    end: Vec<u8>,
    /// Refused with 51, where any role is assigned.
    with_too_many_loans: Vec<u8>,
    /// The number of steps.
    length: usize,
}

impl Texts {
    fn new(random: &mut Random) -> Texts {
        let world = World::new(random);
        let mut list = rule_list(random, &world);
        let mut start = match random.below(10) {
            0..=3 => State::fresh(),
            4..=5 => grown_state(random, &world, &list.rules),
            _ => drawn_state(random, &world),
        };
        if !list.rights.is_empty() && random.percent(80) {
            put_in_charge(random, &world, &list.rights, &mut start);
        }
        list.rules.retain(|rule| rule.holds(&start));
        let length = length(random, &start);
        let (steps, end) = step_list(random, &world, &list, &start, length);
        Texts {
            rules: write_rules(&list),
            other_rules: write_rules(&rule_list(random, &world)),
            start: write_state(&start),
            steps: write_steps(&steps),
            end: write_state(&end),
            with_too_many_loans: write_state(&with_too_many_loans(random, &end)),
            length,
        }
    }

    fn compare_whole(&self, comparison: &mut Comparison, random: &mut Random) -> Compared {
        comparison.respond(&input(&self.rules, &self.steps))?;
        comparison.run_steps(&self.rules, &self.start, &self.steps)?;
        let cut = if self.length <= FEW_STEPS && random.percent(20) { 100 } else { 10 };
        let pieces = pieces(random, &self.steps, cut);
        comparison.run_in_pieces(&self.rules, &self.start, &pieces)?;
        comparison.check_rules(&self.rules)?;
        comparison.check_state(&self.rules, &self.end)?;
        comparison.check_state(&self.other_rules, &self.start)?;
        comparison.check_state(&self.other_rules, &self.end)?;
        comparison.check_state(&self.rules, &self.with_too_many_loans)?;
        comparison.run_steps(&self.other_rules, &self.end, &pieces[0])
    }

    fn compare_damaged(&self, comparison: &mut Comparison, random: &mut Random) -> Compared {
        let input = damaged(comparison, random, &input(&self.rules, &self.steps));
        comparison.respond(&input)?;
        let rules = damaged(comparison, random, &self.rules);
        let start = damaged(comparison, random, &self.start);
        let end = damaged(comparison, random, &self.end);
        let with_too_many_loans = damaged(comparison, random, &self.with_too_many_loans);
        let steps = damaged(comparison, random, &self.steps);
        comparison.check_rules(&rules)?;
        comparison.check_state(&rules, &start)?;
        comparison.check_state(&self.rules, &start)?;
        comparison.check_state(&self.rules, &end)?;
        comparison.check_state(&self.rules, &with_too_many_loans)?;
        match random.below(5) {
            0 => comparison.run_steps(&rules, &start, &steps),
            1 => comparison.run_steps(&rules, &self.start, &self.steps),
            2 => comparison.run_steps(&self.rules, &end, &steps),
            3 => comparison.run_steps(&self.rules, &with_too_many_loans, &steps),
            _ => comparison.run_steps(&self.rules, &self.start, &steps),
        }
    }
}

/// A large state makes every step slow, so it meets few.
fn length(random: &mut Random, start: &State) -> usize {
    let is_large = start.did.len() > 200;
    match random.below(100) {
        0..=4 => random.below(4),
        5..=64 => 10 + random.below(50),
        65..=97 if !is_large => 60 + random.below(240),
        98.. if !is_large => 1000 + random.below(2500),
        _ => random.below(40),
    }
}

/// The lines of the steps, cut before each with a chance in percent; the last
/// piece is empty.
fn pieces(random: &mut Random, steps: &[u8], cut: usize) -> Vec<Vec<u8>> {
    let mut pieces = vec![Vec::new()];
    for line in steps.split_inclusive(|&byte| byte == b'\n') {
        if random.percent(cut) {
            pieces.push(Vec::new());
        }
        pieces.last_mut().expect("there is a first piece").extend_from_slice(line);
    }
    pieces.push(Vec::new());
    pieces
}

/// Damaged once, now and then twice: "the first bad line counts".
pub fn damaged(comparison: &mut Comparison, random: &mut Random, text: &[u8]) -> Vec<u8> {
    let mut damaged = text.to_vec();
    let times = if random.percent(25) { 2 } else { 1 };
    for _ in 0..times {
        let (name, damage) = *random.pick(&DAMAGES);
        let after = damage(random, &damaged);
        if after != damaged {
            comparison.counts.damaged(name);
            damaged = after;
        }
    }
    damaged
}
