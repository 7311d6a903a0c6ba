//! Policies of GEMRBAC-DSL (2026-06): those of a seed, and those at the edges.

use super::always::edges;
use super::rights::rights_of;
use super::seeded::damaged;
use crate::compare::{Compared, Comparison};
use crate::generate::damage::replaced;
use crate::generate::edges::RULE_LINES;
use crate::generate::policies::{
    list_of_policies, list_with_others, numbered_policies, numbered_rules,
};
use crate::generate::policy_damage::{
    BADLY_WRITTEN, OUR_OWN, OUTSIDE_THE_FIVE, POLICY_DAMAGES, PREAMBLE,
};
use crate::generate::random::Random;
use crate::generate::world::World;
use crate::plain::policies::{read_policies, write_policies};
use crate::plain::rights::RightKind;
use crate::plain::rule_text::write_rules;

const DAMAGED_ROUNDS: usize = 8;

/// The five lines of the request without their numbers, and the rules that they are.
const BODIES: [&str; 5] = [
    "assign-role r4 prerequisite r2",
    "maxUsers = 3 only-for-role r4",
    "maxRoles-User = 5",
    "maxActiveRoles = 2",
    "enable r4 if active r2 deactivation-dependency",
];
const RULES: [&str; 5] =
    ["(before 4 2)", "(max-users 4 3)", "(max-roles 5)", "(max-active 2)", "(needs 4 2)"];
/// No line and no number is longer.
const LONGEST_BODIES: [&str; 2] =
    ["enable r31 if active r30 deactivation-dependency", "maxUsers = 64 only-for-role r31"];
const LONGEST_RULES: [&str; 2] = ["(needs 31 30)", "(max-users 31 64)"];
const MOST_RULES: usize = 128;

/// A list of the five kinds and one with others, as they are and damaged, and each text in the
/// place of the other.
pub fn compare_seeded_policies(comparison: &mut Comparison, random: &mut Random) -> Compared {
    let world = World::new(random);
    let list = list_of_policies(random, &world);
    let [rules, others] = [&list, &list_with_others(random, &world)].map(write_rules);
    let policies = write_policies(&list).expect("each of the five kinds has a line");
    comparison.rules_from_policies(&policies)?;
    comparison.rules_from_policies(&rules)?;
    for list in [&rules, &others, &policies] {
        comparison.policies_from_rules(list)?;
    }
    for list in [&rules, &others] {
        let list = damaged(comparison, random, list);
        comparison.policies_from_rules(&list)?;
    }
    for _ in 0..DAMAGED_ROUNDS {
        compare_damaged(comparison, random, &policies)?;
    }
    Ok(())
}

/// Damaged once, then once more: "the first bad line counts".
fn compare_damaged(comparison: &mut Comparison, random: &mut Random, policies: &[u8]) -> Compared {
    let (name, damage, _) = *random.pick(&POLICY_DAMAGES);
    let once = damage(random, policies);
    if once != policies {
        let number = read_policies(&once).err().map_or(0, |bad| bad.number);
        comparison.counts.policies_damaged(name, number);
    }
    comparison.rules_from_policies(&once)?;
    let (_, damage, _) = *random.pick(&POLICY_DAMAGES);
    comparison.rules_from_policies(&damage(random, &once))
}

pub fn compare_policies(comparison: &mut Comparison) -> Compared {
    compare_numbers(comparison)?;
    compare_bytes(comparison)?;
    compare_orders(comparison)?;
    compare_other_lines(comparison)?;
    compare_long_lists(comparison)?;
    compare_rule_lines(comparison)?;
    compare_right_lines(comparison)
}

/// Each number of each line at its edges, each two of them; behind another line, and before one.
fn compare_numbers(comparison: &mut Comparison) -> Compared {
    let before: &[u8] = b"PL1: maxRoles-User = 0;\n";
    let after: &[u8] = b"PL2: maxUsers = 3;\n";
    for body in BODIES {
        for policies in edges(&numbered_policies(&[body])) {
            comparison.rules_from_policies(&policies)?;
            comparison.rules_from_policies(&[before, &policies].concat())?;
            comparison.rules_from_policies(&[&policies, after].concat())?;
        }
    }
    Ok(())
}

/// Each byte of the five lines as every other byte, left out and doubled, and the text up to it.
fn compare_bytes(comparison: &mut Comparison) -> Compared {
    let policies = numbered_policies(&BODIES).into_bytes();
    for place in 0..policies.len() {
        let with = |bytes: &[u8]| replaced(&policies, place..place + 1, bytes);
        for byte in 0..=u8::MAX {
            comparison.rules_from_policies(&with(&[byte]))?;
        }
        comparison.rules_from_policies(&with(b""))?;
        comparison.rules_from_policies(&with(&[policies[place]; 2]))?;
        comparison.rules_from_policies(&policies[..place])?;
    }
    Ok(())
}

/// Every three and every four of the five lines with their numbers, in every order.
fn compare_orders(comparison: &mut Comparison) -> Compared {
    let policies = numbered_policies(&BODIES);
    let lines: Vec<&str> = policies.split_inclusive('\n').collect();
    for first in &lines {
        for second in &lines {
            for third in &lines {
                for fourth in lines.iter().chain([&""]) {
                    let policies = [*first, second, third, fourth].concat();
                    comparison.rules_from_policies(policies.as_bytes())?;
                }
            }
        }
    }
    Ok(())
}

/// What is no line of the subset, with the next number at each place between the five.
fn compare_other_lines(comparison: &mut Comparison) -> Compared {
    let outside = OUTSIDE_THE_FIVE.iter().map(|body| format!("PL1: {body};"));
    let others = BADLY_WRITTEN.iter().chain(&PREAMBLE).chain(&OUR_OWN);
    for line in outside.chain(others.map(|line| line.to_string())) {
        for place in 0..=BODIES.len() {
            let before = numbered_policies(&BODIES[..place]);
            let after = numbered_policies(&BODIES[place..]);
            let line = line.replace("PL1", &format!("PL{}", place + 1));
            comparison.rules_from_policies(format!("{before}{line}\n{after}").as_bytes())?;
        }
    }
    Ok(())
}

/// 128 lines are accepted and the 129th is refused, in either text.
fn compare_long_lists(comparison: &mut Comparison) -> Compared {
    for length in [127, 128, 129, 130] {
        for body in BODIES.into_iter().chain(LONGEST_BODIES) {
            let policies = numbered_policies(&vec![body; length]);
            comparison.rules_from_policies(policies.as_bytes())?;
        }
        for rule in RULES.into_iter().chain(LONGEST_RULES) {
            compare_rules(comparison, &vec![rule; length])?;
        }
    }
    Ok(())
}

/// Each rule of our own: its numbers at their edges, and the rule at each place among others that
/// have a line: alone, with one more like it at the end, and as the last.
fn compare_rule_lines(comparison: &mut Comparison) -> Compared {
    for line in RULE_LINES.into_iter().filter(|line| !line.contains("(during ")) {
        for rules in edges(line) {
            comparison.policies_from_rules(&rules)?;
        }
    }
    for rule in RULE_LINES.into_iter().filter_map(rule_of) {
        for place in 0..MOST_RULES {
            let mut rules = ["(max-active 32)"; MOST_RULES];
            rules[place] = rule;
            compare_rules(comparison, &rules)?;
            rules[MOST_RULES - 1] = rule;
            compare_rules(comparison, &rules)?;
            compare_rules(comparison, &rules[..=place])?;
        }
    }
    Ok(())
}

/// Each choice of right lines, before no rule, before rules that have a line, and before others.
fn compare_right_lines(comparison: &mut Comparison) -> Compared {
    let others = ["(apart 4 2)", "(max-roles 5)"];
    for chosen in 0..1 << RightKind::ALL.len() {
        for rules in [&[], &RULES[..], &others] {
            let rules = rights_of(chosen) + &numbered_rules(rules);
            comparison.policies_from_rules(rules.as_bytes())?;
        }
    }
    Ok(())
}

fn compare_rules(comparison: &mut Comparison, rules: &[&str]) -> Compared {
    comparison.policies_from_rules(numbered_rules(rules).as_bytes())
}

/// The rule of a first line, if it is one.
fn rule_of(line: &'static str) -> Option<&'static str> {
    line.strip_prefix("(rule 1 ")?.strip_suffix(")\n")
}
