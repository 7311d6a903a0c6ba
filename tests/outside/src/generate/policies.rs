//! Rule lists that can be written as policies of GEMRBAC-DSL (2026-06), and those that cannot.

use super::random::Random;
use super::rights::some_rights;
use super::rule_lists::{
    insert_rule, rules_of, BEFORE, FAMILIES, MAX_ACTIVE, MAX_ROLES, MAX_USERS, NEEDS,
};
use super::world::World;
use crate::plain::ranges::RULE_NUMBERS;
use crate::plain::rights::Rights;
use crate::plain::rules::RuleList;

const WITH_A_LINE: [usize; 5] = [BEFORE, MAX_USERS, MAX_ROLES, MAX_ACTIVE, NEEDS];
const MOST_OTHERS: usize = 3;

/// The five kinds alone, 0 to 128 rules.
pub fn list_of_policies(random: &mut Random, world: &World) -> RuleList {
    RuleList { rights: Rights::new(), rules: rules_of(random, world, &WITH_A_LINE) }
}

/// Up to three rules of other kinds among those that have a line, at any place; now and then with
/// right lines before them, also where every rule has a line.
pub fn list_with_others(random: &mut Random, world: &World) -> RuleList {
    let mut list = list_of_policies(random, world);
    list.rules.truncate(*RULE_NUMBERS.end() as usize - MOST_OTHERS);
    let others: Vec<usize> = (0..FAMILIES).filter(|family| !WITH_A_LINE.contains(family)).collect();
    for _ in 0..random.below(MOST_OTHERS + 1) {
        let family = *random.pick(&others);
        insert_rule(random, world, &mut list.rules, family);
    }
    if random.percent(30) {
        list.rights = some_rights(random, world);
    }
    list
}

/// Rules of our own, given without their numbers, as a text.
pub fn numbered_rules(rules: &[&str]) -> String {
    rules.iter().zip(1..).map(|(rule, number)| format!("(rule {number} {rule})\n")).collect()
}

/// Policies, given without their numbers, as a text.
pub fn numbered_policies(bodies: &[&str]) -> String {
    bodies.iter().zip(1..).map(|(body, number)| format!("PL{number}: {body};\n")).collect()
}
