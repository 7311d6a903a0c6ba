//! 2026-07, "Desk list and hub list joined": one rule list made of two.

use super::form::Bad;
use super::ranges::RULE_NUMBERS;
use super::rights::Rights;
use super::rules::{Rule, RuleList};

/// "order 40, 58, 57": each list is accepted by itself. The place of a refusal is a line of the
/// second list's text, which has its right lines first and then its rules.
pub fn join(first: &RuleList, second: &RuleList) -> Result<RuleList, Bad> {
    let rights = joined_rights(&first.rights, &second.rights)?;
    let rules = joined_rules(&first.rules, second)?;
    Ok(RuleList { rights, rules })
}

/// "Right lines of either list are kept, equal ones once", "58 two right lines of one kind with
/// different permissions"
fn joined_rights(first: &Rights, second: &Rights) -> Result<Rights, Bad> {
    let mut joined = first.clone();
    for ((&kind, &permission), place) in second.iter().zip(1..) {
        if first.get(&kind).is_some_and(|&other| other != permission) {
            return Err(Bad { number: 58, place });
        }
        joined.insert(kind, permission);
    }
    Ok(joined)
}

/// "The joined list is the first, then in turn each rule of the second that, their rule numbers
/// aside, equals none already in the joined list, renumbered." A rule's number is its place in the
/// list, so that it gets its new one by its new place. "57 more than 128 rules"
fn joined_rules(first: &[Rule], second: &RuleList) -> Result<Vec<Rule>, Bad> {
    let mut joined = first.to_vec();
    let first_line = second.rights.len() as u64 + 1;
    for (rule, place) in second.rules.iter().zip(first_line..) {
        if joined.contains(rule) {
            continue;
        }
        joined.push(rule.clone());
        if joined.len() as i64 > *RULE_NUMBERS.end() {
            return Err(Bad { number: 57, place });
        }
    }
    Ok(joined)
}
