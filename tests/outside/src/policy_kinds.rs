//! The kinds of cases that policies of GEMRBAC-DSL bring (2026-06).

use crate::counts::{Kind, FAMILIES};
use crate::generate::policy_damage::POLICY_DAMAGES;
use crate::plain::form::lines;
use crate::plain::policies::{read_policy, Policy};
use crate::plain::ranges::{ROLES, RULE_NUMBERS};
use crate::plain::rules::{Rule, RuleList};

const READ: &str = "policies read with the line of";
const READ_LINES: &str = "policies read, lines";
const WRITTEN: &str = "policies written with the line of";
const WRITTEN_LINES: &str = "policies written, lines";
const NONE: &str = "none";
const IN_ALL: &str = "in all";

const OUTSIDE: &str = "policy line refused with 11";
const NUMBER_0: &str = "numbered 0";
const NUMBER_129: &str = "numbered 129 as the 129th line";
const NUMBER_ABOVE: &str = "numbered past 128 before that";
const ROLE_OUTSIDE: &str = "policy line refused with 11, a role past its range, of";
const LIMIT_OUTSIDE: &str = "policy line refused with 11, the limit past its range, of";

const NOT_THE_NEXT: &str = "policy line refused with 12";
const NUMBER_BEFORE: &str = "the number of the line before";
const NUMBER_AFTER: &str = "the number after the next";
const ANOTHER_NUMBER: &str = "another number";
const ONE_TWICE: &str = "policy line refused with 13, of";

const LATER_CAUSE: &str = "policy line refused with the first of";
const RANGE_AND_NUMBER: &str = "11 and 12";
const RANGE_AND_ONE_TWICE: &str = "11 and 13";
const NUMBER_AND_ONE_TWICE: &str = "12 and 13";

const LATER_LINE: &str = "policy line refused and later";
const NO_LINE_AFTER: &str = "a line outside the subset";
const RANGE_AFTER: &str = "a line with a number past its range";

const WITHOUT_A_LINE: &str = "56, the lowest rule of";
const WITHOUT_A_LINE_AT: &str = "56";
const RIGHTS_BEFORE_LINES: &str = "right lines, each rule with a policy line";
const RIGHTS_BEFORE_OTHERS: &str = "right lines and a rule without a policy line";
const FIRST_RULE: &str = "the first rule";
const MIDDLE_RULE: &str = "a rule between others";
const LAST_RULE: &str = "the last rule, others before it";
const SEVERAL_RULES: &str = "two rules or more without a policy line";

const DAMAGED: &str = "damaged policies";

const FAMILIES_WITH_A_LINE: [&str; 5] = ["before", "max-users", "max-roles", "max-active", "needs"];
const FAMILIES_OF_ROLES: [&str; 3] = ["before", "max-users", "needs"];
const FAMILIES_OF_TWO_ROLES: [&str; 2] = ["before", "needs"];
const FAMILIES_OF_LIMITS: [&str; 3] = ["max-users", "max-roles", "max-active"];
const MOST_LINES: usize = 128;

pub fn policy_kinds_to_meet() -> Vec<Kind> {
    let mut kinds = Vec::new();
    for family in FAMILIES_WITH_A_LINE {
        kinds.extend([READ, WRITTEN].map(|group| (group, family, 0)));
    }
    for group in [READ_LINES, WRITTEN_LINES] {
        kinds.extend([(group, NONE, 0), (group, IN_ALL, 1), (group, IN_ALL, MOST_LINES as u64)]);
    }
    kinds.extend([NUMBER_0, NUMBER_129, NUMBER_ABOVE].map(|name| (OUTSIDE, name, 0)));
    kinds.extend(FAMILIES_OF_ROLES.map(|family| (ROLE_OUTSIDE, family, 0)));
    kinds.extend(FAMILIES_OF_LIMITS.map(|family| (LIMIT_OUTSIDE, family, 0)));
    let numbers = [NUMBER_BEFORE, NUMBER_AFTER, ANOTHER_NUMBER];
    kinds.extend(numbers.map(|name| (NOT_THE_NEXT, name, 0)));
    kinds.extend(FAMILIES_OF_TWO_ROLES.map(|family| (ONE_TWICE, family, 0)));
    let causes = [RANGE_AND_NUMBER, RANGE_AND_ONE_TWICE, NUMBER_AND_ONE_TWICE];
    kinds.extend(causes.map(|name| (LATER_CAUSE, name, 0)));
    kinds.extend([11, 12, 13].map(|number| (LATER_LINE, NO_LINE_AFTER, number)));
    kinds.extend([55, 12, 13].map(|number| (LATER_LINE, RANGE_AFTER, number)));
    let without = FAMILIES.into_iter().filter(|family| !FAMILIES_WITH_A_LINE.contains(family));
    kinds.extend(without.map(|family| (WITHOUT_A_LINE, family, 0)));
    let places = [
        RIGHTS_BEFORE_LINES,
        RIGHTS_BEFORE_OTHERS,
        FIRST_RULE,
        MIDDLE_RULE,
        LAST_RULE,
        SEVERAL_RULES,
    ];
    kinds.extend(places.map(|name| (WITHOUT_A_LINE_AT, name, 0)));
    for (name, _, numbers) in POLICY_DAMAGES {
        kinds.extend(numbers.iter().map(|&number| damage_kind(name, number)));
    }
    kinds
}

/// What damage did to policies that were accepted: the number of the refusal, or 0.
pub fn damage_kind(damage: &'static str, number: u64) -> Kind {
    (DAMAGED, damage, number)
}

pub fn read_kinds(list: &RuleList) -> Vec<Kind> {
    list_kinds(list, READ, READ_LINES)
}

pub fn written_kinds(list: &RuleList) -> Vec<Kind> {
    list_kinds(list, WRITTEN, WRITTEN_LINES)
}

fn list_kinds(list: &RuleList, line: &'static str, lines: &'static str) -> Vec<Kind> {
    let mut kinds: Vec<Kind> = list.rules.iter().map(|rule| (line, rule.family(), 0)).collect();
    match list.rules.len() {
        0 => kinds.push((lines, NONE, 0)),
        length @ (1 | MOST_LINES) => kinds.push((lines, IN_ALL, length as u64)),
        _ => {}
    }
    kinds
}

/// The lines before the refused one are good, so that it should have its place as its number.
pub fn refused_kinds(policies: &[u8], place: u64, number: u64) -> Vec<Kind> {
    let mut lines = lines(policies).skip(place as usize - 1);
    let refused = lines.next().and_then(read_policy);
    let mut kinds = refused.map_or(Vec::new(), |policy| line_kinds(&policy, place, number));
    let later: Vec<Option<Policy>> = lines.map(read_policy).collect();
    if number != 55 && later.iter().any(Option::is_none) {
        kinds.push((LATER_LINE, NO_LINE_AFTER, number));
    }
    if number != 11 && later.iter().flatten().any(|policy| policy.outside) {
        kinds.push((LATER_LINE, RANGE_AFTER, number));
    }
    kinds
}

fn line_kinds(policy: &Policy, place: u64, number: u64) -> Vec<Kind> {
    match number {
        11 => outside_kinds(policy, place),
        12 => number_kinds(policy, place),
        13 => vec![(ONE_TWICE, policy.rule.family(), 0)],
        _ => Vec::new(),
    }
}

fn outside_kinds(policy: &Policy, place: u64) -> Vec<Kind> {
    let family = policy.rule.family();
    let mut kinds = vec![match policy.number {
        0 => (OUTSIDE, NUMBER_0, 0),
        129 if place == 129 => (OUTSIDE, NUMBER_129, 0),
        number if !RULE_NUMBERS.contains(&number) => (OUTSIDE, NUMBER_ABOVE, 0),
        _ if roles(&policy.rule).iter().any(|role| !ROLES.contains(role)) => {
            (ROLE_OUTSIDE, family, 0)
        }
        _ => (LIMIT_OUTSIDE, family, 0),
    }];
    if RULE_NUMBERS.contains(&policy.number) && policy.number != place as i64 {
        kinds.push((LATER_CAUSE, RANGE_AND_NUMBER, 0));
    }
    if policy.rule.names_one_twice() {
        kinds.push((LATER_CAUSE, RANGE_AND_ONE_TWICE, 0));
    }
    kinds
}

fn roles(rule: &Rule) -> Vec<i64> {
    match *rule {
        Rule::Before { role, required } => vec![role, required],
        Rule::Needs { role, needed } => vec![role, needed],
        Rule::MaxUsers { role, .. } => vec![role],
        _ => Vec::new(),
    }
}

fn number_kinds(policy: &Policy, place: u64) -> Vec<Kind> {
    let name = match policy.number - place as i64 {
        -1 => NUMBER_BEFORE,
        1 => NUMBER_AFTER,
        _ => ANOTHER_NUMBER,
    };
    let mut kinds = vec![(NOT_THE_NEXT, name, 0)];
    if policy.rule.names_one_twice() {
        kinds.push((LATER_CAUSE, NUMBER_AND_ONE_TWICE, 0));
    }
    kinds
}

/// A list that was refused with 56 and this rule.
pub fn without_a_line_kinds(list: &RuleList, rule: u64) -> Vec<Kind> {
    let has_no_line = |rule: &&Rule| !FAMILIES_WITH_A_LINE.contains(&rule.family());
    let without = list.rules.iter().filter(has_no_line).count();
    let Some(index) = (rule as usize).checked_sub(1) else {
        let name = if without == 0 { RIGHTS_BEFORE_LINES } else { RIGHTS_BEFORE_OTHERS };
        return vec![(WITHOUT_A_LINE_AT, name, 0)];
    };
    let place = match index {
        0 => FIRST_RULE,
        _ if index + 1 == list.rules.len() => LAST_RULE,
        _ => MIDDLE_RULE,
    };
    let mut kinds =
        vec![(WITHOUT_A_LINE, list.rules[index].family(), 0), (WITHOUT_A_LINE_AT, place, 0)];
    if without >= 2 {
        kinds.push((WITHOUT_A_LINE_AT, SEVERAL_RULES, 0));
    }
    kinds
}
