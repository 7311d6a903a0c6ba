//! 2026-06, "Lists in GEMRBAC-DSL": a rule list of five kinds as policies of source document 001,
//! "each with its `PL` number, counted as ours are".

use super::form::{Bad, Form};
use super::numbers::Numbers;
use super::ranges::{OTHER_LIMITS, ROLES, RULE_NUMBERS, USER_LIMITS};
use super::rule_text::{add_rule, read_list};
use super::rules::{Rule, RuleList};

/// A line of the subset; what its numbers are is not yet asked.
pub struct Policy {
    pub number: i64,
    pub rule: Rule,
    /// A number of the line is outside its range.
    pub outside: bool,
}

pub fn read_policies(text: &[u8]) -> Result<RuleList, Bad> {
    read_list(text, add_policy)
}

/// "Range and number refusals are 11, 12 and 13", and before them 55 "in the place of 10"
fn add_policy(list: &mut RuleList, line: Option<&[u8]>) -> Result<(), u64> {
    let policy = read_policy(line).ok_or(55u64)?;
    if policy.outside {
        return Err(11);
    }
    add_rule(list, policy.number, policy.rule)
}

/// A line without its line feed, as `lines` gives it. Two spaces in a row leave an empty word
/// between them, which no line has.
pub fn read_policy(line: Option<&[u8]>) -> Option<Policy> {
    let line = std::str::from_utf8(line?).ok()?.strip_suffix(';')?;
    let words: Vec<&str> = line.split(' ').collect();
    let (label, body) = words.split_first()?;
    let mut numbers = Numbers::default();
    let digits = Form::Word(label.strip_prefix("PL")?.strip_suffix(':')?);
    let number = numbers.whole(&digits, RULE_NUMBERS)?;
    let rule = read_body(body, &mut numbers)?;
    Some(Policy { number, rule, outside: numbers.outside })
}

fn read_body(words: &[&str], numbers: &mut Numbers) -> Option<Rule> {
    Some(match words {
        ["assign-role", role, "prerequisite", required] => Rule::Before {
            role: read_role(role, numbers)?,
            required: read_role(required, numbers)?,
        },
        ["maxUsers", "=", limit, "only-for-role", role] => Rule::MaxUsers {
            role: read_role(role, numbers)?,
            limit: numbers.whole(&Form::Word(limit), USER_LIMITS)?,
        },
        ["maxRoles-User", "=", limit] => {
            Rule::MaxRoles { limit: numbers.whole(&Form::Word(limit), OTHER_LIMITS)? }
        }
        ["maxActiveRoles", "=", limit] => {
            Rule::MaxActive { limit: numbers.whole(&Form::Word(limit), OTHER_LIMITS)? }
        }
        ["enable", role, "if", "active", needed, "deactivation-dependency"] => {
            Rule::Needs { role: read_role(role, numbers)?, needed: read_role(needed, numbers)? }
        }
        _ => return None,
    })
}

fn read_role(word: &str, numbers: &mut Numbers) -> Option<i64> {
    numbers.whole(&Form::Word(word.strip_prefix('r')?), ROLES)
}

/// "56 on writing, with the lowest rule that has no such line; a right line gives 56 with rule 0"
pub fn write_policies(list: &RuleList) -> Result<Vec<u8>, Bad> {
    let without_a_line = |place| Bad { number: 56, place };
    if !list.rights.is_empty() {
        return Err(without_a_line(0));
    }
    let numbered = list.rules.iter().zip(1..);
    let lines = numbered.map(|(rule, number)| match written_body(rule) {
        Some(body) => Ok(format!("PL{number}: {body};\n")),
        None => Err(without_a_line(number)),
    });
    lines.collect::<Result<String, Bad>>().map(String::into_bytes)
}

fn written_body(rule: &Rule) -> Option<String> {
    match rule {
        Rule::Before { role, required } => {
            Some(format!("assign-role r{role} prerequisite r{required}"))
        }
        Rule::MaxUsers { role, limit } => Some(format!("maxUsers = {limit} only-for-role r{role}")),
        Rule::MaxRoles { limit } => Some(format!("maxRoles-User = {limit}")),
        Rule::MaxActive { limit } => Some(format!("maxActiveRoles = {limit}")),
        Rule::Needs { role, needed } => {
            Some(format!("enable r{role} if active r{needed} deactivation-dependency"))
        }
        Rule::MaxPermissions { .. }
        | Rule::Apart { .. }
        | Rule::ApartActive { .. }
        | Rule::During { .. }
        | Rule::At { .. }
        | Rule::TwoHands { .. }
        | Rule::SameHand { .. } => None,
    }
}
