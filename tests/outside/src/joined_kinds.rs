//! The kinds of cases that joining two rule lists brings (2026-07).

use crate::compare::expected::Refused;
use crate::counts::{Kind, FAMILIES};
use crate::plain::form::Bad;
use crate::plain::joined::join;
use crate::plain::ranges::RULE_NUMBERS;
use crate::plain::rights::{RightKind, Rights};
use crate::plain::rules::{Rule, RuleList};

const ADDED: &str = "rule of the second list joined, of";
const ADDED_AS: &str = "rule of the second list joined";
const OWN_NUMBER: &str = "under its own number";
const RENUMBERED: &str = "renumbered";
const ADDED_BESIDE_SWAPPED: &str = "rule joined beside one with its two numbers swapped, of";
const ADDED_BESIDE_NUMBER: &str = "rule joined beside one with a single other number, of";
const ADDED_BESIDE_WORD: &str = "rule joined beside one with a single other word, of";

const LEFT_OUT: &str = "rule of the second list left out, of";
const LEFT_OUT_AS: &str = "rule of the second list left out, equal to";
const SAME_NUMBER: &str = "the first list's rule of its number";
const OTHER_NUMBER: &str = "a rule of the first list with another number";
const JOINED_BEFORE: &str = "an earlier rule of the second list alone";

const RIGHT_OF_FIRST: &str = "right line of the first list alone";
const RIGHT_OF_SECOND: &str = "right line of the second list alone";
const RIGHT_OF_BOTH: &str = "right line of both lists, equal";
const RIGHTS_MERGED: &str = "right line of the second list that goes before one of the first";

const PAIR: &str = "lists joined";
const BOTH_EMPTY: &str = "both empty";
const FIRST_EMPTY: &str = "the first empty";
const SECOND_EMPTY: &str = "the second empty";
const ONE_LIST_TWICE: &str = "the same list twice";
const DOUBLES_IN_FIRST: &str = "with doubles in the first";
const NOTHING_ADDED: &str = "with no rule of the second to add";
const SUM_ABOVE_MOST: &str = "of more than 128 rules in all, and no more joined";
const TWICE_MOST: &str = "of 128 rules each, and no more joined";
const JOINED_RULES: &str = "joined list, rules";
const IN_ALL: &str = "in all";

const DIFFERENT: &str = "58, right line of";
const DIFFERENT_AND: &str = "58";
const EQUAL_BEFORE: &str = "after an equal right line";
const DIFFERENT_LATER: &str = "before another that differs";
const TOO_MANY_TOO: &str = "with more than 128 rules to be joined";

const TOO_MANY: &str = "57";
const LAST_LINE: &str = "by the last line";
const LINES_AFTER: &str = "with lines after it";
const AFTER_LEFT_OUT: &str = "after a rule that was left out";
const BEHIND_RIGHTS: &str = "behind right lines";
const FIRST_FULL: &str = "with 128 rules in the first list";
const FIRST_NOT_FULL: &str = "with fewer rules in the first list";

const BOTH_REFUSED: &str = "refused though the other list is bad too,";
const FIRST_OF_BOTH: &str = "the first of two to be joined";
const LATER_LINE: &str = "bad line of the second list after";
const LINE_OF_58: &str = "a right line that differs";
const LINE_OF_57: &str = "the rule that would be one too many";

const STATE: &str = "state under a joined list";
const OBEYS_BOTH: &str = "obeys both lists";
const BREAKS_FIRST: &str = "breaks the first alone";
const BREAKS_SECOND: &str = "breaks the second alone";
const BREAKS_BOTH: &str = "breaks both";
const BAD_STATE: &str = "is refused by itself";
const BROKEN: &str = "17 under a joined list";
const RULE_OF_FIRST: &str = "a rule of the first";
const RULE_OF_SECOND: &str = "a rule of the second under its own number";
const RULE_RENUMBERED: &str = "a rule of the second, renumbered";

const FAMILIES_OF_PAIRS: [&str; 6] =
    ["before", "apart", "apart-active", "needs", "two-hands", "same-hand"];
/// No other family has a line like these but for one word.
const FAMILIES_BY_THEMSELVES: [&str; 3] = ["during dates", "during week", "during every"];
const BAD_LINES: [u64; 5] = [10, 11, 12, 13, 14];
const MOST_RULES: usize = *RULE_NUMBERS.end() as usize;

pub fn joined_kinds_to_meet() -> Vec<Kind> {
    let mut kinds = rule_kinds_to_meet();
    for kind in RightKind::ALL {
        let groups = [RIGHT_OF_FIRST, RIGHT_OF_SECOND, RIGHT_OF_BOTH, DIFFERENT];
        kinds.extend(groups.map(|group| (group, kind.name(), 0)));
    }
    kinds.push((RIGHTS_MERGED, "", 0));
    let pairs = [
        BOTH_EMPTY,
        FIRST_EMPTY,
        SECOND_EMPTY,
        ONE_LIST_TWICE,
        DOUBLES_IN_FIRST,
        NOTHING_ADDED,
        SUM_ABOVE_MOST,
        TWICE_MOST,
    ];
    kinds.extend(pairs.map(|name| (PAIR, name, 0)));
    kinds.extend([1, MOST_RULES as u64].map(|rules| (JOINED_RULES, IN_ALL, rules)));
    let different = [EQUAL_BEFORE, DIFFERENT_LATER, TOO_MANY_TOO];
    kinds.extend(different.map(|name| (DIFFERENT_AND, name, 0)));
    let lines = [LAST_LINE, LINES_AFTER, AFTER_LEFT_OUT, BEHIND_RIGHTS, FIRST_FULL, FIRST_NOT_FULL];
    kinds.extend(lines.map(|name| (TOO_MANY, name, 0)));
    kinds.extend(BAD_LINES.map(|number| (BOTH_REFUSED, FIRST_OF_BOTH, number)));
    for number in BAD_LINES {
        kinds.extend([LINE_OF_58, LINE_OF_57].map(|name| (LATER_LINE, name, number)));
    }
    let states = [OBEYS_BOTH, BREAKS_FIRST, BREAKS_SECOND, BREAKS_BOTH, BAD_STATE];
    kinds.extend(states.map(|name| (STATE, name, 0)));
    let rules = [RULE_OF_FIRST, RULE_OF_SECOND, RULE_RENUMBERED];
    kinds.extend(rules.map(|name| (BROKEN, name, 0)));
    kinds
}

fn rule_kinds_to_meet() -> Vec<Kind> {
    let mut kinds = Vec::new();
    for family in FAMILIES {
        kinds.extend([ADDED, LEFT_OUT, ADDED_BESIDE_NUMBER].map(|group| (group, family, 0)));
    }
    let with_others =
        FAMILIES.into_iter().filter(|family| !FAMILIES_BY_THEMSELVES.contains(family));
    kinds.extend(with_others.map(|family| (ADDED_BESIDE_WORD, family, 0)));
    kinds.extend(FAMILIES_OF_PAIRS.map(|family| (ADDED_BESIDE_SWAPPED, family, 0)));
    kinds.extend([OWN_NUMBER, RENUMBERED].map(|name| (ADDED_AS, name, 0)));
    kinds.extend([SAME_NUMBER, OTHER_NUMBER, JOINED_BEFORE].map(|name| (LEFT_OUT_AS, name, 0)));
    kinds
}

/// Two accepted lists, joined or refused.
pub fn pair_kinds(lists: &[RuleList; 2], joined: &Result<RuleList, Refused>) -> Vec<Kind> {
    match joined {
        Ok(joined) => accepted_kinds(lists, joined),
        Err(Refused { number: 58, place, .. }) => different_kinds(lists, *place as usize - 1),
        Err(Refused { place, .. }) => too_many_kinds(lists, *place as usize - 1),
    }
}

fn accepted_kinds([first, second]: &[RuleList; 2], joined: &RuleList) -> Vec<Kind> {
    let mut kinds = list_kinds(first, second, joined);
    kinds.extend(right_kinds(&first.rights, &second.rights));
    let mut number = first.rules.len();
    for (index, rule) in second.rules.iter().enumerate() {
        let left_out = match () {
            _ if first.rules.get(index) == Some(rule) => SAME_NUMBER,
            _ if first.rules.contains(rule) => OTHER_NUMBER,
            _ if second.rules[..index].contains(rule) => JOINED_BEFORE,
            _ => {
                kinds.extend(added_kinds(rule, &joined.rules[..number]));
                kinds.push((ADDED_AS, if number == index { OWN_NUMBER } else { RENUMBERED }, 0));
                number += 1;
                continue;
            }
        };
        kinds.extend([(LEFT_OUT, rule.family(), 0), (LEFT_OUT_AS, left_out, 0)]);
    }
    kinds
}

fn list_kinds(first: &RuleList, second: &RuleList, joined: &RuleList) -> Vec<Kind> {
    let (one, other, both) = (first.rules.len(), second.rules.len(), joined.rules.len());
    let doubled = |index: usize| first.rules[..index].contains(&first.rules[index]);
    let [first_empty, second_empty] = [first, second].map(|list| *list == RuleList::default());
    let shown = [
        (BOTH_EMPTY, first_empty && second_empty),
        (FIRST_EMPTY, first_empty && !second_empty),
        (SECOND_EMPTY, second_empty && !first_empty),
        (ONE_LIST_TWICE, first == second && !first_empty),
        (DOUBLES_IN_FIRST, (0..one).any(doubled)),
        (NOTHING_ADDED, both == one && other > 0),
        (SUM_ABOVE_MOST, one + other > MOST_RULES),
        (TWICE_MOST, one + other == 2 * MOST_RULES),
    ];
    let shown = shown.into_iter().filter(|(_, is_so)| *is_so);
    let lengths = [1, MOST_RULES].into_iter().filter(|length| *length == both);
    let lengths = lengths.map(|length| (JOINED_RULES, IN_ALL, length as u64));
    shown.map(|(name, _)| (PAIR, name, 0)).chain(lengths).collect()
}

fn right_kinds(first: &Rights, second: &Rights) -> Vec<Kind> {
    let mut kinds = Vec::new();
    for kind in RightKind::ALL {
        let group = match (first.get(&kind), second.get(&kind)) {
            (Some(_), None) => RIGHT_OF_FIRST,
            (None, Some(_)) => RIGHT_OF_SECOND,
            (Some(_), Some(_)) => RIGHT_OF_BOTH,
            (None, None) => continue,
        };
        kinds.push((group, kind.name(), 0));
        if group == RIGHT_OF_SECOND && first.keys().any(|&other| other > kind) {
            kinds.push((RIGHTS_MERGED, "", 0));
        }
    }
    kinds
}

/// A rule that is joined to these, and how it is almost equal to one of them.
fn added_kinds(rule: &Rule, joined: &[Rule]) -> Vec<Kind> {
    let mut groups = vec![ADDED];
    let written = rule.to_string();
    for other in joined.iter().map(Rule::to_string) {
        if shape(&other) != shape(&written) {
            continue;
        }
        let words = written.split(['(', ')', ' ']).zip(other.split(['(', ')', ' ']));
        let different: Vec<_> = words.filter(|(one, other)| one != other).collect();
        match different[..] {
            [(one, _)] if one.parse::<i64>().is_ok() => groups.push(ADDED_BESIDE_NUMBER),
            [_] => groups.push(ADDED_BESIDE_WORD),
            [(one, other), swapped] if swapped == (other, one) => {
                groups.push(ADDED_BESIDE_SWAPPED);
            }
            _ => {}
        }
    }
    groups.into_iter().map(|group| (group, rule.family(), 0)).collect()
}

/// What is left of a rule without its words and numbers.
fn shape(written: &str) -> String {
    written.chars().filter(|letter| "() ".contains(*letter)).collect()
}

/// The right line of the second list at this index has another permission.
fn different_kinds([first, second]: &[RuleList; 2], index: usize) -> Vec<Kind> {
    let of_both = |(place, (kind, permission)): (usize, (&RightKind, &i64))| {
        first.rights.get(kind).map(|other| (place, kind.name(), other == permission))
    };
    let lines: Vec<_> = second.rights.iter().enumerate().filter_map(of_both).collect();
    let refused = lines.iter().filter(|(place, ..)| *place == index);
    let refused = refused.map(|(_, name, _)| (DIFFERENT, *name, 0));
    let rules = [first, second].map(|list| RuleList { rights: Rights::new(), ..list.clone() });
    let shown = [
        (EQUAL_BEFORE, lines.iter().any(|(place, ..)| *place < index)),
        (DIFFERENT_LATER, lines.iter().any(|(place, _, is_equal)| *place > index && !is_equal)),
        (TOO_MANY_TOO, join(&rules[0], &rules[1]).is_err()),
    ];
    let shown = shown.into_iter().filter(|(_, is_so)| *is_so);
    refused.chain(shown.map(|(name, _)| (DIFFERENT_AND, name, 0))).collect()
}

/// The rule in the second list's line of this index is the one too many.
fn too_many_kinds([first, second]: &[RuleList; 2], index: usize) -> Vec<Kind> {
    let rule = index - second.rights.len();
    let is_last = rule + 1 == second.rules.len();
    let is_full = first.rules.len() == MOST_RULES;
    let mut names = vec![
        if is_last { LAST_LINE } else { LINES_AFTER },
        if is_full { FIRST_FULL } else { FIRST_NOT_FULL },
    ];
    if first.rules.len() + rule > MOST_RULES {
        names.push(AFTER_LEFT_OUT);
    }
    if !second.rights.is_empty() {
        names.push(BEHIND_RIGHTS);
    }
    names.into_iter().map(|name| (TOO_MANY, name, 0)).collect()
}

/// Both texts are bad, and the first is refused with this number.
pub fn both_refused_kind(number: u64) -> Kind {
    (BOTH_REFUSED, FIRST_OF_BOTH, number)
}

/// The second text is refused with this number, and its lines before that could not be joined.
pub fn later_line_kind(Bad { number: hidden, .. }: Bad, number: u64) -> Kind {
    (LATER_LINE, if hidden == 58 { LINE_OF_58 } else { LINE_OF_57 }, number)
}

/// A saved state under the first list, under the second, and under the joined one, which has the
/// rules of the first before all others.
pub fn joined_state_kinds(
    [first, second]: [Option<Refused>; 2],
    joined: Option<Refused>,
    rules_of_first: usize,
) -> Vec<Kind> {
    let under_joined = match (first, second) {
        (None, None) => OBEYS_BOTH,
        (Some(Refused { number: 17, .. }), None) => BREAKS_FIRST,
        (None, Some(Refused { number: 17, .. })) => BREAKS_SECOND,
        (Some(Refused { number: 17, .. }), _) => BREAKS_BOTH,
        _ => BAD_STATE,
    };
    let broken = joined.filter(|refusal| refusal.number == 17).map(|Refused { place, .. }| {
        let is_of_first = place as usize <= rules_of_first;
        match second {
            _ if is_of_first => RULE_OF_FIRST,
            Some(refusal) if refusal.place == place => RULE_OF_SECOND,
            _ => RULE_RENUMBERED,
        }
    });
    let broken = broken.map(|name| (BROKEN, name, 0));
    [(STATE, under_joined, 0)].into_iter().chain(broken).collect()
}
