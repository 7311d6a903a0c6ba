//! Two rule lists joined (2026-07): pairs of a seed, and pairs at the edges.

use super::always::edges;
use super::rights::rights_of;
use super::seeded::damaged;
use crate::compare::{Compared, Comparison};
use crate::generate::edges::{two_number_edges, RULE_LINES};
use crate::generate::joined::pair_of_lists;
use crate::generate::policies::numbered_rules;
use crate::generate::random::Random;
use crate::generate::states::drawn_state;
use crate::generate::world::World;
use crate::plain::rights::RightKind;
use crate::plain::rule_text::{read_rules, write_rules};
use crate::plain::rules::RuleList;
use crate::plain::state::State;
use crate::plain::state_text::write_state;
use crate::vectors::{text, vectors};

const DAMAGED_ROUNDS: usize = 4;
const STATES: usize = 2;
const MOST_RULES: usize = 128;
const LENGTHS: [usize; 7] = [0, 1, 2, 64, 126, 127, MOST_RULES];
const ALL_CHOICES: usize = 1 << RightKind::ALL.len();

/// Rules of which each differs from some other by one number, by one word, or by the order of two
/// numbers.
const NEIGHBOURS: [&str; 58] = [
    "(before 1 2)",
    "(before 2 1)",
    "(before 1 3)",
    "(needs 1 2)",
    "(needs 2 1)",
    "(needs 1 3)",
    "(apart 1 2)",
    "(apart 2 1)",
    "(apart 1 3)",
    "(apart-active 1 2)",
    "(apart-active 2 1)",
    "(apart-active 1 3)",
    "(two-hands 1 2)",
    "(two-hands 2 1)",
    "(two-hands 1 3)",
    "(same-hand 1 2)",
    "(same-hand 2 1)",
    "(same-hand 1 3)",
    "(max-users 1 2)",
    "(max-users 2 1)",
    "(max-users 1 3)",
    "(max-permissions 1 2)",
    "(max-permissions 2 1)",
    "(max-permissions 1 3)",
    "(max-roles 1)",
    "(max-roles 2)",
    "(max-active 1)",
    "(max-active 2)",
    "(during 1 (dates 20240229 20240301))",
    "(during 2 (dates 20240229 20240301))",
    "(during 1 (dates 20240228 20240301))",
    "(during 1 (dates 20240229 20240302))",
    "(during 1 (week 1 5 0700 1900))",
    "(during 1 (week 5 1 0700 1900))",
    "(during 1 (week 1 5 0701 1900))",
    "(during 1 (week 1 5 0700 1901))",
    "(during 1 (week 1 5 1900 0700))",
    "(during 1 (months 1 2))",
    "(during 1 (months 2 1))",
    "(during 1 (months 1 3))",
    "(during 1 (nth 1 2))",
    "(during 1 (nth 2 1))",
    "(during 1 (nth 1 3))",
    "(during 1 (every 1 20240229))",
    "(during 1 (every 2 20240229))",
    "(during 1 (every 1 20240301))",
    "(at 1 (inside (circle 1 2 3)))",
    "(at 1 (outside (circle 1 2 3)))",
    "(at 1 (inside (circle -1 2 3)))",
    "(at 1 (outside (circle 1 -2 3)))",
    "(at 1 (inside (circle 1 2 4)))",
    "(at 2 (outside (circle 1 2 3)))",
    "(at 1 (inside (box 1 2 3 4)))",
    "(at 1 (outside (box 1 2 3 4)))",
    "(at 1 (inside (box -1 2 3 4)))",
    "(at 1 (outside (box 1 2 3 5)))",
    "(at 1 (inside (box 1 2 4 4)))",
    "(at 2 (outside (box 1 2 3 4)))",
];

/// A line with each number that refuses a rule list, as the next line after so many rules.
const BAD_LINES: [&str; 7] = [
    "(rule # (max-roles 5)",
    "(rule # (max-roles 33))",
    "(rule 77 (max-roles 5))",
    "(right recall 30)",
    "(rule # (needs 4 4))",
    "(rule # (during 4 (dates 20260608 20260607)))",
    "PL#: maxRoles-User = 5;",
];

/// A pair either way round, by itself and damaged, and states under its joined list.
pub fn compare_seeded_joins(comparison: &mut Comparison, random: &mut Random) -> Compared {
    let world = World::new(random);
    let lists = pair_of_lists(random, &world);
    let [first, second] = [&lists[0], &lists[1]].map(write_rules);
    for (first, second) in [(&first, &second), (&second, &first)] {
        comparison.join_rules(first, second)?;
        comparison.join_again(first, second)?;
    }
    for _ in 0..STATES {
        let state = drawn_state(random, &world);
        compare_states(comparison, random, &lists, &state)?;
    }
    for _ in 0..DAMAGED_ROUNDS {
        let [bad_first, bad_second] =
            [&first, &second].map(|text| damaged(comparison, random, text));
        comparison.join_rules(&bad_first, &second)?;
        comparison.join_rules(&first, &bad_second)?;
        comparison.join_rules(&bad_first, &bad_second)?;
    }
    Ok(())
}

/// The state under the lists as they are; without the rules that it breaks in one, and in both; and
/// damaged.
fn compare_states(
    comparison: &mut Comparison,
    random: &mut Random,
    [first, second]: &[RuleList; 2],
    state: &State,
) -> Compared {
    let kept = |list: &RuleList| {
        let rules = list.rules.iter().filter(|rule| rule.holds(state)).cloned();
        write_rules(&RuleList { rights: list.rights.clone(), rules: rules.collect() })
    };
    let [kept_first, kept_second] = [kept(first), kept(second)];
    let [first, second] = [first, second].map(write_rules);
    let state = write_state(state);
    comparison.check_joined_state(&first, &second, &state)?;
    comparison.check_joined_state(&kept_first, &second, &state)?;
    comparison.check_joined_state(&first, &kept_second, &state)?;
    comparison.check_joined_state(&kept_first, &kept_second, &state)?;
    let state = damaged(comparison, random, &state);
    comparison.check_joined_state(&kept_first, &kept_second, &state)
}

pub fn compare_joins(comparison: &mut Comparison) -> Compared {
    compare_neighbours(comparison)?;
    compare_numbers(comparison)?;
    compare_rights(comparison)?;
    compare_lengths(comparison)?;
    compare_the_line_too_many(comparison)?;
    compare_doubles(comparison)?;
    compare_bad_texts(comparison)?;
    compare_saved_vectors(comparison)
}

/// Each rule with each other, alone and behind one that both lists have.
fn compare_neighbours(comparison: &mut Comparison) -> Compared {
    for one in NEIGHBOURS {
        for other in NEIGHBOURS {
            compare_pair(comparison, &[one], &[other])?;
            compare_pair(comparison, &["(max-roles 9)", one], &[other, "(max-roles 9)", one])?;
        }
    }
    compare_pair(comparison, &NEIGHBOURS, &NEIGHBOURS)?;
    for line in RULE_LINES {
        for other in RULE_LINES {
            comparison.join_rules(line.as_bytes(), other.as_bytes())?;
        }
    }
    Ok(())
}

/// Each line of a list beside itself with its numbers at their edges, either way round.
fn compare_numbers(comparison: &mut Comparison) -> Compared {
    for line in RULE_LINES {
        let changed: Vec<Vec<u8>> =
            if line.contains("(during ") { two_number_edges(line) } else { edges(line).collect() };
        for other in changed {
            comparison.join_rules(line.as_bytes(), &other)?;
            comparison.join_rules(&other, line.as_bytes())?;
        }
    }
    Ok(())
}

/// Each choice of right lines beside each other: equal ones, and with another permission of one
/// kind in the second list; then one permission for all kinds of a list, the same and another.
fn compare_rights(comparison: &mut Comparison) -> Compared {
    for chosen in 0..ALL_CHOICES {
        let first = rights_of(chosen) + "(rule 1 (max-roles 5))\n";
        for other in 0..ALL_CHOICES {
            let second = rights_of(other) + "(rule 1 (max-active 2))\n";
            comparison.join_rules(first.as_bytes(), second.as_bytes())?;
            for kind in RightKind::ALL {
                let [equal, other] = [2, 1].map(|digit| format!("(right {} {digit}", kind.name()));
                if second.contains(&equal) {
                    let changed = second.replace(&equal, &other);
                    comparison.join_rules(first.as_bytes(), changed.as_bytes())?;
                }
            }
            for permission in [7, 8] {
                let [first, second] = [(chosen, 7), (other, permission)].map(one_permission);
                comparison.join_rules(first.as_bytes(), second.as_bytes())?;
            }
        }
    }
    Ok(())
}

fn one_permission((chosen, permission): (usize, usize)) -> String {
    let lines = rights_of(chosen);
    let kinds = lines.lines().filter_map(|line| line.rsplit_once(' '));
    kinds.map(|(kind, _)| format!("{kind} {permission})\n")).collect()
}

/// Lists of each length with so many rules in common, with right lines and without.
fn compare_lengths(comparison: &mut Comparison) -> Compared {
    let stock = stock();
    for of_first in LENGTHS {
        for of_second in LENGTHS {
            for in_common in LENGTHS.into_iter().filter(|rules| *rules <= of_first.min(of_second)) {
                let start = of_first - in_common;
                let first = numbered(&stock[..of_first]);
                let second = numbered(&stock[start..start + of_second]);
                for rights in [0, 5, ALL_CHOICES - 1] {
                    let [first, second] = [&first, &second].map(|rules| rights_of(rights) + rules);
                    comparison.join_rules(first.as_bytes(), second.as_bytes())?;
                    comparison.join_again(first.as_bytes(), second.as_bytes())?;
                }
                let [first, second] = [(0, first.clone()), (1, second)]
                    .map(|(permission, rules)| format!("(right take {permission})\n{rules}"));
                comparison.join_rules(first.as_bytes(), second.as_bytes())?;
            }
        }
    }
    Ok(())
}

/// 128 rules, and one more at each place of a second list that has no other.
fn compare_the_line_too_many(comparison: &mut Comparison) -> Compared {
    let stock = stock();
    let first = numbered(&stock[..MOST_RULES]);
    for place in 0..MOST_RULES {
        let mut rules = stock[..MOST_RULES].to_vec();
        rules[place] = stock[MOST_RULES].clone();
        for rights in [0, 1, ALL_CHOICES - 1] {
            let second = rights_of(rights) + &numbered(&rules);
            comparison.join_rules(first.as_bytes(), second.as_bytes())?;
            let shorter = rights_of(rights) + &numbered(&rules[..=place]);
            comparison.join_rules(first.as_bytes(), shorter.as_bytes())?;
        }
    }
    Ok(())
}

/// A rule that stands often in either list, among others.
fn compare_doubles(comparison: &mut Comparison) -> Compared {
    let stock = stock();
    let doubled = |rules: usize, different: usize| {
        let rules = (0..rules).map(|index| stock[index % different].clone());
        numbered(&Vec::from_iter(rules))
    };
    for of_first in LENGTHS {
        for of_second in LENGTHS {
            for different in [1, 2, 3, 60, 127, MOST_RULES] {
                let [first, second] = [of_first, of_second].map(|rules| doubled(rules, different));
                comparison.join_rules(first.as_bytes(), second.as_bytes())?;
                let others = numbered(&stock[different..different + of_second]);
                comparison.join_rules(first.as_bytes(), others.as_bytes())?;
                comparison.join_rules(others.as_bytes(), second.as_bytes())?;
            }
        }
    }
    Ok(())
}

/// Bad lines in either list and in both, behind good ones that could be joined and that could not.
fn compare_bad_texts(comparison: &mut Comparison) -> Compared {
    let stock = stock();
    let full = numbered(&stock[..MOST_RULES]);
    let starts = [
        String::new(),
        numbered(&stock[..1]),
        numbered(&stock[MOST_RULES..MOST_RULES + 1]),
        "(right assign 3)\n".to_string(),
        "(right assign 4)\n".to_string() + &numbered(&stock[..2]),
        "(right assign 4)\n".to_string() + &full,
        full,
    ];
    for first in &starts {
        for second in &starts {
            comparison.join_rules(first.as_bytes(), second.as_bytes())?;
            for line in BAD_LINES {
                let [bad_first, bad_second] = [first, second].map(|start| with_line(start, line));
                comparison.join_rules(bad_first.as_bytes(), second.as_bytes())?;
                comparison.join_rules(first.as_bytes(), bad_second.as_bytes())?;
                for other in BAD_LINES {
                    let bad_second = with_line(second, other);
                    comparison.join_rules(bad_first.as_bytes(), bad_second.as_bytes())?;
                }
            }
        }
    }
    Ok(())
}

/// The line with the next number after an accepted list.
fn with_line(start: &str, line: &str) -> String {
    let rules = read_rules(start.as_bytes()).expect("an accepted list").rules.len();
    format!("{start}{}\n", line.replace('#', &(rules + 1).to_string()))
}

/// The rules of each saved state of the vectors, joined to rules that any state obeys.
fn compare_saved_vectors(comparison: &mut Comparison) -> Compared {
    let kept = numbered_rules(&["(max-roles 32)", "(max-active 32)"]);
    for path in vectors("handover", "rules") {
        let [rules, state] = ["rules", "state"].map(|end| text(&path, end));
        comparison.check_joined_state(kept.as_bytes(), &rules, &state)?;
        comparison.check_joined_state(&rules, kept.as_bytes(), &state)?;
        comparison.check_joined_state(b"", &rules, &state)?;
        comparison.check_joined_state(&rules, &rules, &state)?;
    }
    Ok(())
}

/// More different rules than two lists can have.
fn stock() -> Vec<String> {
    let limits = (0..=64).flat_map(|limit| (0..32).map(move |role| (role, limit)));
    limits.map(|(role, limit)| format!("(max-users {role} {limit})")).collect()
}

fn numbered(rules: &[String]) -> String {
    numbered_rules(&rules.iter().map(String::as_str).collect::<Vec<_>>())
}

fn compare_pair(comparison: &mut Comparison, first: &[&str], second: &[&str]) -> Compared {
    let [first, second] = [first, second].map(numbered_rules);
    comparison.join_rules(first.as_bytes(), second.as_bytes())
}
